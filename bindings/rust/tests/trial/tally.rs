//! How many comparisons were made, and of which kinds.

use crate::plain::Refused;
use std::collections::BTreeMap;
use std::fmt::Debug;
use std::io::Write;
use vihrolom::Refusal;

/// Number and place of a refusal.
pub fn numbers(refusal: Refusal) -> Refused {
    (refusal.number(), refusal.place())
}

/// Counts of comparisons by call and of answers by kind.
#[derive(Default)]
pub struct Tally {
    calls: BTreeMap<&'static str, u32>,
    answers: BTreeMap<String, u32>,
}

impl Tally {
    /// Holds an answer of the library to the expected one; `about` tells what was asked.
    pub fn hold<T: Debug + PartialEq>(
        &mut self,
        call: &'static str,
        got: Result<T, Refusal>,
        expected: Result<T, Refused>,
        about: &dyn Debug,
    ) {
        let got = got.map_err(numbers);
        assert_eq!(got, expected, "{call} of {about:?}");
        *self.calls.entry(call).or_default() += 1;
        match got {
            Ok(_) => self.saw("result"),
            Err((number, _)) => self.saw(&format!("refusal {number}")),
        }
    }

    /// Counts an answer of this kind.
    pub fn saw(&mut self, kind: &str) {
        *self.answers.entry(kind.into()).or_default() += 1;
    }

    /// Prints all counts, and asserts that at least so many comparisons were made and that each kind
    /// of answer came up at least 100 times.
    pub fn report(&self, title: &str, least: u32, kinds: &[impl AsRef<str>]) {
        let total: u32 = self.calls.values().sum();
        let mut text = format!("{title}: {total} comparisons agreed\n ");
        for (call, count) in &self.calls {
            text += &format!(" {call} {count}");
        }
        text += "\n ";
        for (kind, count) in &self.answers {
            text += &format!(" {kind}: {count};");
        }
        // Written past the test harness, which would keep back what `println!` prints.
        writeln!(std::io::stdout(), "{text}").expect("standard output");
        assert!(total >= least, "only {total} comparisons");
        for kind in kinds {
            let kind = kind.as_ref();
            let seen = self.answers.get(kind).copied().unwrap_or(0);
            assert!(seen >= 100, "{kind} came up only {seen} times");
        }
    }
}
