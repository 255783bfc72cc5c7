//! Lists of events on drawn networks, held to the enumeration: each answer is that of Robust on the network
//! without the closed arcs, and is found anew exactly where the rule doesn't let it stand.

use crate::draw::{self, Asked, Draw};
use crate::lent::Lent;
use crate::plain::{Chosen, Net, Query};
use crate::random::chosen;
use crate::tally::numbers;
use std::io::Write;
use vihrolom::{calls, Network, Week};

const NETWORKS: u32 = 5_000;

/// A week found in the plainest way.
struct Plain<'a> {
    net: &'a Net,
    asked: Asked,
    closed: Vec<bool>,
    answer: Option<Chosen>,
}

impl Plain<'_> {
    fn new(net: &Net, asked: Asked) -> Plain<'_> {
        let mut plain = Plain {
            net,
            asked,
            closed: vec![false; net.arcs.len()],
            answer: None,
        };
        plain.find_anew();
        plain
    }

    fn find_anew(&mut self) {
        let Asked {
            column,
            start,
            goal,
            k,
        } = self.asked;
        let left = self.net.without(&self.closed);
        self.answer = Query::new(&left, start, goal).robust(column, k).ok();
    }

    fn bests(&self) -> Vec<Option<u32>> {
        let left = self.net.without(&self.closed);
        Query::new(&left, self.asked.start, self.asked.goal).bests()
    }

    /// Whether the answer is settled and its route doesn't take the arc.
    fn spares(&self, arc: usize) -> bool {
        let (tail, head) = self.net.arcs[arc];
        let settled = self.answer.as_ref().filter(|answer| answer.floor.is_none());
        settled.is_some_and(|answer| answer.route.windows(2).all(|pair| pair != [tail, head]))
    }

    /// Whether Robust is run again.
    fn event(&mut self, arc: usize, close: bool) -> bool {
        if self.closed[arc] == close {
            return false;
        }
        let (spared, bests) = (close && self.spares(arc), self.bests());
        self.closed[arc] = close;
        let runs = !(spared && self.bests() == bests);
        if runs {
            self.find_anew();
        }
        runs
    }
}

/// Has an event happen, and holds the week to the plain one.
fn follow(week: &mut Week, plain: &mut Plain, arc: u32, close: bool) -> bool {
    let reply = if close {
        week.close(arc)
    } else {
        week.reopen(arc)
    };
    let is_arc = (arc as usize) < plain.net.arcs.len();
    let expected = if is_arc { Ok(()) } else { Err((20, arc)) };
    assert_eq!(reply.map_err(numbers), expected);
    let ran = is_arc && plain.event(arc as usize, close);
    let about = (plain.net, plain.asked, &plain.closed);
    assert_eq!(week.answer().map(chosen), plain.answer, "{about:?}");
    let roads = plain.closed.iter().filter(|&&closed| closed).count();
    assert_eq!(week.closed_roads() as usize, roads, "{about:?}");
    ran
}

#[test]
fn weeks_agree_with_the_enumeration_on_random_events() {
    let mut draw = Draw::new(9);
    let (mut events, mut runs) = (0, 0);
    for _ in 0..NETWORKS {
        let net = draw::network(&mut draw);
        let network = Network::from_image(net.image()).expect("an admitted network");
        let asked = draw::asked(&net, &mut draw);
        let Asked {
            column,
            start,
            goal,
            k,
        } = asked;
        let refused = Query::new(&net, start, goal).robust(column, k).err();
        let mut week = match network.week(column, start, goal, k) {
            Ok(week) => week,
            Err(refusal) => {
                assert_eq!(Some(numbers(refusal)), refused);
                continue;
            }
        };
        let mut plain = Plain::new(&net, asked);
        for _ in 0..draw.between(0, 15) {
            let arc = draw.between(0, net.arcs.len() as u32);
            let close = draw.between(1, 10) <= 7;
            runs += u32::from(follow(&mut week, &mut plain, arc, close));
            events += 1;
            if draw.once_in(5) {
                let bytes = week.to_bytes();
                week = Week::from_bytes(&bytes, &network, column, start, goal, k).expect("a week");
            }
        }
    }
    let text = format!("weeks: {events} events agreed, {runs} of them with a run");
    writeln!(std::io::stdout(), "{text}").expect("standard output");
    assert!(events >= 5 * NETWORKS && runs >= NETWORKS && events - runs >= NETWORKS);
}

/// A workspace that is too short is refused, and any other is cleared; nothing beside it is touched.
#[test]
fn workspaces_of_any_length_in_a_week() {
    let mut draw = Draw::new(11);
    for _ in 0..300 {
        let net = draw::network(&mut draw);
        let (image, k) = (net.image(), draw.between(1, 12));
        let n = net.n as usize;
        let needed = (k as usize + 1) * (n + 16) + 16 * n + 64;
        let fresh = calls::week_fresh(&image, 1, 1, net.n, k, &mut vec![7; needed]).week;
        for length in [0, needed - 1, needed, needed + 100] {
            let arc = draw.between(0, net.arcs.len() as u32);
            let is_arc = (arc as usize) < net.arcs.len();
            let (row, place) = if length < needed {
                (13, 0)
            } else if is_arc {
                (0, 0)
            } else {
                (20, arc)
            };
            let mut work = Lent::new(length);
            let reply = calls::week_event(&image, 1, 1, net.n, k, fresh, arc, true, work.slice());
            assert_eq!((reply.refusal, reply.place), (row, place));
            let written = if row == 0 { length } else { 0 };
            work.assert_holds(&vec![0; written]);
            if row != 0 {
                assert_eq!((reply.week, reply.closed_roads), (fresh, 0));
            }
        }
    }
}
