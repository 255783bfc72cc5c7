//! Prints the sheet of an image: the route of least greatest regret from node 1 to node n, ranked in
//! column 1 over at most 48 paths.
//!
//! ```text
//! cargo run --example robust -- ../../examples/S.image
//! ```

use std::io::Write;
use std::path::Path;
use std::process::ExitCode;
use vihrolom::{Choice, Network, Refusal};

fn choose(image: Vec<u8>) -> Result<Choice, Refusal> {
    let network = Network::from_image(image)?;
    network.robust(1, 1, network.nodes(), 48)
}

/// The sheet of the image in the file that the command line names, or one line that says what is wrong.
fn sheet() -> Result<String, String> {
    let mut arguments = std::env::args_os().skip(1);
    let (Some(file), None) = (arguments.next(), arguments.next()) else {
        return Err("usage: robust FILE.image".into());
    };
    let file = Path::new(&file);
    let image =
        std::fs::read(file).map_err(|error| format!("robust: {}: {error}", file.display()))?;
    match choose(image) {
        Ok(choice) => Ok(format!("{choice}\n")),
        Err(refusal) => {
            let (number, place) = (refusal.number(), refusal.place());
            Err(format!("refused {number} at {place}: {}", refusal.words()))
        }
    }
}

fn main() -> ExitCode {
    let printed = sheet().and_then(|text| {
        std::io::stdout()
            .write_all(text.as_bytes())
            .map_err(|error| format!("robust: standard output: {error}"))
    });
    match printed {
        Ok(()) => ExitCode::SUCCESS,
        Err(line) => {
            eprintln!("{line}");
            ExitCode::FAILURE
        }
    }
}
