//! Marks sheets against the best timetable of a network:
//!
//! ```text
//! cargo run --release --offline --example hall -- ../samples/village.hex ../samples/village/*.sheet
//! ```
//!
//! The network is typed; a sheet has a whole number for each line, in line
//! order, with `#` comments.

use engine::{typed, Hundred, Mark, Rating, Sheet};
use std::error::Error;

/// So many tries at most for each mark.
const BUDGET: u32 = 1_000_000;

fn main() -> Result<(), Box<dyn Error>> {
    let names: Vec<String> = std::env::args().skip(1).collect();
    let [network, sheets @ ..] = names.as_slice() else {
        return Err("usage: hall NETWORK SHEET..".into());
    };
    for line in marks(network, sheets)? {
        println!("{line}");
    }
    Ok(())
}

/// A line for each sheet. A sheet that can't be read or that the engine refuses
/// has its own line; without the network there is none.
pub fn marks(network: &str, sheets: &[String]) -> Result<Vec<String>, Box<dyn Error>> {
    let text = std::fs::read(network).map_err(|why| format!("{network}: {why}"))?;
    let network = typed::read(&text).map_err(|why| format!("{network}, {why}"))?;
    // A refused network is said once, in words and with its line.
    if let Err(refusal) = engine::read(network.bytes()) {
        let line = network.line(refusal.place as usize);
        return Err(format!("{refusal}: {}, {line:?}", refusal.words()).into());
    }
    let marked = |name: &String| match marked(network.bytes(), name) {
        Ok(mark) => format!("{name}: {}", shown(mark)),
        Err(why) => format!("{name}: {why}"),
    };
    Ok(sheets.iter().map(marked).collect())
}

fn marked(file: &[u8], name: &str) -> Result<Mark, Box<dyn Error>> {
    let starts = starts(&std::fs::read_to_string(name)?)?;
    Ok(engine::mark(file, &Sheet::of_starts(&starts), BUDGET)?)
}

/// The whole numbers of a text.
fn starts(text: &str) -> Result<Vec<i32>, std::num::ParseIntError> {
    let lines = text.lines().filter_map(|line| line.split('#').next());
    let words = lines.flat_map(str::split_whitespace);
    words.map(str::parse).collect()
}

fn shown(mark: Mark) -> String {
    let rating = |rating: Rating| format!("gap {} sum {}", rating.least, rating.sum);
    match mark {
        Mark::Decided {
            sheet, equal: true, ..
        } => format!("{}, the best there is", rating(sheet)),
        Mark::Decided {
            sheet,
            best,
            hundred: Hundred { mark, remainder },
            ..
        } => {
            let (sheet, best) = (rating(sheet), rating(best));
            format!("{sheet}, the best is {best}, mark {mark} remainder {remainder}")
        }
        Mark::Undecided { sheet, .. } => format!("{}, the best isn't known", rating(sheet)),
    }
}
