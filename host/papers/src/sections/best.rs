//! Document 01, "Edges and cases": what the program `best` prints.

use super::network::{read, Network, Refusal};
use super::rating::Rating;
use super::walk::{walk, Answer, Walked};

/// "its first 4,096 bytes decide"
const DECIDING: usize = 4_096;
/// "searches with budget 1,000,000"
const BUDGET: u32 = 1_000_000;

/// The line printed for a standard input, with its line end.
pub fn best(input: &[u8]) -> String {
    best_by(walk, input)
}

/// The same by another walk.
pub fn best_by(walk: impl Fn(&Network, u32) -> Walked, input: &[u8]) -> String {
    let file = &input[..input.len().min(DECIDING)];
    let net = match read(file) {
        Ok(net) => net,
        Err(Refusal { number, place }) => return format!("refused {number} at {place}\n"),
    };
    let walked = walk(&net, BUDGET);
    let (word, Rating { least, sum }, tries) = match walked.answer {
        Answer::Finished { best, tries } => ("", best, tries),
        Answer::Stopped { best, tries } => ("stopped ", best, tries),
        Answer::StoppedWithNone { .. } => unreachable!("16 tries reach a full timetable"),
    };
    let starts: Vec<String> = walked
        .starts
        .unwrap_or_default()
        .iter()
        .map(|start| start.to_string())
        .collect();
    let starts = starts.join(" ");
    format!("{word}gap {least} sum {sum} tries {tries} starts {starts}\n")
}
