//! `exam better`: the better of two sheets.

use crate::input::network::Network;
use crate::line::operands::{networks, sheets};
use crate::line::options::{BYTES, PLAN, SHEET_BYTES, SHEET_NUMBERS, TYPED};
use crate::line::table::{Request, Sheets, Verb};
use crate::output::fault::{explained, lengths};
use crate::output::lines::shown;
use crate::output::streams::{put, say};
use crate::status::{Status, Trouble};
use engine::{Better, Sheet};

pub const VERB: Verb = Verb {
    name: "better",
    operands: "NETWORK SHEET SHEET",
    networks: 1,
    sheets: Sheets::Exactly(2),
    last: None,
    options: &[&PLAN, &TYPED, &BYTES, &SHEET_NUMBERS, &SHEET_BYTES],
    summary: "the better of two sheets",
    about: "\
Prints which of two sheets is rated higher: first, second, or neither where the
network is refused or no sheet has one start for each line. The first if equal;
a sheet of the wrong length loses to one that fits. Standard error says when both
are equal, and which one doesn't fit.
",
    run,
};

fn run(request: &Request) -> Result<Status, Trouble> {
    let [network] = networks(request)?;
    let sheets: [Sheet; 2] = sheets(request)?;
    let (answer, status) = match engine::better(network.bytes(), &sheets[0], &sheets[1]) {
        Better::First => ("first\n", Status::Done),
        Better::Second => ("second\n", Status::Done),
        Better::Neither => ("neither\n", Status::Refused),
    };
    remark(&network, &sheets)
        .iter()
        .for_each(|words| say(words));
    put(answer)?;
    Ok(status)
}

/// What the answer alone doesn't say. Better-of-two has no number of a refusal,
/// so the read call and the rate call are asked.
fn remark(network: &Network, sheets: &[Sheet; 2]) -> Option<String> {
    let file = network.bytes();
    if let Err(refusal) = engine::read(file) {
        return Some(explained(refusal, network));
    }
    let which = match [0, 1].map(|at| engine::rate(file, &sheets[at])) {
        [Ok(one), Ok(other)] => {
            let words = format!("exam: both sheets have {}", shown(one));
            return (one == other).then_some(words);
        }
        [Err(_), Ok(_)] => "the first sheet hasn't",
        [Ok(_), Err(_)] => "the second sheet hasn't",
        [Err(_), Err(_)] => "no sheet has",
    };
    let lengths = lengths(network, &[&sheets[0], &sheets[1]]);
    Some(format!(
        "exam: {which} one start for each line\n  {lengths}"
    ))
}
