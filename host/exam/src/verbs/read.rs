//! `exam read`: what a network has.

use crate::line::operands::networks;
use crate::line::options::{BYTES, PLAN, TYPED};
use crate::line::table::{Request, Sheets, Verb};
use crate::output::fault::refused;
use crate::output::streams::put;
use crate::status::{Status, Trouble};

pub const VERB: Verb = Verb {
    name: "read",
    operands: "NETWORK",
    networks: 1,
    sheets: Sheets::Exactly(0),
    last: None,
    options: &[&PLAN, &TYPED, &BYTES],
    summary: "lines, stops, calls and common cycle",
    about: "\
Reads a network and prints what it has:
  lines 2 stops 1 calls 2 cycle 60
or, where the file has a fault, its ground and the byte of its command:
  refused 5 at 0
",
    run,
};

fn run(request: &Request) -> Result<Status, Trouble> {
    let [network] = networks(request)?;
    let counts = match engine::read(network.bytes()) {
        Ok(counts) => counts,
        Err(refusal) => return refused(refusal, &network),
    };
    put(format!(
        "lines {} stops {} calls {} cycle {}\n",
        counts.lines, counts.served_stops, counts.calls, counts.cycle
    ))?;
    Ok(Status::Done)
}
