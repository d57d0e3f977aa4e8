//! `exam plan`: a network as people write it.

use crate::line::operands::networks;
use crate::line::options::{BYTES, PLAN, TYPED};
use crate::line::table::{Request, Sheets, Verb};
use crate::output::fault::refused;
use crate::output::streams::put;
use crate::status::{Status, Trouble};
use engine::plan;

pub const VERB: Verb = Verb {
    name: "plan",
    operands: "NETWORK",
    networks: 1,
    sheets: Sheets::Exactly(0),
    last: None,
    options: &[&PLAN, &TYPED, &BYTES],
    summary: "a network as a plan, with names and decimal numbers",
    about: "\
Prints a network as a plan, for a file whose name ends in .plan. It is the same
network; lines and stops that have no name get L0 or S5, by their numbers.
  stop 0 S0

  line L0 every 15
    S0 at 8

A plan has a statement on each text line, and # begins a comment:
  line NAME every PERIOD   the next line, counted from 0, and its period
  NAME at MINUTES          it reaches the stop so long after its start
  NAME +MINUTES            it reaches the stop so long after the call above
  stop NUMBER NAME         the number of a stop, above all calls
  edition NUMBER           the edition, 1 or 2, above all lines; without it 1
A line's calls stand under it, the first with at. A name is one word or several, with
a letter, without the words line, stop, every, at, and without a + at a word's
beginning. Without stop statements stops are numbered from 0 as they first appear;
with one, every stop needs its own.
",
    run,
};

fn run(request: &Request) -> Result<Status, Trouble> {
    let [network] = networks(request)?;
    match engine::contents(network.bytes()) {
        Ok(contents) => put(plan::text(&contents, &network.names)).map(|()| Status::Done),
        Err(refusal) => refused(refusal, &network),
    }
}
