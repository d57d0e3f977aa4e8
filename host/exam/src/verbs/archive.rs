//! `exam archive`: the one file of a network that is kept.

use crate::line::operands::networks;
use crate::line::options::{BYTES, PLAN, RAW, TYPED};
use crate::line::table::{Request, Sheets, Verb};
use crate::output::fault::refused;
use crate::output::streams::put;
use crate::status::{Status, Trouble};
use engine::typed;

pub const VERB: Verb = Verb {
    name: "archive",
    operands: "NETWORK",
    networks: 1,
    sheets: Sheets::Exactly(0),
    last: None,
    options: &[&PLAN, &TYPED, &BYTES, &RAW],
    summary: "the one file of a network that is kept",
    about: "\
Prints the archive form, which is the same for every file of one network: the
edition unless it is 1, the lines in order, then each call with its offset by line
and then stop, then the end, typed, a text line for each command.
  4C 000F
  43 00 00 0008
  45
With --raw its bytes, for a file whose name ends in .net. (--plan, --typed and
--bytes say how NETWORK is written.)
",
    run,
};

fn run(request: &Request) -> Result<Status, Trouble> {
    let [network] = networks(request)?;
    let form = match engine::archive(network.bytes()) {
        Ok(form) => form,
        Err(refusal) => return refused(refusal, &network),
    };
    match request.has(&RAW) {
        true => put(form)?,
        false => put(typed::text(&form))?,
    }
    Ok(Status::Done)
}
