//! `exam type`: a network as it is typed in hexadecimal.

use crate::line::operands::networks;
use crate::line::options::{BYTES, PLAN, RAW, TYPED};
use crate::line::table::{Request, Sheets, Verb};
use crate::output::fault::refused;
use crate::output::named;
use crate::output::streams::put;
use crate::status::{Status, Trouble};
use engine::plan::Names;
use engine::typed::{self, CALL, EDITION, FOLLOW, LINE};

pub const VERB: Verb = Verb {
    name: "type",
    operands: "NETWORK",
    networks: 1,
    sheets: Sheets::Exactly(0),
    last: None,
    options: &[&PLAN, &TYPED, &BYTES, &RAW],
    summary: "a plan in hexadecimal, or as bytes",
    about: "\
Prints a network in hexadecimal, its commands in their order and each with a
comment that says it in decimal, with the names of a plan:
  4C 000F          # line 0 'Red': every 15 minutes
  43 00 00 0008    # line 0 'Red' reaches stop 0 'Market' after 8 minutes
  45               # the end
With --raw its bytes, for a file whose name ends in .net.
",
    run,
};

fn run(request: &Request) -> Result<Status, Trouble> {
    let [network] = networks(request)?;
    let file = network.bytes();
    if let Err(refusal) = engine::read(file) {
        return refused(refusal, &network);
    }
    match request.has(&RAW) {
        true => put(file)?,
        false => put(with_comments(file, &network.names))?,
    }
    Ok(Status::Done)
}

fn with_comments(file: &[u8], names: &Names) -> String {
    let mut lines = 0..;
    let number = |high: u8, low: u8| u16::from_be_bytes([high, low]);
    typed::commented(file, |command| match *command {
        [EDITION, edition] => format!("edition {edition}"),
        [LINE, high, low] => {
            let line = lines
                .next()
                .map_or(String::new(), |line| named::line(names, line));
            format!("{line}: every {} minutes", number(high, low))
        }
        [CALL, line, stop, high, low] => {
            let (line, stop) = (named::line(names, line), named::stop(names, stop));
            format!("{line} reaches {stop} after {} minutes", number(high, low))
        }
        [FOLLOW, line, stop, high, low] => {
            let (line, stop) = (named::line(names, line), named::stop(names, stop));
            format!("{line} rides {} minutes on to {stop}", number(high, low))
        }
        _ => "the end".to_string(),
    })
}
