//! `exam rate`: the rating of a sheet, or of each of several.

use crate::hall::judging::judge;
use crate::line::operands::networks;
use crate::line::options::{BYTES, CSV, JSON, PLAN, SHEET_BYTES, SHEET_NUMBERS, TYPED};
use crate::line::table::{Request, Sheets, Verb};
use crate::status::{Status, Trouble};

pub const VERB: Verb = Verb {
    name: "rate",
    operands: "NETWORK SHEET-OR-FOLDER..",
    networks: 1,
    sheets: Sheets::AtLeastOne,
    last: None,
    options: &[
        &PLAN,
        &TYPED,
        &BYTES,
        &SHEET_NUMBERS,
        &SHEET_BYTES,
        &CSV,
        &JSON,
    ],
    summary: "a sheet's rating: least gap, sum of gaps",
    about: "\
Rates a sheet: the least gap between two lines at any stop, and the sum of the
gaps over all stops.
  gap 1 sum 1
A sheet that hasn't one start for each line: refused 15 at 0

Of several sheets, or a folder, a text line for each with its name and a colon
before it; 'exam mark --help' says which files of a folder are taken, how the
command ends and what a record has. Standard error has the tally in the end.
",
    run,
};

fn run(request: &Request) -> Result<Status, Trouble> {
    let [network] = networks(request)?;
    judge(request, &network, None, |rows| rows)
}
