//! `exam mark`: a sheet, or each of several, against the best.

use crate::hall::judging::judge;
use crate::hall::outcome::{Outcome, Row};
use crate::hall::search::search;
use crate::hall::stages::Manner;
use crate::line::operands::networks;
use crate::line::options::{
    budget, BUDGET, BYTES, CSV, JSON, PLAN, QUIET, RANKED, SHEET_BYTES, SHEET_NUMBERS, TYPED,
};
use crate::line::table::{Request, Sheets, Verb};
use crate::status::{Status, Trouble};

pub const VERB: Verb = Verb {
    name: "mark",
    operands: "NETWORK SHEET-OR-FOLDER..",
    networks: 1,
    sheets: Sheets::AtLeastOne,
    last: None,
    options: &[
        &PLAN,
        &TYPED,
        &BYTES,
        &SHEET_NUMBERS,
        &SHEET_BYTES,
        &BUDGET,
        &QUIET,
        &RANKED,
        &CSV,
        &JSON,
    ],
    summary: "a sheet, or each of a folder, against the best",
    about: "\
Rates a sheet and searches for the best timetable:
  gap 3 sum 3 best gap 3 sum 3 equal mark 100 remainder 0 tries 51
  gap 2 sum 2 best gap 3 sum 3 below mark 66 remainder 2 tries 51
  undecided gap 2 sum 2 tries 50
The last where the budget was used up, so that the best isn't known. Standard
error then says which budget always suffices. What it says while the search runs,
and at Ctrl-C, 'exam best --help' tells.

The mark is the whole part of 100 times the sheet's least gap over the best one,
with the remainder: 3 times 66 and 2 is 200. Sums don't enter: a sheet may have 100
and be below, and where the best least gap is 0 every sheet has 100 remainder 0.

Of several sheets, or a folder, a text line for each with its name and a colon
before it, after one search for all. Every file of a folder is taken for a sheet,
in name order, but for hidden ones; a folder within it is named on standard error
and left out. A file that can't be read as a sheet has 'NAME: unreadable'. The last
text line on standard error is the tally, and the exit status is the gravest of
all: 2, then 1, then 3, then 0. With --ranked the largest mark is first, then the
largest remainder, and then it is by name, whether below or equal; those without a
mark come last, by name.

With --csv or --json standard output is a record for a program: for each sheet
name, status (equal, below, undecided, refused or unreadable), gap, sum, best_gap,
best_sum, tries, refusal and place, budget, network_crc32 (of the archive form),
engine (its version), name_bytes, in hexadecimal, of a name that isn't text, and
mark and remainder.
",
    run,
};

fn run(request: &Request) -> Result<Status, Trouble> {
    let [network] = networks(request)?;
    let marked = |rows| marked(request, network.bytes(), rows);
    judge(request, &network, Some(budget(request)), marked)
}

/// Marks the sheets that were rated, by one search for all. Where none was,
/// nothing is searched for.
fn marked(request: &Request, file: &[u8], rows: Vec<Row>) -> Vec<Row> {
    let rated = |row: &&Row| matches!(row.outcome, Outcome::Rated(_));
    let doing = match rows.iter().filter(rated).count() {
        0 => return rows,
        1 => "marking".to_string(),
        count => format!("marking {count} sheets"),
    };
    let searched = search(file, Manner::wanted_by(request, doing));
    let marked = |row: Row| row.marked(file, &searched);
    rows.into_iter().map(marked).collect()
}
