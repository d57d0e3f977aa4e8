//! `exam best`: the best timetable.

use crate::hall::search::search;
use crate::hall::stages::Manner;
use crate::hall::{bound, checksum};
use crate::input::network::Network;
use crate::line::operands::networks;
use crate::line::options::{BUDGET, BYTES, PLAN, QUIET, SHEET, TYPED};
use crate::line::table::{Request, Sheets, Verb};
use crate::output::fault::refused;
use crate::output::lines::{joined, search_line, shown};
use crate::output::streams::{put, say};
use crate::status::{Status, Trouble};
use engine::{Best, Searched};

pub const VERB: Verb = Verb {
    name: "best",
    operands: "NETWORK",
    networks: 1,
    sheets: Sheets::Exactly(0),
    last: None,
    options: &[&PLAN, &TYPED, &BYTES, &BUDGET, &QUIET, &SHEET],
    summary: "the best timetable",
    about: "\
Searches for the best timetable and prints its rating, the tries made, and the
starts in line order. No timetable of whole minutes is better than this one.
  gap 2 sum 2 tries 21 starts 0 3
Where the budget was used up first, the best so far, or none:
  stopped gap 2 sum 2 tries 20 starts 0 3
  stopped tries 1
Standard error then says which budget always suffices.

With --sheet it prints a sheet to keep as the key:
  # the best of the network with crc32 aced792e: gap 2 sum 2, tries 21
  0 3
Only a finished search has one; of a stopped one standard output stays empty.

While a long search runs, standard error says after a second and then every ten
(on a terminal in one line, every second) what is known by then; Ctrl-C ends it
and says the best so far. With --quiet neither is said, and the search is up to
twice as quick: the engine is asked once, and not in stages to know more midway.
",
    run,
};

fn run(request: &Request) -> Result<Status, Trouble> {
    let [network] = networks(request)?;
    let manner = Manner::wanted_by(request, "searching".to_string());
    match search(network.bytes(), manner) {
        Ok(searched) => print(&searched, &network, request.has(&SHEET)),
        Err(refusal) => refused(refusal, &network),
    }
}

fn print(searched: &Searched, network: &Network, as_sheet: bool) -> Result<Status, Trouble> {
    let line = search_line(searched);
    let words = match searched {
        Searched::Finished(best) => {
            match as_sheet {
                true => put(key(best, network.bytes()))?,
                false => put(format!("{line}\n"))?,
            }
            return Ok(Status::Done);
        }
        Searched::Stopped { .. } => "the budget is used up; there may be a better timetable",
        Searched::StoppedWithNone { .. } => "the budget was used up before the first timetable",
    };
    // What may be beaten is no key.
    match as_sheet {
        true => say(&format!("exam: no sheet: {line}")),
        false => put(format!("{line}\n"))?,
    }
    let advice = bound::advice(network.bytes());
    say(&format!("exam: {words} (--budget N)\n{advice}"));
    Ok(Status::Undecided)
}

/// The best timetable as a sheet.
fn key(best: &Best, file: &[u8]) -> String {
    // Only an accepted network has a best.
    let crc32 = checksum::of_network(file).unwrap_or_default();
    let (rating, tries) = (shown(best.rating()), best.tries());
    let starts = joined(best.starts());
    format!("# the best of the network with crc32 {crc32}: {rating}, tries {tries}\n{starts}\n")
}
