//! `exam wanted`: a timetable with at least a wanted gap.

use crate::hall::bound;
use crate::hall::search::wanted;
use crate::hall::stages::Manner;
use crate::input::network::Network;
use crate::line::operands::{check_gap, gap, networks};
use crate::line::options::{BUDGET, BYTES, PLAN, QUIET, TYPED};
use crate::line::table::{Request, Sheets, Verb};
use crate::output::fault::refused;
use crate::output::lines::{stopped_line, timetable_line};
use crate::output::streams::{put, say};
use crate::status::{Status, Trouble};
use engine::{Sheet, Wanted};

pub const VERB: Verb = Verb {
    name: "wanted",
    operands: "NETWORK GAP",
    networks: 1,
    sheets: Sheets::Exactly(0),
    last: Some(check_gap),
    options: &[&PLAN, &TYPED, &BYTES, &BUDGET, &QUIET],
    summary: "a timetable with at least this gap, or none",
    about: "\
Seeks a timetable whose least gap is GAP minutes or more, 0 to 65535, and prints
its rating, the tries made, and the starts in line order. It is the first on the
search's way; 'exam best' may know a better one.
  gap 3 sum 10 tries 5 starts 0 3
Where no timetable of whole minutes has such a gap:
  none tries 31
Where the budget was used up before that was known:
  stopped tries 4
Standard error then says which budget always suffices. While a long search runs,
and at Ctrl-C, it says the tries made so far; --quiet is that of 'exam best'.
",
    run,
};

fn run(request: &Request) -> Result<Status, Trouble> {
    let [network] = networks(request)?;
    let manner = Manner::wanted_by(request, "searching".to_string());
    match wanted(network.bytes(), gap(request), manner) {
        Ok(wanted) => print(&wanted, &network),
        Err(refusal) => refused(refusal, &network),
    }
}

fn print(wanted: &Wanted, network: &Network) -> Result<Status, Trouble> {
    match wanted {
        Wanted::Found { starts, tries } => {
            let rating = match engine::rate(network.bytes(), &Sheet::of_starts(starts)) {
                Ok(rating) => rating,
                Err(refusal) => return refused(refusal, network),
            };
            put(format!("{}\n", timetable_line(rating, *tries, starts)))?;
        }
        Wanted::None { tries } => put(format!("none tries {tries}\n"))?,
        Wanted::Stopped { tries } => {
            put(format!("{}\n", stopped_line(*tries)))?;
            let words = "the budget was used up before it was known whether there is one";
            let advice = bound::advice(network.bytes());
            say(&format!("exam: {words} (--budget N)\n{advice}"));
            return Ok(Status::Undecided);
        }
    }
    Ok(Status::Done)
}
