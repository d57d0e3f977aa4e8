//! `exam explain`: where a sheet loses, and why.

use crate::hall::explaining::{explained, Explained, Key, Stop};
use crate::hall::outcome::{Outcome, Row};
use crate::hall::report::used_up;
use crate::hall::search::search;
use crate::hall::sheets::Named;
use crate::hall::stages::Manner;
use crate::hall::verdict::verdict;
use crate::input::network::Network;
use crate::line::operands::{key, networks, sheets};
use crate::line::options::{BUDGET, BYTES, KEY, PLAN, QUIET, SHEET_BYTES, SHEET_NUMBERS, TYPED};
use crate::line::table::{Request, Sheets, Verb};
use crate::output::arrivals::rows;
use crate::output::fault::{lengths, refused_sheet, refused_with};
use crate::output::lines::by_key_line;
use crate::output::named;
use crate::output::streams::{put, say};
use crate::status::{Status, Trouble};
use engine::plan::Names;
use engine::{Ground, Refusal, Sheet};

pub const VERB: Verb = Verb {
    name: "explain",
    operands: "NETWORK SHEET",
    networks: 1,
    sheets: Sheets::Exactly(1),
    last: None,
    options: &[
        &PLAN,
        &TYPED,
        &BYTES,
        &SHEET_NUMBERS,
        &SHEET_BYTES,
        &KEY,
        &BUDGET,
        &QUIET,
    ],
    summary: "where a sheet loses, and why",
    about: "\
Says where a sheet loses, for the candidate: the text line of 'exam mark', what
decides between the sheet and the best timetable, which is the key, and then for
each stop where a line calls its gap, the key's, and two arrivals that are as far
apart as the gap, as 'exam board' has them from minute 0 on.
  stop 0 'Market'  gap 1  key 2  loses  least
    time 37  day 0  00:37  line 1  Green
    time 38  day 0  00:38  line 0  Red
A stop's gap is the fewest minutes between two arrivals there. The sheet 'loses'
where its gap is smaller than the key's, 'gains' where it is larger, and otherwise
it is the 'same'; 'least' is at every stop that has the sheet's least gap. The stops
where it loses come first, then those where it gains, and then the others; within
each the smallest gap comes first.

The search is that of 'exam mark', with its budget, its signs of life and Ctrl-C.
Where the budget is used up, there is no key beside the gaps, and the smallest gap
comes first.

With --key that sheet is the key, and nothing is searched. Its own text line,
  gap 1 sum 1 key gap 2 sum 2 below by this key 50 remainder 0
is no mark: the key needn't be the best timetable. A sheet may be above it.

A sheet or a key that hasn't one start for each line: refused 15 at 0
",
    run,
};

fn run(request: &Request) -> Result<Status, Trouble> {
    if request.has(&KEY) && request.has(&BUDGET) {
        let why = "beside a key nothing is searched\ntry: exam explain --help";
        let message = format!("--key and --budget contradict each other: {why}");
        return Err(Trouble(message));
    }
    let [network] = networks(request)?;
    let [sheet] = sheets(request)?;
    match key(request)? {
        Some(key) => beside_key(&network, sheet, key),
        None => beside_best(request, &network, sheet),
    }
}

/// Marks the sheet as `exam mark` does, and explains the mark.
fn beside_best(request: &Request, network: &Network, sheet: Sheet) -> Result<Status, Trouble> {
    let file = network.bytes();
    let named = Named {
        name: Default::default(),
        sheet: Ok(sheet.clone()),
    };
    let row = Row::rated(file, named);
    if let Outcome::Refused(refusal) = row.outcome {
        return refused_sheet(refusal, network, &sheet);
    }
    let searched = search(file, Manner::wanted_by(request, "marking".to_string()));
    let row = row.marked(file, &searched);
    let explained = searched.and_then(|found| explained(file, &sheet, &Key::of_search(&found)));
    let explained = match explained {
        Ok(explained) => explained,
        Err(refusal) => return refused_sheet(refusal, network, &sheet),
    };
    let of_key = match explained.beside {
        Some(_) => "The key is the best timetable.\n",
        None => "",
    };
    let line = row.outcome.line();
    put(text(&line, &explained, (&network.names, of_key)))?;
    let status = row.outcome.status();
    if status == Status::Undecided {
        say(&used_up(network));
    }
    Ok(status)
}

/// Explains the sheet beside a key that may be any sheet.
fn beside_key(
    network: &Network,
    sheet: Sheet,
    (key_name, key): (String, Sheet),
) -> Result<Status, Trouble> {
    for (which, one) in [("the sheet", &sheet), ("the key", &key)] {
        if let Err(refusal) = engine::rate(network.bytes(), one) {
            let misfit = refusal.ground == Ground::SheetLength;
            let words = || format!("{which} doesn't fit: {}", lengths(network, &[one]));
            return refused_with(refusal, network, misfit.then(words));
        }
    }
    match by_key(network.bytes(), &sheet, key) {
        Ok((line, explained)) => {
            let of_key = format!(
                "The key is {key_name}, which needn't be the best: nothing was searched.\n\
                 What the sheet has by this key is no mark.\n"
            );
            put(text(&line, &explained, (&network.names, &of_key)))?;
            Ok(Status::Done)
        }
        Err(refusal) => refused_sheet(refusal, network, &sheet),
    }
}

/// The text line of a sheet beside a key, and the sheet explained.
fn by_key(file: &[u8], sheet: &Sheet, key: Sheet) -> Result<(String, Explained), Refusal> {
    let hundred = engine::mark_by_key(file, sheet, &key)?;
    let explained = explained(file, sheet, &Key::Given(key))?;
    let line = explained.beside.as_ref().map_or(String::new(), |beside| {
        let word = beside.standing.word();
        by_key_line((explained.rating, beside.rating), word, hundred)
    });
    Ok((line, explained))
}

/// All that is printed: the text line, what decides, how to read the stops, and these.
fn text(line: &str, explained: &Explained, (names, of_key): (&Names, &str)) -> String {
    let sentences = verdict(explained, names).into_iter();
    let sentences: String = sentences.map(|sentence| sentence + "\n").collect();
    let legend = match explained.beside {
        Some(_) => LEGEND_BESIDE_KEY,
        None => LEGEND,
    };
    let stops = explained.stops.iter().map(|stop| block(stop, names));
    format!(
        "{line}\n\n{sentences}{of_key}\n{legend}\n{}",
        stops.collect::<String>()
    )
}

const LEGEND_BESIDE_KEY: &str = "\
A stop's gap is the fewest minutes between two arrivals there; under each stop are two
that are so far apart. The sheet loses where its gap is smaller than the key's, and gains
where it is larger; 'least' is its least gap.
";

const LEGEND: &str = "\
A stop's gap is the fewest minutes between two arrivals there; under each stop are two
that are so far apart. 'least' is the sheet's least gap.
";

/// A stop with its gaps, and the arrivals that make the sheet's.
fn block(stop: &Stop, names: &Names) -> String {
    let mut head = format!("{}  gap {}", named::stop(names, stop.number), stop.gap);
    if let Some((key_gap, change)) = stop.key_gap.zip(stop.change()) {
        head += &format!("  key {key_gap}  {}", change.word());
    }
    if stop.is_least {
        head += "  least";
    }
    let lone = stop.lone_line.map(|line| {
        let line = named::line(names, line);
        format!("one call alone, of {line}: the gap is the line's period\n")
    });
    let arrivals = rows(stop.pair.as_ref().map_or(&[], |pair| &pair[..]), names);
    let under = lone.into_iter().chain(arrivals);
    let under: String = under.map(|row| format!("  {row}")).collect();
    format!("{head}\n{under}")
}
