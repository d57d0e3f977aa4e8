//! `exam report`: a sitting as one page.

use crate::hall::explaining::Key;
use crate::hall::outcome::{Outcome, Row};
use crate::hall::report::{folders, say_of, tally, used_up, worse};
use crate::hall::search::search;
use crate::hall::sheets::{gather, Gathered};
use crate::hall::stages::Manner;
use crate::input::network::Network;
use crate::line::operands::{check_html, networks, target};
use crate::line::options::{
    budget, sheet_form, BUDGET, BYTES, PLAN, QUIET, SHEET_BYTES, SHEET_NUMBERS, TYPED,
};
use crate::line::table::{Request, Sheets, Verb};
use crate::output::fault::{refused, refused_sheet};
use crate::output::names::shown;
use crate::output::streams::{put, say};
use crate::output::target::Target;
use crate::page::{page, Sitting};
use crate::status::{Status, Trouble};

pub const VERB: Verb = Verb {
    name: "report",
    operands: "NETWORK FOLDER OUT.html",
    networks: 1,
    sheets: Sheets::Exactly(1),
    last: Some(check_html),
    options: &[
        &PLAN,
        &TYPED,
        &BYTES,
        &SHEET_NUMBERS,
        &SHEET_BYTES,
        &BUDGET,
        &QUIET,
    ],
    summary: "a sitting as one page, with pictures",
    about: "\
Marks the sheets of a folder and writes one page of HTML: a table of all sheets,
which a click on a heading sorts, the key with its starts and its picture, the
network, and for each sheet its mark, what decides, the stops where it loses with
the two arrivals that make the gap ('exam explain --help'), and its picture. The page
is read in any browser and on paper, and loads nothing from elsewhere. A sheet may
stand in the folder's place. What is printed is the file and the tally.
  sitting.html: 4 sheets: 2 equal, 1 below, 1 refused

'exam mark --help' says which files of a folder are taken and how the command ends;
the search is the one of 'exam mark', once for all sheets. Where its budget is used
up, there is no key on the page, and the sheets have their ratings and pictures.

OUT.html is written over if it is there; its name has to end in .html, so that no
slip overwrites a sheet, and it doesn't go to the folder of the sheets, where every
file is taken for one. A file named - is standard output, and then the tally is on
standard error. No file is written where the network is refused, where there is no
sheet, or where the one sheet that is named is refused or can't be read.
",
    run,
};

fn run(request: &Request) -> Result<Status, Trouble> {
    check_place(request)?;
    let [network] = networks(request)?;
    if let Err(refusal) = engine::read(network.bytes()) {
        return refused(refusal, &network);
    }
    let gathered = gather(&request.sheets, sheet_form(request));
    let of_folders = folders(&gathered);
    match rated(&network, gathered)? {
        Rated::Rows(rows) if rows.is_empty() => Ok(of_folders),
        Rated::Rows(rows) => Ok(worse(of_folders, report(request, &network, rows)?)),
        Rated::Refused(status) => Ok(status),
    }
}

/// A page among the sheets would be taken for one of them the next time.
fn check_place(request: &Request) -> Result<(), Trouble> {
    let target = target(request);
    let folders = request.sheets.iter().filter_map(|operand| operand.folder());
    match folders.into_iter().find(|folder| target.is_in(folder)) {
        Some(folder) => Err(Trouble(format!(
            "{} would stand among the sheets of {}, where every file is taken for one: \
             name another folder",
            target.name().unwrap_or_default(),
            shown(folder.as_os_str())
        ))),
        None => Ok(()),
    }
}

/// The sheets, rated, or the status of the only one that is refused.
enum Rated {
    Rows(Vec<Row>),
    Refused(Status),
}

/// Rates the sheets. One that was named alone is refused, or can't be read, without a page.
fn rated(network: &Network, gathered: Gathered) -> Result<Rated, Trouble> {
    let many = gathered.many;
    let rated = |named| Row::rated(network.bytes(), named);
    let rows: Vec<Row> = gathered.sheets.into_iter().map(rated).collect();
    match (many, &rows[..]) {
        (false, [row]) => match (&row.outcome, &row.sheet) {
            (Outcome::Unreadable(trouble), _) => Err(trouble.clone()),
            (Outcome::Refused(refusal), Some(sheet)) => {
                refused_sheet(*refusal, network, sheet).map(Rated::Refused)
            }
            _ => Ok(Rated::Rows(rows)),
        },
        _ => Ok(Rated::Rows(rows)),
    }
}

/// Searches once, marks all sheets and writes the page.
fn report(request: &Request, network: &Network, rows: Vec<Row>) -> Result<Status, Trouble> {
    let file = network.bytes();
    let rated = rows.iter().filter(|row| row.outcome.rating().is_some());
    let doing = match rated.count() {
        0 | 1 => "marking".to_string(),
        count => format!("marking {count} sheets"),
    };
    let answer = search(file, Manner::wanted_by(request, doing));
    let marked = |row: Row| row.marked(file, &answer);
    let rows: Vec<Row> = rows.into_iter().map(marked).collect();
    let page = answer.and_then(|searched| {
        page(&Sitting {
            network,
            budget: budget(request),
            searched: &searched,
            key: Key::of_search(&searched),
            rows: &rows,
        })
    });
    match page {
        Ok(page) => hand_out(&page, &target(request), network, &rows),
        Err(refusal) => refused(refusal, network),
    }
}

/// Writes the page, and says what there is to say of its sheets.
fn hand_out(
    page: &str,
    target: &Target,
    network: &Network,
    rows: &[Row],
) -> Result<Status, Trouble> {
    target.write(page)?;
    rows.iter().for_each(|row| say_of(network, row));
    let statuses = rows.iter().map(|row| row.outcome.status());
    let status = statuses.fold(Status::Done, worse);
    let is_undecided = |row: &Row| row.outcome.status() == Status::Undecided;
    if rows.iter().any(is_undecided) {
        say(&used_up(network));
    }
    let tally = tally(rows);
    match target.name() {
        Some(name) => put(format!("{name}: {tally}\n"))?,
        None => say(&tally),
    }
    Ok(status)
}
