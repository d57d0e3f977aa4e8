//! All sheets of a request: a line or a row of the record for each, what there is
//! to say of it, and in the end the tally.

use super::bound;
use super::outcome::{Outcome, Row, WORDS};
use super::record::{About, RecordForm};
use super::sheets::Gathered;
use crate::input::network::Network;
use crate::output::fault::{explained, lengths, refused_sheet};
use crate::output::names::shown;
use crate::output::streams::{put, say};
use crate::status::{Status, Trouble};
use engine::Ground;
use std::path::PathBuf;

/// How a report is made.
pub struct Report<'a> {
    pub network: &'a Network,
    /// The budget, if the verb has one.
    pub budget: Option<u32>,
    /// The record's form; lines where it is `None`.
    pub form: Option<RecordForm>,
    /// Whether sheets are told apart by their names.
    pub many: bool,
}

/// What there is to say of the folders among the operands, and how grave it is.
pub fn folders(gathered: &Gathered) -> Status {
    let within = |path: &PathBuf| shown(path.as_os_str());
    for name in gathered.left_out.iter().map(within) {
        say(&format!(
            "exam: {name} is a folder; no sheet in it is taken"
        ));
    }
    for Trouble(message) in &gathered.troubles {
        say(&format!("exam: {message}"));
    }
    match gathered.troubles.is_empty() {
        true => Status::Done,
        false => Status::Trouble,
    }
}

impl Report<'_> {
    /// Prints every row. The status is the gravest of all.
    pub fn print(&self, rows: &[Row]) -> Result<Status, Trouble> {
        let about = About::of(self.network.bytes(), self.budget);
        let mut status = Status::Done;
        if let Err(refusal) = engine::read(self.network.bytes()) {
            say(&explained(refusal, self.network));
        }
        if let Some(form) = self.form {
            put(form.begin())?;
        }
        for (before, row) in rows.iter().enumerate() {
            let name = shown(&row.name);
            match self.form {
                Some(form) => put(form.row(row, &about, before == 0))?,
                None => put(format!("{name}: {}\n", row.outcome.line()))?,
            }
            say_of(self.network, row);
            status = worse(status, row.outcome.status());
        }
        if let Some(form) = self.form {
            put(form.end())?;
        }
        let undecided = |row: &Row| row.outcome.status() == Status::Undecided;
        if rows.iter().any(undecided) {
            say(&used_up(self.network));
        }
        if self.many && !rows.is_empty() {
            say(&tally(rows));
        }
        Ok(status)
    }

    /// The line of one sheet, without its name.
    pub fn print_one(&self, row: &Row) -> Result<Status, Trouble> {
        match (&row.outcome, &row.sheet) {
            (Outcome::Unreadable(trouble), _) => return Err(trouble.clone()),
            (Outcome::Refused(refusal), Some(sheet)) => {
                return refused_sheet(*refusal, self.network, sheet);
            }
            _ => put(format!("{}\n", row.outcome.line()))?,
        }
        let status = row.outcome.status();
        if status == Status::Undecided {
            say(&used_up(self.network));
        }
        Ok(status)
    }
}

/// Says it of one sheet; the network's own refusal is said elsewhere.
pub fn say_of(network: &Network, row: &Row) {
    if let Some(words) = in_words(network, row) {
        say(&format!("exam: {words}"));
    }
}

/// What there is to say of one sheet that is unreadable or doesn't fit.
pub fn in_words(network: &Network, row: &Row) -> Option<String> {
    match &row.outcome {
        // What it quotes of the sheet may hold what a terminal would obey.
        Outcome::Unreadable(Trouble(message)) => Some(message.replace(char::is_control, "?")),
        Outcome::Refused(refusal) if refusal.ground == Ground::SheetLength => {
            let lengths = lengths(network, &[row.sheet.as_ref()?]);
            let (name, words) = (shown(&row.name), refusal.words());
            Some(format!("{name}: {refusal}: {words}\n  {lengths}"))
        }
        _ => None,
    }
}

/// What there is to say where sheets are undecided.
pub fn used_up(network: &Network) -> String {
    let words = "the budget was used up before the best timetable was known (--budget N)";
    format!("exam: {words}\n{}", bound::advice(network.bytes()))
}

/// How many sheets there are of each kind that occurs.
pub fn tally(rows: &[Row]) -> String {
    let counted = |word: &&str| {
        let count = rows
            .iter()
            .filter(|row| row.outcome.word() == *word)
            .count();
        (count > 0).then(|| format!("{count} {word}"))
    };
    let kinds: Vec<String> = WORDS.iter().filter_map(counted).collect();
    let sheets = if rows.len() == 1 { "sheet" } else { "sheets" };
    format!("{} {sheets}: {}", rows.len(), kinds.join(", "))
}

/// A sheet that nobody could read weighs more than a refused one, and that more
/// than an undecided one.
pub fn worse(one: Status, other: Status) -> Status {
    let weight = |status| match status {
        Status::Done => 0,
        Status::Undecided => 1,
        Status::Refused => 2,
        Status::Trouble => 3,
    };
    match weight(other) > weight(one) {
        true => other,
        false => one,
    }
}
