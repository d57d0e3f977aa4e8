//! The record of sheets that were rated or marked: a row for each, as CSV or
//! JSON, for programs to read.
//!
//! Both forms have the same fields under the same names, in the same order, for
//! `rate` and `mark` alike; what a sheet hasn't is empty in CSV and null in JSON.
//! A field more is a row more in `FIELDS`, behind those that are there.

use super::checksum;
use super::outcome::{Outcome, Row};
use crate::output::names::bytes_where_no_text;
use crate::output::{csv, json};
use engine::{Mark, Rating, Refusal};

/// How a record is written.
#[derive(Clone, Copy, Debug, PartialEq, Eq)]
pub enum RecordForm {
    Csv,
    Json,
}

/// What all rows of a record share.
pub struct About {
    /// That of the library in which the engine is wrapped, `engine::VERSION`.
    pub engine: &'static str,
    /// The checksum of the network, if it is accepted.
    pub crc32: Option<String>,
    /// The budget, if there was a search to limit.
    pub budget: Option<u32>,
}

impl About {
    pub fn of(file: &[u8], budget: Option<u32>) -> About {
        About {
            engine: engine::VERSION,
            crc32: checksum::of_network(file).ok(),
            budget,
        }
    }
}

enum Value {
    Text(String),
    Number(u32),
    None,
}

/// A field: its name, and what a row has there.
type Field = (&'static str, fn(&Row, &About) -> Value);

const FIELDS: [Field; 15] = [
    ("name", |row, _| text(row.name.to_string_lossy())),
    ("status", |row, _| text(row.outcome.word())),
    ("gap", |row, _| {
        number(row.outcome.rating().map(|rating| rating.least))
    }),
    ("sum", |row, _| {
        number(row.outcome.rating().map(|rating| rating.sum))
    }),
    ("best_gap", |row, _| {
        number(best(row).map(|rating| rating.least))
    }),
    ("best_sum", |row, _| {
        number(best(row).map(|rating| rating.sum))
    }),
    ("tries", |row, _| number(tries(row))),
    ("refusal", |row, _| {
        number(refusal(row).map(|it| it.ground.number()))
    }),
    ("place", |row, _| number(refusal(row).map(|it| it.place))),
    ("budget", |_, about| number(about.budget)),
    ("network_crc32", |_, about| optional(about.crc32.clone())),
    ("engine", |_, about| text(about.engine)),
    ("name_bytes", |row, _| {
        optional(bytes_where_no_text(&row.name))
    }),
    ("mark", |row, _| {
        number(row.outcome.hundred().map(|it| it.mark))
    }),
    ("remainder", |row, _| {
        number(row.outcome.hundred().map(|it| it.remainder))
    }),
];

fn text(text: impl Into<String>) -> Value {
    Value::Text(text.into())
}

fn optional(value: Option<String>) -> Value {
    value.map_or(Value::None, Value::Text)
}

fn number(number: Option<u32>) -> Value {
    number.map_or(Value::None, Value::Number)
}

fn best(row: &Row) -> Option<Rating> {
    match row.outcome {
        Outcome::Marked(Mark::Decided { best, .. }) => Some(best),
        _ => None,
    }
}

fn tries(row: &Row) -> Option<u32> {
    match row.outcome {
        Outcome::Marked(Mark::Decided { tries, .. } | Mark::Undecided { tries, .. }) => Some(tries),
        _ => None,
    }
}

fn refusal(row: &Row) -> Option<Refusal> {
    match row.outcome {
        Outcome::Refused(refusal) => Some(refusal),
        _ => None,
    }
}

impl RecordForm {
    /// What stands before the rows.
    pub fn begin(self) -> String {
        match self {
            RecordForm::Csv => csv::row(FIELDS.iter().map(|(name, _)| *name)),
            RecordForm::Json => "[".to_string(),
        }
    }

    /// A row, with what parts it from the one before.
    pub fn row(self, row: &Row, about: &About, is_first: bool) -> String {
        match self {
            RecordForm::Csv => csv_row(row, about),
            RecordForm::Json if is_first => format!("\n{}", json_object(row, about)),
            RecordForm::Json => format!(",\n{}", json_object(row, about)),
        }
    }

    /// What stands behind the rows.
    pub fn end(self) -> &'static str {
        match self {
            RecordForm::Csv => "",
            RecordForm::Json => "\n]\n",
        }
    }
}

fn csv_row(row: &Row, about: &About) -> String {
    csv::row(FIELDS.iter().map(|(_, value)| match value(row, about) {
        Value::Text(text) => text,
        Value::Number(number) => number.to_string(),
        Value::None => String::new(),
    }))
}

/// An object on a line of its own.
fn json_object(row: &Row, about: &About) -> String {
    let member = |(name, value): &Field| {
        let value = match value(row, about) {
            Value::Text(text) => json::string(&text),
            Value::Number(number) => number.to_string(),
            Value::None => "null".to_string(),
        };
        format!("{}: {value}", json::string(name))
    };
    let members: Vec<String> = FIELDS.iter().map(member).collect();
    format!("{{{}}}", members.join(", "))
}
