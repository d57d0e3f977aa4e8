//! Every option, declared once, and what a request says by it.

use super::table::{CommandOption, Request, Value};
use super::words::{check_stop, in_digits};
use crate::input::form::Form;
use crate::input::network;
use engine::text::shown;
use engine::LONGEST_BOARD;
use std::ffi::OsStr;

/// What `best` of document 01 has.
const USUAL_BUDGET: u32 = 1_000_000;

pub const PLAN: CommandOption =
    CommandOption::flag("--plan", "the network is a plan, whatever its name")
        .excluding(&["--typed", "--bytes"]);

pub const TYPED: CommandOption =
    CommandOption::flag("--typed", "the network is typed text, whatever its name")
        .excluding(&["--plan", "--bytes"]);

pub const BYTES: CommandOption =
    CommandOption::flag("--bytes", "the network is bytes, whatever its name")
        .excluding(&["--plan", "--typed"]);

pub const SHEET_NUMBERS: CommandOption = CommandOption::flag(
    "--sheet-numbers",
    "a sheet is whole numbers, whatever its name",
)
.excluding(&["--sheet-bytes"]);

pub const SHEET_BYTES: CommandOption =
    CommandOption::flag("--sheet-bytes", "a sheet is bytes, whatever its name")
        .excluding(&["--sheet-numbers"]);

pub const BUDGET: CommandOption = CommandOption {
    name: "--budget",
    value: Some(Value {
        placeholder: "N",
        words: "a number or max",
        check: |word| budget_of(word).map(|_| ()),
    }),
    help: "stop after N tries, 0 to 4294967295 or max (otherwise 1000000)",
    excludes: &[],
    missing: Some("searches nothing and has no budget"),
};

pub const QUIET: CommandOption = CommandOption::flag(
    "--quiet",
    "no sign of life on standard error during a long search",
);

pub const ROWS: CommandOption = CommandOption::flag(
    "--rows",
    "print the class row and the weight row, 64 numbers each",
);

/// `exam best`; a sheet to be kept as the key.
pub const SHEET: CommandOption = CommandOption::flag(
    "--sheet",
    "print the best timetable as a sheet, to be kept as the key",
);

/// `exam explain`; the sheet in place of the best.
pub const KEY: CommandOption = CommandOption {
    name: "--key",
    value: Some(Value {
        placeholder: "SHEET",
        words: "a sheet",
        check: |_| Ok(()),
    }),
    help: "take this sheet for the key, and search nothing",
    excludes: &[],
    missing: None,
};

/// `exam mark`; of several sheets.
pub const RANKED: CommandOption = CommandOption::flag(
    "--ranked",
    "the largest marks first, then remainders, then by name",
);

pub const CSV: CommandOption =
    CommandOption::flag("--csv", "print a record with a row for each sheet, as CSV")
        .excluding(&["--json"]);

pub const JSON: CommandOption = CommandOption::flag(
    "--json",
    "print a record with a row for each sheet, as JSON",
)
.excluding(&["--csv"]);

pub const RAW: CommandOption = CommandOption::flag("--raw", "write bytes");

/// `exam board` and `exam draw`; the first minute.
pub const FROM: CommandOption = CommandOption {
    name: "--from",
    value: Some(Value {
        placeholder: "M",
        words: "a minute",
        check: |word| first_of(word).map(|_| ()),
    }),
    help: "begin at minute M, which may be negative (otherwise 0)",
    excludes: &["--circle"],
    missing: None,
};

/// `exam board` and `exam draw`; how many minutes.
pub const LENGTH: CommandOption = CommandOption {
    name: "--length",
    value: Some(Value {
        placeholder: "N",
        words: "a number of minutes",
        check: |word| length_of(word).map(|_| ()),
    }),
    help: "take N minutes, 0 to 10080 (otherwise one common cycle)",
    excludes: &["--circle"],
    missing: None,
};

/// `exam draw`; a stop's arrivals in place of all strips, over one common cycle.
pub const CIRCLE: CommandOption = CommandOption {
    name: "--circle",
    value: Some(Value {
        placeholder: "STOP",
        words: "a stop",
        check: check_stop,
    }),
    help: "draw the arrivals at this stop on a circle",
    excludes: &["--from", "--length"],
    missing: None,
};

/// How all networks are written; `None` where the names' endings say it.
pub fn network_form(request: &Request) -> Option<network::Form> {
    let forms = [
        (&PLAN, network::Form::Plan),
        (&TYPED, network::Form::Typed),
        (&BYTES, network::Form::Bytes),
    ];
    given(request, &forms)
}

/// How all sheets are written; `None` where the names' endings say it.
pub fn sheet_form(request: &Request) -> Option<Form> {
    let forms = [(&SHEET_NUMBERS, Form::Text), (&SHEET_BYTES, Form::Bytes)];
    given(request, &forms)
}

/// What the option says that was given.
fn given<Form: Copy>(request: &Request, forms: &[(&CommandOption, Form)]) -> Option<Form> {
    let given = forms.iter().find(|(option, _)| request.has(option));
    given.map(|(_, form)| *form)
}

pub fn budget(request: &Request) -> u32 {
    let given = request.value(&BUDGET).map(budget_of);
    // What isn't a budget was refused when the words were parsed.
    given.and_then(Result::ok).unwrap_or(USUAL_BUDGET)
}

/// `max` is the largest.
fn budget_of(word: &OsStr) -> Result<u32, String> {
    if word == "max" {
        return Ok(u32::MAX);
    }
    in_digits(word).ok_or_else(|| {
        format!(
            "the budget '{}' isn't a number of 0 to {}, or max",
            shown(word.as_encoded_bytes()),
            u32::MAX
        )
    })
}

/// The first minute of a board.
pub fn first(request: &Request) -> i32 {
    let given = request.value(&FROM).map(first_of);
    // What isn't a minute was refused when the words were parsed.
    given.and_then(Result::ok).unwrap_or(0)
}

/// A minute has a sign as a start on a sheet may.
fn first_of(word: &OsStr) -> Result<i32, String> {
    let minute = word.to_str().filter(|text| {
        let digits = text.strip_prefix(['-', '+']).unwrap_or(text);
        digits.bytes().all(|byte| byte.is_ascii_digit())
    });
    minute.and_then(|text| text.parse().ok()).ok_or_else(|| {
        format!(
            "the first minute '{}' isn't a whole number of {} to {}",
            shown(word.as_encoded_bytes()),
            i32::MIN,
            i32::MAX
        )
    })
}

/// How many minutes a board has, where that was said.
pub fn length(request: &Request) -> Option<u32> {
    // What isn't a length was refused when the words were parsed.
    request.value(&LENGTH).and_then(in_digits)
}

/// What is too long for a board, the engine says.
fn length_of(word: &OsStr) -> Result<u32, String> {
    in_digits(word).ok_or_else(|| {
        format!(
            "the length '{}' isn't a whole number of 0 to {LONGEST_BOARD}",
            shown(word.as_encoded_bytes())
        )
    })
}
