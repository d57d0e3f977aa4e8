//! The command `exam`; `exam --help` says how to use it. Every answer is the
//! engine's own.
//!
//! | folder or file | what                                                    |
//! |----------------|---------------------------------------------------------|
//! | `status.rs`    | exit statuses, and trouble in words                     |
//! | `system.rs`    | what the operating system says, in our words            |
//! | `closed.rs`    | whether standard input and output were open             |
//! | `interrupt.rs` | Ctrl-C while the engine searches                        |
//! | `input`        | files and standard input, networks and sheets           |
//! | `output`       | standard output and standard error, refusals in words   |
//! | `line`         | the command line: its table, its options, parser, help  |
//! | `hall`         | what several verbs do with sheets and long searches     |
//! | `picture`      | pictures of a timetable, as SVG                         |
//! | `page`         | a sitting as one page of HTML                           |
//! | `verbs`        | a file for each verb, and the list of all               |
//!
//! Each uses those above it alone.

// But for `closed.rs` and `interrupt.rs`.
#![deny(unsafe_code)]

mod closed;
mod hall;
mod input;
mod interrupt;
mod line;
mod output;
mod page;
mod picture;
mod status;
mod system;
mod verbs;

use line::pages;
use line::parser::{asked, Asked};
use output::streams::{put, say};
use status::{Status, Trouble};
use std::process::ExitCode;
use verbs::ALL;

fn main() -> ExitCode {
    let status = run().unwrap_or_else(|trouble| {
        if trouble != Trouble::unsaid() {
            say(&format!("exam: {}", trouble.0));
        }
        Status::Trouble
    });
    ExitCode::from(status as u8)
}

fn run() -> Result<Status, Trouble> {
    let words = std::env::args_os().skip(1).collect();
    let asked = asked(&ALL, words)?;
    // Nobody waits for a search whose answer can't be given.
    if closed::output() {
        return Err(Trouble("standard output is closed".to_string()));
    }
    match asked {
        Asked::Page(page) => put(pages::text(&ALL, page)).map(|()| Status::Done),
        Asked::Run(verb, request) => (verb.run)(&request),
    }
}
