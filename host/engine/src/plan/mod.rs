//! A network as people write it: names, and decimal numbers of minutes.
//!
//! ```
//! use engine::plan;
//!
//! let plan = plan::read(b"
//! line Red every 15       # the next line: its name and its period
//!   Market at 8           # reached 8 minutes after the line's start
//!   Station +5            # 5 minutes after the call above
//! line Green every 20
//!   Market at 17
//! ")?;
//! let counts = engine::read(plan.bytes()).expect("an accepted network");
//! assert_eq!((counts.lines, counts.served_stops, counts.calls), (2, 2, 3));
//! assert_eq!((plan.names().line(1), plan.names().stop(0)), (Some("Green"), Some("Market")));
//! # Ok::<(), plan::Misstated>(())
//! ```
//!
//! # What stands in a plan
//!
//! A statement has a text line to itself; blanks before it and between its words
//! are free, and `#` begins a comment.
//!
//! | statement                | says                                                 |
//! |--------------------------|------------------------------------------------------|
//! | `line NAME every PERIOD` | the next line, counted from 0                        |
//! | `NAME at MINUTES`        | it calls at the stop, so long after its start        |
//! | `NAME +MINUTES`          | it calls at the stop, so long after the call above   |
//! | `stop NUMBER NAME`       | the number of a stop, before the first call          |
//! | `edition NUMBER`         | the edition, 1 or 2, before all lines; without it 1  |
//!
//! Calls stand under their line; the first has `at`. Two may name one stop.
//!
//! Stops are numbered from 0 as they first appear. A plan with a `stop` statement
//! states all its stops so, and a call at another is an error: that is how a
//! plan is kept from a stop that is only misspelt.
//!
//! A number is decimal, without a sign or leading zeros. A name is one word or
//! several, at least one of its characters a letter, with at most 60 characters.
//! It has none of the words `line`, `stop`, `every` and `at`, and none that
//! begins with `+`, so that nothing can be read in two ways. Names of two lines, or
//! of two stops, differ in more than capitals. A line or a stop may be called
//! `edition`: `edition at 5` is a call.
//!
//! # What becomes of it
//!
//! The bytes have `56` for an edition, `4C` for each line, behind it `43` for each of
//! its calls with the minutes from the line's start, and in the end `45`. So `+` may be
//! written in every edition. Whether the bytes are a network, and an edition's place
//! and number, the engine says; a refusal's place leads to the text line.
//!
//! ```
//! use engine::{plan, Ground};
//!
//! let plan = plan::read(b"line Red every 15\n  Market at 8\nline Green every 1441")?;
//! let refusal = engine::read(plan.bytes()).unwrap_err();
//! assert_eq!(refusal.ground, Ground::Period);
//! assert_eq!(plan.line(refusal.place as usize), Some((3, "line Green every 1441")));
//! # Ok::<(), plan::Misstated>(())
//! ```

mod fault;
mod names;
mod reader;
mod statement;
mod writer;

pub use fault::{BadName, Fault, Misstated};
pub use names::Names;
pub use reader::{read, Plan};
pub use writer::text;
