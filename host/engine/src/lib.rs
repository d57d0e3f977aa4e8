//! The proved engine, safe to call from a program of the hall's own: a function for
//! each export of docs/ABI.md (one for both marks), and the readers of networks as
//! people write them: [`plan`], with names and decimal numbers, and [`typed`], in
//! hexadecimal, over [`text`], which a reader of sheets can use too. Nothing is computed
//! here; every number is the engine's.
//!
//! A network file is bytes. A [`Sheet`] has a start in minutes for each line of
//! the network, in line order.
//!
//! | call          | on                     | answers                                  |
//! |---------------|------------------------|------------------------------------------|
//! | [`read`]      | a file                 | [`Counts`]: lines, stops, calls, cycle   |
//! | [`rate`]      | a file, a sheet        | the sheet's [`Rating`]                   |
//! | [`weighted`]  | a file, a sheet        | the same, by classes of stops            |
//! | [`gaps`]      | a file, a sheet        | [`Gaps`]: the gap of each stop           |
//! | [`classes`]   | a file                 | [`Classes`]: which stops rate alike      |
//! | [`board`]     | a file, a sheet, a stop, a window | each [`Arrival`] there        |
//! | [`search`]    | a file, a budget       | [`Searched`]: the best timetable         |
//! | [`wanted`]    | a file, a gap, a budget | [`Wanted`]: a timetable with that gap   |
//! | [`better`]    | a file, two sheets     | [`Better`]: which of them                |
//! | [`mark`]      | a file, a sheet, a budget | [`Mark`]: the sheet beside the best   |
//! | [`mark_by_key`] | a file, a sheet, a key | [`Hundred`]: the mark out of a hundred  |
//! | [`archive`]   | a file                 | the one form in which a network is kept  |
//! | [`contents`]  | a file                 | [`Contents`]: what that form states      |
//!
//! What a call doesn't take it refuses, with a [`Ground`] and a place
//! ([`Refusal`]). Nothing that is handed over makes a call panic.
//!
//! ```
//! use engine::{plan, Mark, Searched, Sheet};
//!
//! # fn main() -> Result<(), Box<dyn std::error::Error>> {
//! let network = plan::read(
//!     b"line Red every 15
//!         Market at 8      # 8 minutes after the line's start
//!       line Green every 20
//!         Market at 17",
//! )?;
//! let rating = engine::rate(network.bytes(), &Sheet::of_starts(&[0, 0]))?;
//! assert_eq!((rating.least, rating.sum), (1, 1));
//!
//! let Searched::Finished(best) = engine::search(network.bytes(), 1_000_000)? else {
//!     return Err("the budget is used up".into());
//! };
//! assert_eq!(best.starts(), [0, 3]);
//!
//! let mark = engine::mark(network.bytes(), &Sheet::of_starts(best.starts()), 1_000_000)?;
//! assert!(matches!(mark, Mark::Decided { equal: true, .. }));
//! # Ok(())
//! # }
//! ```
//!
//! `examples/hall.rs` is a whole program.
//!
//! # Budgets
//!
//! A search makes at most as many tries as its budget says, 0 to `u32::MAX`; the
//! command `exam` takes 1,000,000. Where it stops there, what it found may be
//! beaten: [`Searched`] has another type for it. With a wanted gap it is the same
//! walk, and where it stops nobody knows whether a timetable has that gap.
//!
//! # Threads and stack
//!
//! The engine keeps no state, so that every function may be called from several
//! threads at once. A call needs less than 512 KB of stack.
//!
//! # Where the engine comes from
//!
//! The build script links `libexamination.a`, which `tools/staticlib` writes to
//! `target/staticlib` of the repository. Where this crate stands elsewhere, or
//! the library does, the variable `EXAMINATION_LIB` names the library's folder:
//!
//! ```text
//! EXAMINATION_LIB=/opt/examination cargo build --release
//! ```
//!
//! A program that uses this crate needs no more than the dependency; the library
//! becomes a part of it, and nothing is looked for when it runs.

#![deny(missing_docs)]
#![deny(unsafe_code)]

mod answers;
mod calls;
mod contents;
mod exports;
mod ground;
mod origin;
pub mod plan;
mod refusal;
mod sheet;
pub mod text;
pub mod typed;

/// The engine's library as it was linked, and what the command `cksum` says of
/// it: a sum and a length in bytes.
///
/// ```
/// assert!(engine::LIBRARY.contains("libexamination.a"));
/// ```
pub const LIBRARY: &str = concat!(
    "libexamination.a, proved in Rattle, cksum ",
    env!("EXAMINATION_CKSUM")
);

pub use answers::{
    Arrival, Best, Better, Classes, Counts, Gaps, Hundred, Mark, Rating, RowSearched, RowWanted,
    Searched, SoFar, Wanted, LONGEST_BOARD, MOST_CALLS_AT_STOP, NO_GAP, STOPS,
};
pub use calls::{
    archive, archive_into, better, board, board_into, classes, classes_into, gaps, gaps_into, mark,
    mark_by_key, rate, read, search, search_into, wanted, wanted_into, weighted,
};
pub use contents::{contents, Call, Contents, LATEST_EDITION};
pub use ground::{Ground, NoGround};
pub use refusal::Refusal;
pub use sheet::Sheet;

/// The version of this library, with which the engine's own goes: that of the
/// package in `host/engine/Cargo.toml`. A hall's records name it.
///
/// ```
/// assert_eq!(engine::VERSION.split('.').count(), 3);
/// ```
pub const VERSION: &str = env!("CARGO_PKG_VERSION");
