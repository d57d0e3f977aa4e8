//! A network written as a plan.

use super::names::Names;
use crate::contents::Contents;
use std::collections::BTreeSet;

/// The plan of a network. An edition above 1 stands first, each stop has its number
/// and each call its minutes from the line's start, so that reading the plan gives the
/// same network. A line or stop without a name is named by its number, `L0` and `S5`.
///
/// ```
/// use engine::{contents, plan, typed};
///
/// let network = typed::read(b"4C000F 4300050003 4600000005 45").unwrap();
/// let text = plan::text(&contents(network.bytes()).unwrap(), &plan::Names::default());
/// assert_eq!(
///     text,
///     "stop 0 S0\nstop 5 S5\n\nline L0 every 15\n  S5 at 3\n  S0 at 8\n"
/// );
/// let plan = plan::read(text.as_bytes()).unwrap();
/// assert_eq!(engine::archive(plan.bytes()), engine::archive(network.bytes()));
/// ```
pub fn text(contents: &Contents, names: &Names) -> String {
    let stop_name = |number| match names.stop(number) {
        Some(name) => name.to_string(),
        None => format!("S{number}"),
    };
    let called = contents.calls.iter().map(|call| call.stop);
    let stops: BTreeSet<u8> = called.chain(names.stops()).collect();
    let mut text = match contents.edition {
        1 => String::new(),
        edition => format!("edition {edition}\n\n"),
    };
    for stop in stops {
        text += &format!("stop {stop} {}\n", stop_name(stop));
    }
    for (line, period) in (0..).zip(&contents.periods) {
        let name = match names.line(line) {
            Some(name) => name.to_string(),
            None => format!("L{line}"),
        };
        text += &format!("\nline {name} every {period}\n");
        for call in contents.along(line) {
            text += &format!("  {} at {}\n", stop_name(call.stop), call.offset);
        }
    }
    text
}
