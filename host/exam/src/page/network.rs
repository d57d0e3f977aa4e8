//! The network's lines and stops, as `exam show` has them.

use super::html::{element, head, list, number, row, table};
use super::sitting::Sitting;
use crate::output::named;
use engine::plan::Names;
use engine::{Call, Contents, Refusal};
use std::collections::BTreeSet;

pub fn section(sitting: &Sitting) -> Result<String, Refusal> {
    let contents = engine::contents(sitting.network.bytes())?;
    let names = &sitting.network.names;
    let (lines, stops) = (lines(&contents, names), stops(&contents, names));
    Ok(format!(
        "<section id=\"network\" aria-labelledby=\"network-head\">\n\
         <h2 id=\"network-head\">The network</h2>\n{lines}{stops}</section>\n"
    ))
}

fn lines(contents: &Contents, names: &Names) -> String {
    // There are 16 at most.
    let numbers = 0..contents.periods.len() as u8;
    let line = |line: u8| {
        let calls = contents.along(line);
        let call = |call: &Call| format!("at {} {}", call.offset, named::stop(names, call.stop));
        row(&[
            head(&named::with(line, names.line(line))),
            number(contents.periods[usize::from(line)]),
            list("flow", calls.iter().map(call)),
        ])
    };
    let heads = ["Line", "Every", "Calls, minutes after its start"];
    table("Lines", &heads, &numbers.map(line).collect::<String>())
}

fn stops(contents: &Contents, names: &Names) -> String {
    let called = contents.calls.iter().map(|call| call.stop);
    // A stop may be named and have no call, which is to be seen.
    let stops: BTreeSet<u8> = called.chain(names.stops()).collect();
    let stop = |stop: u8| {
        let calls = contents.at_stop(stop);
        let call = |call: &Call| format!("{} at {}", named::line(names, call.line), call.offset);
        let lines = match calls.is_empty() {
            true => element("td", "no line calls here"),
            false => list("flow", calls.iter().map(call)),
        };
        row(&[head(&named::with(stop, names.stop(stop))), lines])
    };
    let heads = ["Stop", "Lines that call here, minutes after their start"];
    let rows: String = stops.into_iter().map(stop).collect();
    table("Stops", &heads, &rows)
}
