//! `exam show`: what was read, in decimal.

use crate::line::operands::networks;
use crate::line::options::{BYTES, PLAN, TYPED};
use crate::line::table::{Request, Sheets, Verb};
use crate::output::columns::{ended, width};
use crate::output::fault::refused;
use crate::output::streams::put;
use crate::status::{Status, Trouble};
use engine::plan::Names;
use engine::{Call, Contents, Counts};
use std::collections::BTreeSet;

pub const VERB: Verb = Verb {
    name: "show",
    operands: "NETWORK",
    networks: 1,
    sheets: Sheets::Exactly(0),
    last: None,
    options: &[&PLAN, &TYPED, &BYTES],
    summary: "what was read, in decimal, for proofreading",
    about: "\
Shows what the engine read, in decimal: its numbers and its edition, each line with
its period and its calls as it makes them, with the minutes after its start and after
the call before, then each stop with the lines that call there. The names are those
of a plan.
  lines 1 stops 2 calls 2 cycle 15 edition 1

  line 0  every 15  Red
    at  8      stop 0  Market
    at 13  +5  stop 1  Station

  stop 0  Market
    line 0  at  8  Red
  stop 1  Station
    line 0  at 13  Red
",
    run,
};

fn run(request: &Request) -> Result<Status, Trouble> {
    let [network] = networks(request)?;
    let file = network.bytes();
    // What is shown is the engine's answer, and the file isn't looked at.
    let read = engine::read(file).and_then(|counts| Ok((counts, engine::contents(file)?)));
    let (counts, contents) = match read {
        Ok(read) => read,
        Err(refusal) => return refused(refusal, &network),
    };
    put(Shown::new(&contents, &network.names).text(counts))?;
    Ok(Status::Done)
}

/// A network with the widths of its columns.
struct Shown<'a> {
    contents: &'a Contents,
    names: &'a Names,
    stops: BTreeSet<u8>,
    line_width: usize,
    stop_width: usize,
    period_width: usize,
    offset_width: usize,
    ride_width: usize,
}

impl<'a> Shown<'a> {
    fn new(contents: &'a Contents, names: &'a Names) -> Shown<'a> {
        let called = contents.calls.iter().map(|call| call.stop);
        // A stop may be named and have no call, which is to be seen.
        let stops: BTreeSet<u8> = called.chain(names.stops()).collect();
        let rides = lines(contents).flat_map(|line| rides(&contents.along(line)));
        Shown {
            line_width: width(lines(contents)),
            stop_width: width(stops.iter()),
            period_width: width(contents.periods.iter()),
            offset_width: width(contents.calls.iter().map(|call| call.offset)),
            ride_width: rides.map(|ride| ride.len()).max().unwrap_or(0),
            contents,
            names,
            stops,
        }
    }

    fn text(&self, counts: Counts) -> String {
        let mut text = format!(
            "lines {} stops {} calls {} cycle {} edition {}\n",
            counts.lines, counts.served_stops, counts.calls, counts.cycle, self.contents.edition
        );
        for line in lines(self.contents) {
            text += &format!("\n{}", self.line(line));
        }
        text += "\n";
        for stop in &self.stops {
            text += &self.stop(*stop);
        }
        text
    }

    fn line(&self, line: u8) -> String {
        let period = self.contents.periods[usize::from(line)];
        let (line_width, period_width) = (self.line_width, self.period_width);
        let head = format!("line {line:line_width$}  every {period:period_width$}");
        let mut text = ended(head, self.names.line(line));
        let calls = self.contents.along(line);
        for (call, ride) in calls.iter().zip(rides(&calls)) {
            let (stop, stop_width) = (call.stop, self.stop_width);
            let times = format!("{}{}", self.offset(call), self.ride(&ride));
            let row = format!("  {times}  stop {stop:stop_width$}");
            text += &ended(row, self.names.stop(stop));
        }
        text
    }

    fn stop(&self, stop: u8) -> String {
        let stop_width = self.stop_width;
        let head = format!("stop {stop:stop_width$}");
        let mut text = ended(head, self.names.stop(stop));
        let calls = self.contents.at_stop(stop);
        for call in &calls {
            let (line, line_width) = (call.line, self.line_width);
            let row = format!("  line {line:line_width$}  {}", self.offset(call));
            text += &ended(row, self.names.line(line));
        }
        if calls.is_empty() {
            text += "  no line calls here\n";
        }
        text
    }

    /// A column that is there where any line calls twice or more.
    fn ride(&self, ride: &str) -> String {
        match self.ride_width {
            0 => String::new(),
            width => format!("  {ride:>width$}"),
        }
    }

    fn offset(&self, call: &Call) -> String {
        let width = self.offset_width;
        format!("at {:width$}", call.offset)
    }
}

/// The numbers of the lines.
fn lines(contents: &Contents) -> impl Iterator<Item = u8> {
    // There are 16 at most.
    0..contents.periods.len() as u8
}

/// For each of a line's calls the minutes after the one before; nothing for the
/// first.
fn rides(calls: &[Call]) -> Vec<String> {
    let first = calls.iter().take(1).map(|_| String::new());
    let next = calls.windows(2).map(|pair| {
        let ride = pair[1].offset - pair[0].offset;
        format!("+{ride}")
    });
    first.chain(next).collect()
}
