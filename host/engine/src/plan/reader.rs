//! A plan, read statement by statement.

use super::fault::{BadName, Fault, Misstated};
use super::names::Names;
use super::statement::{statement, Minutes, Statement};
use crate::origin::Origin;
use crate::text;
use crate::typed::{CALL, EDITION, END, LINE};
use std::collections::BTreeMap;

/// A plan: the network file that it says, where in the text each byte comes from,
/// and the names.
///
/// ```
/// let plan = engine::plan::read(b"line Red every 15\n  Market at 8").unwrap();
/// assert_eq!(plan.bytes(), [0x4C, 0, 15, 0x43, 0, 0, 0, 8, 0x45]);
/// ```
#[derive(Clone, Debug, Default, PartialEq, Eq)]
pub struct Plan {
    bytes: Vec<u8>,
    origin: Origin,
    names: Names,
}

impl Plan {
    /// The network file, for the engine's calls.
    ///
    /// ```
    /// let plan = engine::plan::read(b"# nothing but the end").unwrap();
    /// assert_eq!(plan.bytes(), [0x45]);
    /// ```
    pub fn bytes(&self) -> &[u8] {
        &self.bytes
    }

    /// The text line of a byte and its number, the first being 1. The end, which
    /// a plan doesn't state, and what lies behind it has that of the last
    /// statement with bytes; `None` where there is none.
    ///
    /// ```
    /// let plan = engine::plan::read(b"# A note\nline Red every 15\n  Market at 8").unwrap();
    /// assert_eq!(plan.line(2), Some((2, "line Red every 15")));
    /// assert_eq!(plan.line(3), Some((3, "Market at 8")));
    /// ```
    pub fn line(&self, place: usize) -> Option<(usize, &str)> {
        self.origin.line(place)
    }

    /// The names of its lines and stops.
    ///
    /// ```
    /// let plan = engine::plan::read(b"line Red every 15").unwrap();
    /// assert_eq!(plan.names().line(0), Some("Red"));
    /// ```
    pub fn names(&self) -> &Names {
        &self.names
    }
}

/// Reads a plan. Whether it is a network, the engine says.
///
/// ```
/// let plan = engine::plan::read(b"line Red every 15\n  Market at 8").unwrap();
/// assert!(engine::read(plan.bytes()).is_ok());
///
/// let why = engine::plan::read(b"line Red every 15\n  Market +8").unwrap_err();
/// assert_eq!(why.line, 2);
/// ```
pub fn read(text: &[u8]) -> Result<Plan, Misstated> {
    let mut reader = Reader::default();
    for (before, text_line) in text::lines(text).enumerate() {
        reader.at = before + 1;
        let read = statement(text::without_comment(text_line));
        let added = read.and_then(|statement| statement.map_or(Ok(()), |some| reader.add(some)));
        added.map_err(|fault| Misstated {
            line: reader.at,
            fault,
        })?;
        let Plan { origin, bytes, .. } = &mut reader.plan;
        origin.add(text_line, bytes.len());
    }
    reader.plan.bytes.push(END);
    Ok(reader.plan)
}

/// What has been read so far.
#[derive(Default)]
struct Reader {
    plan: Plan,
    /// The text line at hand, the first being 1.
    at: usize,
    lines: Known,
    stops: Known,
    /// Whether stops are stated, and so all of them.
    stops_stated: bool,
    called: bool,
    /// The minutes of the latest call of the line at hand.
    latest: Option<u16>,
}

impl Reader {
    fn add(&mut self, statement: Statement) -> Result<(), Fault> {
        match statement {
            Statement::Edition { edition } => {
                self.add_edition(edition);
                Ok(())
            }
            Statement::Line { name, period } => self.add_line(name, period),
            Statement::Stop { number, name } => self.add_stop(number, name),
            Statement::Call { stop, minutes } => self.add_call(stop, minutes),
        }
    }

    /// Whether it stands first, and whether there is such an edition, the engine says.
    fn add_edition(&mut self, edition: u8) {
        self.plan.bytes.extend([EDITION, edition]);
    }

    fn add_line(&mut self, name: String, period: u16) -> Result<(), Fault> {
        let Ok(number) = u8::try_from(self.plan.names.lines.len()) else {
            return Err(Fault::TooManyLines);
        };
        self.lines.add_new(&name, number, self.at)?;
        self.plan.names.lines.push(name);
        self.plan.bytes.push(LINE);
        self.plan.bytes.extend(period.to_be_bytes());
        self.latest = None;
        Ok(())
    }

    fn add_stop(&mut self, number: u8, name: String) -> Result<(), Fault> {
        if self.called {
            return Err(Fault::StopBehindCall);
        }
        if let Some(name) = self.plan.names.stop(number) {
            let name = name.to_string();
            return Err(Fault::NumberTwice { number, name });
        }
        self.stops.add_new(&name, number, self.at)?;
        self.stops_stated = true;
        self.plan.names.stops.insert(number, name);
        Ok(())
    }

    fn add_call(&mut self, stop: String, minutes: Minutes) -> Result<(), Fault> {
        let Some(line) = self.plan.names.lines.len().checked_sub(1) else {
            return Err(Fault::CallWithoutLine);
        };
        let offset = match (minutes, self.latest) {
            (Minutes::At(offset), _) => offset,
            (Minutes::On(_), None) => return Err(Fault::NoCallBefore { stop }),
            (Minutes::On(ride), Some(latest)) => {
                let minutes = u32::from(latest) + u32::from(ride);
                u16::try_from(minutes).map_err(|_| Fault::TooLate { minutes })?
            }
        };
        let stop = self.stop_of(stop)?;
        self.latest = Some(offset);
        self.called = true;
        // A line's number has a byte: there are 256 lines at most.
        self.plan.bytes.extend([CALL, line as u8, stop]);
        self.plan.bytes.extend(offset.to_be_bytes());
        Ok(())
    }

    /// The number of a stop: the stated one, or the next where it first appears
    /// and none is stated.
    fn stop_of(&mut self, name: String) -> Result<u8, Fault> {
        if let Some(number) = self.stops.number(&name)? {
            return Ok(number);
        }
        if self.stops_stated {
            return Err(Fault::StopNotStated { name });
        }
        let Ok(number) = u8::try_from(self.plan.names.stops.len()) else {
            return Err(Fault::TooManyStops);
        };
        self.stops.add_new(&name, number, self.at)?;
        self.plan.names.stops.insert(number, name);
        Ok(number)
    }
}

/// Names with their numbers, by the name in small letters.
#[derive(Default)]
struct Known(BTreeMap<String, Entry>);

struct Entry {
    name: String,
    number: u8,
    /// Where it stands first.
    line: usize,
}

impl Known {
    /// The number of a name that is known.
    fn number(&self, name: &str) -> Result<Option<u8>, Fault> {
        match self.0.get(&name.to_lowercase()) {
            None => Ok(None),
            Some(entry) if entry.name == name => Ok(Some(entry.number)),
            Some(entry) => {
                let (other, line) = (entry.name.clone(), entry.line);
                Err(Fault::Name {
                    name: name.to_string(),
                    why: BadName::Alike { other, line },
                })
            }
        }
    }

    /// Adds a name that may not be known.
    fn add_new(&mut self, name: &str, number: u8, line: usize) -> Result<(), Fault> {
        let small = name.to_lowercase();
        if self.number(name)?.is_some() {
            let line = self.0[&small].line;
            return Err(Fault::Name {
                name: name.to_string(),
                why: BadName::Twice { line },
            });
        }
        let name = name.to_string();
        self.0.insert(small, Entry { name, number, line });
        Ok(())
    }
}

#[cfg(test)]
mod tests {
    use super::read;

    fn fault(text: &str) -> String {
        read(text.as_bytes()).expect_err(text).to_string()
    }

    #[test]
    fn bytes_in_the_order_of_the_plan() {
        let text =
            "line A every 60\n  X at 100\n  Y +1\n  Z at 7\n  W +65528\nline B every 1\nY at 0\n";
        let bytes: [u8; 32] = [
            0x4C, 0, 60, 0x43, 0, 0, 0, 100, 0x43, 0, 1, 0, 101, 0x43, 0, 2, 0, 7, 0x43, 0, 3,
            0xFF, 0xFF, 0x4C, 0, 1, 0x43, 1, 1, 0, 0, 0x45,
        ];
        let plan = read(text.as_bytes()).expect("a plan");
        assert_eq!(plan.bytes(), bytes);
        let lines: Vec<usize> = (0..34)
            .filter_map(|place| plan.line(place))
            .map(|(number, _)| number)
            .collect();
        let of_commands = [(1, 3), (2, 5), (3, 5), (4, 5), (5, 5), (6, 3), (7, 8)];
        let wanted = of_commands.map(|(line, count)| vec![line; count]).concat();
        assert_eq!(lines, wanted);
    }

    /// A mark of UTF-8, other line ends, comments of any bytes.
    #[test]
    fn texts_of_other_editors() {
        let text = b"\xEF\xBB\xBF# M\xFChle\r\nline Red every 20# \x1B\r\n\tMarket at 8\r\n";
        let plan = read(text).expect("a plan");
        assert_eq!(plan.bytes(), [0x4C, 0, 20, 0x43, 0, 0, 0, 8, 0x45]);
        assert_eq!(plan.line(3), Some((3, "Market at 8")));
        assert_eq!(read(b"").expect("a plan").line(0), None);
    }

    /// An edition stands where it is stated; a stop above it has no bytes.
    #[test]
    fn editions() {
        let text = b"# new\nstop 0 X\nedition 2\nline A every 5\nX at 0\nX +1";
        let plan = read(text).expect("a plan");
        let bytes = [
            0x56, 2, 0x4C, 0, 5, 0x43, 0, 0, 0, 0, 0x43, 0, 0, 0, 1, 0x45,
        ];
        assert_eq!(plan.bytes(), bytes);
        assert_eq!(plan.line(0), Some((3, "edition 2")));
        let late = read(b"line A every 5\nX at 7\nedition 255\nY +1").expect("a plan");
        assert_eq!(late.bytes()[8..10], [0x56, 255]);
        assert_eq!(late.bytes()[10..15], [0x43, 0, 1, 0, 8]);
        assert_eq!(late.line(8), Some((3, "edition 255")));
        // A line and a stop may be called so.
        let named = read(b"line edition 2 every 5\nedition at 7\nedition +1\nedition 2 at 9");
        let named = named.expect("a plan");
        assert_eq!(named.bytes()[..3], [0x4C, 0, 5]);
        assert_eq!(
            (named.names().line(0), named.names().stop(0)),
            (Some("edition 2"), Some("edition"))
        );
        assert_eq!(named.names().stop(1), Some("edition 2"));
    }

    #[test]
    fn stops_as_they_appear_or_as_they_are_stated() {
        let plan = read(b"line A every 5\nX at 0\nY +1\nX +1").expect("a plan");
        assert_eq!(plan.bytes()[13..18], [0x43, 0, 0, 0, 2]);
        let stated = read(b"stop 9 Y\nstop 200 X\nline A every 5\nX at 0\nY +1").expect("a plan");
        assert_eq!(
            stated.bytes()[3..13],
            [0x43, 0, 200, 0, 0, 0x43, 0, 9, 0, 1]
        );
        let beside_lines = read(b"line A every 5\nstop 9 Y\nY at 0").expect("a plan");
        assert_eq!(beside_lines.bytes()[5], 9);
    }

    #[test]
    fn stops_that_are_not_stated() {
        let why = "text line 3: this plan states its stops, and no 'Markt' among them; expected \
                   one of them, or stop NUMBER Markt above the first call";
        assert_eq!(fault("stop 0 Market\nline A every 5\nMarkt at 0"), why);
        let why = "text line 3: the number of a stop stands above the first call";
        assert_eq!(fault("line A every 5\nX at 0\nstop 1 Y"), why);
        let why = "text line 2: stop 5 is 'Market' already";
        assert_eq!(fault("stop 5 Market\nstop 5 Church"), why);
    }

    #[test]
    fn names_given_twice() {
        let twice = "text line 2: the name 'Market' is given already, on text line 1";
        assert_eq!(fault("stop 5 Market\nstop 6 Market"), twice);
        let twice = "text line 3: the name 'Red' is given already, on text line 1";
        assert_eq!(fault("line Red every 5\nX at 0\nline Red every 6"), twice);
        let alike = "text line 3: the names 'X MÜHLE' and 'X Mühle', on text line 2, differ in \
                     capitals alone";
        assert_eq!(fault("line A every 5\nX Mühle at 0\nX MÜHLE +1"), alike);
        assert_eq!(
            fault("line A every 5\nline a every 6"),
            "text line 2: the names 'a' and 'A', on text line 1, differ in capitals alone"
        );
        // A line and a stop may have one name.
        read(b"line Market every 5\nMarket at 0").expect("a plan");
    }

    #[test]
    fn calls_out_of_place() {
        let why = "text line 1: a call stands under its line; expected line NAME every PERIOD \
                   above it";
        assert_eq!(fault("Market at 8"), why);
        let why = "text line 4: + counts from the line's call before, and this is its first; \
                   expected Market at MINUTES";
        assert_eq!(
            fault("line A every 5\nX at 3\nline B every 5\nMarket +0"),
            why
        );
        let why = "text line 3: that is 65536 minutes after the line's start; expected 65535 at \
                   most in all";
        assert_eq!(fault("line A every 5\nX at 65535\nY +1"), why);
    }

    #[test]
    fn more_than_there_are_bytes_for() {
        let lines = |count: usize| -> String {
            (0..count)
                .map(|number| format!("line L{number} every 5\n"))
                .collect()
        };
        read(lines(256).as_bytes()).expect("a plan");
        assert_eq!(fault(&lines(257)), "text line 257: a 257th line");
        let stops = |count: usize| -> String {
            let calls = (0..count).map(|number| format!("S{number} at 0\n"));
            "line A every 5\n".to_string() + &calls.collect::<String>()
        };
        read(stops(256).as_bytes()).expect("a plan");
        assert_eq!(fault(&stops(257)), "text line 258: a 257th stop");
    }
}
