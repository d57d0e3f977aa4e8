//! What the engine answers of a timetable, as a picture needs it.

use super::subject::Subject;
use crate::hall::witness::{witness, Window};
use engine::plan::Names;
use engine::{Arrival, Contents, Gaps, Rating, Refusal, Sheet, STOPS};

/// A timetable over some minutes.
pub struct Timetable<'a> {
    pub names: &'a Names,
    pub cycle: u32,
    pub window: Window,
    file: &'a [u8],
    sheet: &'a Sheet,
    contents: Contents,
    gaps: Gaps,
    class_row: [u8; STOPS],
}

/// A served stop.
pub struct Stop {
    pub number: u8,
    /// The lowest stop alike to it.
    pub class: u8,
    pub gap: u16,
    /// Whether no stop has a smaller gap.
    pub is_least: bool,
    /// By line.
    pub calls: Vec<Call>,
    /// Two arrivals that are as far apart as the gap, the earlier one in the window.
    pub pair: Option<[Arrival; 2]>,
}

/// A call at a stop: its line, and its arrivals in order.
pub struct Call {
    pub line: u8,
    pub times: Vec<i64>,
}

impl<'a> Timetable<'a> {
    pub fn of(subject: &Subject<'a>) -> Result<Timetable<'a>, Refusal> {
        let (file, sheet) = (subject.network.bytes(), subject.sheet);
        // A sheet is refused before the minutes are, as a board does it.
        let gaps = engine::gaps(file, sheet)?;
        let cycle = engine::read(file)?.cycle;
        let one_cycle = Window {
            first: 0,
            length: cycle,
        };
        Ok(Timetable {
            names: &subject.network.names,
            cycle,
            window: subject.window.unwrap_or(one_cycle),
            file,
            sheet,
            contents: engine::contents(file)?,
            gaps,
            class_row: engine::classes(file)?.class_row,
        })
    }

    pub fn rating(&self) -> Rating {
        self.gaps.rating
    }

    /// The periods in line order.
    pub fn periods(&self) -> &[u16] {
        &self.contents.periods
    }

    /// The served stops, those of one class beside each other.
    pub fn stops(&self) -> Result<Vec<Stop>, Refusal> {
        let mut stops = Vec::new();
        for number in 0..STOPS as u8 {
            stops.extend(self.stop(number)?);
        }
        stops.sort_by_key(|stop| (stop.class, stop.number));
        Ok(stops)
    }

    /// A stop, if a line calls there.
    pub fn stop(&self, number: u8) -> Result<Option<Stop>, Refusal> {
        let Window { first, length } = self.window;
        let board = engine::board(self.file, self.sheet, number.into(), first, length)?;
        let Some(gap) = self.gaps.at(number) else {
            return Ok(None);
        };
        let pair = witness(self.file, (self.sheet, number, gap), self.window, &board)?;
        Ok(Some(Stop {
            number,
            class: self.class_row[usize::from(number)],
            gap,
            is_least: u32::from(gap) == self.gaps.rating.least,
            calls: self.calls(number, &board),
            pair,
        }))
    }

    /// The calls at a stop with their arrivals. A board says of an arrival its line alone;
    /// two calls of a line have one period, so that they arrive in turns.
    fn calls(&self, stop: u8, board: &[Arrival]) -> Vec<Call> {
        let stated = self.contents.at_stop(stop);
        let call = |at: usize| {
            let line = stated[at].line;
            let of_line = |call: &&engine::Call| call.line == line;
            let turn = stated[..at].iter().filter(of_line).count();
            let turns = stated.iter().filter(of_line).count();
            let arrivals = board.iter().filter(|arrival| arrival.line == line);
            let times = arrivals.skip(turn).step_by(turns);
            Call {
                line,
                times: times.map(|arrival| arrival.time).collect(),
            }
        };
        (0..stated.len()).map(call).collect()
    }
}

impl Stop {
    pub fn arrivals(&self) -> usize {
        self.calls.iter().map(|call| call.times.len()).sum()
    }

    /// The line, where one call alone is made: its period is the gap.
    pub fn lone_line(&self) -> Option<u8> {
        match &self.calls[..] {
            [call] => Some(call.line),
            _ => None,
        }
    }
}
