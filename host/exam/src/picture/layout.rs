//! Where the strips stand, from left to right, and how high their rows are.

use super::text::width;
use super::timetable::{Stop, Timetable};
use crate::hall::witness::Window;

pub const WIDTH: f64 = 1_000.0;
pub const MARGIN: f64 = 16.0;
/// The size of stops' names and gaps.
pub const SIZE: f64 = 13.0;
/// No name of a stop takes more room.
pub const NAMES: f64 = 170.0;
/// The column of line numbers beside the rows.
const LINES: f64 = 42.0;
/// The column on the right, with the gaps.
const GAPS: f64 = 98.0;
/// Over the rows of a strip the minutes of its gap are written.
const ABOVE: f64 = 15.0;
const BELOW: f64 = 4.0;
/// With more calls than this rows are lower.
const MANY_CALLS: usize = 96;

pub struct Layout {
    /// Where stops' names begin, behind their numbers.
    pub names: f64,
    /// The first minute, and the one behind the last.
    pub left: f64,
    pub right: f64,
    /// The width of a minute.
    pub minute: f64,
    row: f64,
    first: i64,
}

impl Layout {
    pub fn of(timetable: &Timetable, stops: &[Stop]) -> Layout {
        let names = stops.iter();
        let names = names.filter_map(|stop| timetable.names.stop(stop.number));
        let widest = names.map(|name| width(name, SIZE)).fold(0.0, f64::max);
        let names = MARGIN + 50.0;
        let left = names + widest.min(NAMES) + LINES;
        let right = WIDTH - MARGIN - GAPS;
        let calls: usize = stops.iter().map(|stop| stop.calls.len()).sum();
        let window = timetable.window;
        Layout {
            names,
            left,
            right,
            minute: (right - left) / f64::from(window.length.max(1)),
            row: if calls > MANY_CALLS { 11.0 } else { 13.0 },
            first: window.first.into(),
        }
    }

    /// The place of a minute.
    pub fn x(&self, time: i64) -> f64 {
        self.left + (time - self.first) as f64 * self.minute
    }

    /// The middle of a row of the strip that begins here.
    pub fn row(&self, strip: f64, row: usize) -> f64 {
        strip + ABOVE + (row as f64 + 0.5) * self.row
    }

    /// Where the rows of a strip begin and end.
    pub fn rows(&self, strip: f64, stop: &Stop) -> (f64, f64) {
        (strip + ABOVE, strip + self.height(stop) - BELOW)
    }

    pub fn height(&self, stop: &Stop) -> f64 {
        ABOVE + stop.calls.len() as f64 * self.row + BELOW
    }

    /// How many numbers of minutes have room beside each other.
    pub fn room_for_numbers(&self, window: Window, size: f64) -> u32 {
        let (first, length) = (i64::from(window.first), i64::from(window.length));
        let widths = [first, first + length].map(|minute| width(&minute.to_string(), size));
        let room = (self.right - self.left) / (widths[0].max(widths[1]) + 22.0);
        room as u32
    }
}
