//! Which mark is which line's.

use super::marks::whole;
use super::svg::place;
use super::text::Text;
use super::timetable::Timetable;

pub const ROW: f64 = 20.0;
const SIZE: f64 = 12.0;

/// Where a legend stands.
pub struct Legend {
    pub x: f64,
    pub y: f64,
    pub width: f64,
    pub columns: usize,
}

impl Legend {
    /// An entry for each line, row by row.
    pub fn of_lines(&self, timetable: &Timetable, id: &str, lines: &[u8]) -> String {
        let entry = |(at, line): (usize, &u8)| {
            let [row, column] = [at / self.columns, at % self.columns].map(|count| count as f64);
            let room = self.width / self.columns as f64;
            let (x, y) = (self.x + column * room, self.y + row * ROW);
            let (mark, [left, middle]) = (whole(id, *line), [x + 7.0, y + 10.0].map(place));
            let text = Text::at(x + 20.0, y + 14.0, SIZE);
            let words = text.cut(&named(timetable, *line), room - 32.0);
            format!("<use href=\"#{mark}\" x=\"{left}\" y=\"{middle}\"/>{words}")
        };
        lines.iter().enumerate().map(entry).collect()
    }

    /// How high it is.
    pub fn height(&self, lines: usize) -> f64 {
        lines.div_ceil(self.columns) as f64 * ROW
    }
}

/// A line with its period and its name.
fn named(timetable: &Timetable, line: u8) -> String {
    let period = timetable.periods()[usize::from(line)];
    let name = timetable.names.line(line);
    let name = name.map_or(String::new(), |name| format!(" · {name}"));
    format!("line {line} · every {period}{name}")
}
