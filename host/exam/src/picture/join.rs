//! The two arrivals that make a stop's gap, joined.

use super::layout::Layout;
use super::svg::{place, INK};
use super::text::{Anchor, Text};
use super::timetable::{Stop, Timetable};
use engine::Arrival;

/// Two joined arrivals on their strip.
pub struct Join {
    pair: [Arrival; 2],
    from: (f64, f64),
    to: (f64, f64),
    /// Where the minutes are written.
    label: (f64, f64),
    /// Where the strip's rows begin and end.
    rows: (f64, f64),
    /// Whether the two are of one call, which stands alone: then they aren't near each other.
    lone: bool,
    /// The ends of the strip, where the later arrival is behind the last minute: it comes
    /// again a cycle before.
    around: Option<(f64, f64)>,
}

impl Join {
    /// Joins what is within the strip, or in a whole cycle around its ends.
    pub fn of(timetable: &Timetable, stop: &Stop, layout: &Layout, strip: f64) -> Option<Join> {
        let pair @ [one, other] = stop.pair?;
        let length = i64::from(timetable.window.length);
        let behind = other.time >= i64::from(timetable.window.first) + length;
        let around = behind && timetable.window.length == timetable.cycle;
        let time = if around {
            other.time - length
        } else {
            other.time
        };
        let row = row_of(stop, one.line, one.time, None)?;
        let other_row = row_of(stop, other.line, time, Some(row))
            .or_else(|| row_of(stop, other.line, time, None))?;
        let (from, to) = (layout.x(one.time), layout.x(time));
        let ends = (layout.left, layout.right);
        let (left, right) = match around {
            false => (from, to),
            // The wider part of the two.
            true if ends.1 - from >= to - ends.0 => (from, ends.1),
            true => (ends.0, to),
        };
        let middle = (left + right) / 2.0;
        Some(Join {
            pair,
            from: (from, layout.row(strip, row)),
            to: (to, layout.row(strip, other_row)),
            label: (middle.clamp(ends.0 + 16.0, ends.1 - 16.0), strip + 12.0),
            rows: layout.rows(strip, stop),
            lone: stop.lone_line().is_some(),
            around: around.then_some(ends),
        })
    }

    pub fn element(&self, stop: &Stop) -> String {
        let [one, other] = self.pair;
        let (from, to, gap) = (one.time, other.time, stop.gap);
        let lines = format!("{} {}", one.line, other.line);
        let label = Text::at(self.label.0, self.label.1, 11.0).anchored(Anchor::Middle);
        let label = label.bold();
        format!(
            "<g class=\"gap\" data-from=\"{from}\" data-to=\"{to}\" data-gap=\"{gap}\" \
             data-lines=\"{lines}\">\n{}{}</g>\n",
            self.band(),
            label.element(&format!("{gap} min"))
        )
    }

    /// The minutes between the two, and the way from one mark to the other.
    fn band(&self) -> String {
        let ((x, y), (to_x, to_y)) = (self.from, self.to);
        let Some((left, right)) = self.around else {
            return self.part((x, y), (to_x, to_y));
        };
        // The way is cut where the strip ends.
        let (out, back) = (right - x, to_x - left);
        let cut = y + (to_y - y) * out / (out + back).max(1.0);
        self.part((x, y), (right, cut)) + &self.part((left, cut), (to_x, to_y))
    }

    fn part(&self, from: (f64, f64), to: (f64, f64)) -> String {
        let [x, y, to_x, to_y] = [from.0, from.1, to.0, to.1].map(place);
        let [top, bottom] = [self.rows.0, self.rows.1].map(place);
        let shade = if self.lone { "0" } else { "0.14" };
        format!(
            "<path d=\"M{x} {top}H{to_x}V{bottom}H{x}Z\" fill-opacity=\"{shade}\"/>\
             <path d=\"M{x} {top}V{bottom}M{to_x} {top}V{bottom}\" stroke=\"{INK}\"/>\
             <path d=\"M{x} {y}L{to_x} {to_y}\" stroke=\"{INK}\" stroke-width=\"2\"/>\n"
        )
    }
}

/// The row of a line that has this minute, another than that one.
fn row_of(stop: &Stop, line: u8, time: i64, other: Option<usize>) -> Option<usize> {
    let mut calls = stop.calls.iter().enumerate();
    let call = calls.find(|(row, call)| {
        let has = call.line == line && call.times.binary_search(&time).is_ok();
        has && Some(*row) != other
    });
    call.map(|(row, _)| row)
}
