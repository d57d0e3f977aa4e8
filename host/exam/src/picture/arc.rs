//! A circle of minutes: minute 0 is on top, and they go round as on a clock.

use super::axis::round_minutes;
use super::svg::{place, GREY};
use super::text::{width, Anchor, Text};
use crate::hall::witness::Window;
use std::f64::consts::TAU;

pub const RADIUS: f64 = 206.0;
/// No more round minutes have a number.
const MOST_NUMBERS: u32 = 14;
/// How far outside they stand.
const NUMBERS: f64 = 14.0;
/// A line for each minute has room up to this cycle.
const MOST_LINES: u32 = 120;

pub struct Circle {
    pub middle: (f64, f64),
    pub cycle: u32,
}

impl Circle {
    /// The place of a minute, so far from the middle.
    pub fn place(&self, minute: f64, radius: f64) -> (f64, f64) {
        let (sine, cosine) = sine_and_cosine(self.turn(minute));
        let (x, y) = self.middle;
        (x + radius * sine, y - radius * cosine)
    }

    /// The same for a path.
    pub fn at(&self, minute: f64, radius: f64) -> String {
        let (x, y) = self.place(minute, radius);
        format!("{} {}", place(x), place(y))
    }

    pub fn middle(&self) -> String {
        format!("{} {}", place(self.middle.0), place(self.middle.1))
    }

    /// How far apart two places on the circle are with so many minutes between them.
    pub fn distance(&self, minutes: f64) -> f64 {
        self.turn(minutes).min(TAU) * RADIUS
    }

    fn turn(&self, minutes: f64) -> f64 {
        minutes / f64::from(self.cycle.max(1)) * TAU
    }

    /// The circle with its round minutes.
    pub fn ruler(&self) -> String {
        let [x, y, radius] = [self.middle.0, self.middle.1, RADIUS].map(place);
        let mut ruler = format!(
            "<g fill=\"none\" stroke=\"{GREY}\">\
             <circle cx=\"{x}\" cy=\"{y}\" r=\"{radius}\" stroke-width=\"1.2\"/>\n"
        );
        let line = |minute: i64, length: f64| {
            let [from, to] = [RADIUS, RADIUS + length];
            let [from, to] = [from, to].map(|radius| self.at(minute as f64, radius));
            format!("<path d=\"M{from}L{to}\"/>")
        };
        if self.cycle <= MOST_LINES {
            let lines = (0..self.cycle.into()).map(|minute| line(minute, 4.0));
            ruler += &lines.collect::<String>();
        }
        let lines = self.numbers();
        let lines = lines.iter().map(|minute| line(*minute, 9.0));
        ruler += &lines.collect::<String>();
        ruler += "</g>\n";
        let number = |minute: &i64| {
            let text = self.outside(*minute as f64, (12.0, NUMBERS));
            text.element(&minute.to_string())
        };
        ruler + &self.numbers().iter().map(number).collect::<String>()
    }

    /// The round minutes that have a number. One shortly before the cycle's end would stand
    /// in the way of 0.
    fn numbers(&self) -> Vec<i64> {
        let window = Window {
            first: 0,
            length: self.cycle,
        };
        let mut minutes = round_minutes(window, MOST_NUMBERS);
        let step = minutes.get(1).copied().unwrap_or(1);
        let cycle = i64::from(self.cycle);
        minutes.retain(|minute| *minute == 0 || cycle - minute > step / 2);
        minutes
    }

    /// A text of this size so far outside the circle, at a minute: beside the circle it leads
    /// away from it.
    fn outside(&self, minute: f64, (size, away): (f64, f64)) -> Text {
        let (side, _) = sine_and_cosine(self.turn(minute));
        let (anchor, away) = match side {
            0.35.. => (Anchor::Start, away),
            ..-0.35 => (Anchor::End, away),
            _ => (Anchor::Middle, away + size / 2.0),
        };
        let (x, y) = self.place(minute, RADIUS + away);
        Text::at(x, y + size / 3.0, size).anchored(anchor)
    }

    /// A text outside the numbers.
    pub fn beyond_numbers(&self, minute: f64, size: f64) -> Text {
        let widths = self.numbers().into_iter();
        let widths = widths.map(|minute| width(&minute.to_string(), 12.0));
        let away = NUMBERS + widths.fold(16.0, f64::max) + 4.0;
        self.outside(minute, (size, away))
    }

    /// From minute to minute along the circle, less than once around or once.
    pub fn arc(&self, from: i64, to: i64) -> String {
        let (begin, end) = (from as f64, to as f64);
        let middle = (begin + end) / 2.0;
        let [begin, middle, end] = [begin, middle, end].map(|minute| self.at(minute, RADIUS));
        let radius = place(RADIUS);
        // In two parts: one that goes once around would end where it begins, and be nothing.
        format!(
            "<path d=\"M{begin}A{radius} {radius} 0 0 1 {middle}\
             A{radius} {radius} 0 0 1 {end}\" stroke-width=\"7\"/>"
        )
    }

    /// What shows an arc that is shorter than the marks at its ends.
    pub fn pointer(&self, minute: f64) -> String {
        let [from, to] = [2.0, NUMBERS - 2.0].map(|away| self.at(minute, RADIUS + away));
        format!("<path d=\"M{from}L{to}\" stroke-width=\"3\"/>")
    }

    /// About one minute, for an arc without length.
    pub fn ring(&self, minute: i64) -> String {
        let (x, y) = self.place(minute as f64, RADIUS);
        let [x, y] = [x, y].map(place);
        format!("<circle cx=\"{x}\" cy=\"{y}\" r=\"10\" stroke-width=\"3\"/>")
    }
}

/// By their series. The standard library asks a library of the system, which may round in
/// another way on another machine, and a picture is the same on all.
fn sine_and_cosine(angle: f64) -> (f64, f64) {
    let mut angle = angle;
    while angle > TAU / 2.0 {
        angle -= TAU;
    }
    let (mut sine, mut cosine, mut term) = (0.0, 1.0, 1.0);
    for power in 1..30 {
        term *= angle / f64::from(power);
        match power % 4 {
            0 => cosine += term,
            1 => sine += term,
            2 => cosine -= term,
            _ => sine -= term,
        }
    }
    (sine, cosine)
}

#[cfg(test)]
mod tests {
    use super::{sine_and_cosine, Circle, RADIUS};
    use std::f64::consts::TAU;

    #[test]
    fn sines_and_cosines() {
        for step in 0..=2_000 {
            let angle = f64::from(step) / 1_000.0 * TAU;
            let (sine, cosine) = sine_and_cosine(angle);
            assert!((sine - angle.sin()).abs() < 1e-9, "{angle}");
            assert!((cosine - angle.cos()).abs() < 1e-9, "{angle}");
        }
    }

    #[test]
    fn minutes_go_round_as_on_a_clock() {
        let circle = Circle {
            middle: (300.0, 300.0),
            cycle: 60,
        };
        let at = |minute: f64| circle.at(minute, 100.0);
        let places = [0.0, 15.0, 30.0, 45.0, 60.0].map(at);
        assert_eq!(
            places,
            ["300 200", "400 300", "300 400", "200 300", "300 200"]
        );
        assert_eq!(circle.distance(60.0), TAU * RADIUS);
    }

    /// No number runs into that of minute 0.
    #[test]
    fn numbers_of_odd_cycles() {
        let numbers = |cycle: u32| {
            let middle = (0.0, 0.0);
            Circle { middle, cycle }.numbers()
        };
        assert_eq!(numbers(1), [0]);
        assert_eq!(numbers(7), [0, 1, 2, 3, 4, 5, 6]);
        assert_eq!(numbers(60), [0, 5, 10, 15, 20, 25, 30, 35, 40, 45, 50, 55]);
        assert_eq!(numbers(91), [0, 10, 20, 30, 40, 50, 60, 70, 80]);
        let week = numbers(10_080);
        assert_eq!((week.len(), week[1], week[13]), (14, 720, 9_360));
    }
}
