//! A strip for each served stop, with a row for each call and a mark for each arrival.

use super::axis::round_minutes;
use super::join::Join;
use super::layout::{Layout, MARGIN, NAMES, SIZE, WIDTH};
use super::legend::{Legend, ROW};
use super::marks::{self, reference};
use super::svg::{place, Picture, FAINT, GREY, INK};
use super::text::{Anchor, Text};
use super::timetable::{Call, Stop, Timetable};
use super::words::{self, counted};
use crate::output::lines;
use crate::output::named;
use crate::output::xml::escaped;
use engine::Refusal;

/// Strips of two classes stand apart.
const APART: f64 = 7.0;
/// Strips that are higher have their minutes below too.
const HIGH: f64 = 600.0;

pub fn element(timetable: &Timetable, id: &str) -> Result<String, Refusal> {
    let stops = timetable.stops()?;
    let layout = Layout::of(timetable, &stops);
    let shortest = timetable.periods().iter().min().copied().unwrap_or(1);
    let scale = marks::scale(f64::from(shortest) * layout.minute);
    let strips = Strips {
        timetable,
        layout,
        id,
    };
    let (head, top) = head(timetable, &stops, id);
    let (drawn, bottom) = strips.all(&stops, top);
    let (ruler, end) = strips.ruler(top, bottom);
    let lines = 0..timetable.periods().len() as u8;
    let title = lines::shown(timetable.rating());
    let sentence = |stop: &Stop| format!(" {}", words::of_stop(stop, timetable.names));
    let sentences: String = stops.iter().map(sentence).collect();
    let alike = words::alike(&stops, timetable.names);
    let picture = Picture {
        id,
        width: WIDTH,
        height: end + MARGIN,
        words: format!("{}.{sentences}{alike}", described(timetable, &stops)),
        title,
        definitions: marks::definitions(id, lines, scale),
        body: format!("{head}{ruler}{drawn}"),
    };
    Ok(picture.element())
}

/// What is to be seen on the whole.
fn described(timetable: &Timetable, stops: &[Stop]) -> String {
    let arrivals = stops.iter().map(Stop::arrivals).sum();
    let (arrivals, stops) = (counted(arrivals, "arrival"), counted(stops.len(), "stop"));
    format!("{arrivals} at {stops}, {}", words::span(timetable))
}

/// The title, the legend and what the band and the frame mean; and where that ends.
fn head(timetable: &Timetable, stops: &[Stop], id: &str) -> (String, f64) {
    let title = Text::at(MARGIN, 38.0, 24.0).bold();
    let below = Text::at(MARGIN, 58.0, 12.0);
    let legend = Legend {
        x: MARGIN,
        y: 72.0,
        width: WIDTH - 2.0 * MARGIN,
        columns: 3,
    };
    let lines: Vec<u8> = (0..timetable.periods().len() as u8).collect();
    let meaning = legend.y + legend.height(lines.len()) + 4.0;
    let head = title.element(&lines::shown(timetable.rating()))
        + &below.element(&described(timetable, stops))
        + &legend.of_lines(timetable, id, &lines)
        + &meanings(meaning);
    (head, meaning + ROW + 44.0)
}

/// What the band and the frame mean.
fn meanings(y: f64) -> String {
    let [top, middle, line] = [y + 3.0, y + 10.0, y + 17.0].map(place);
    let words = |x: f64, text: &str| Text::at(x, y + 14.0, 12.0).element(text);
    format!(
        "<path d=\"M{MARGIN} {top}H40V{line}H{MARGIN}Z\" fill-opacity=\"0.14\"/>\
         <path d=\"M{MARGIN} {middle}H40\" stroke=\"{INK}\" stroke-width=\"2\"/>{}\
         <path d=\"M566 {top}H590V{line}H566Z\" fill=\"none\" stroke=\"{INK}\" \
         stroke-width=\"2\"/>{}",
        words(
            48.0,
            "the gap: the nearest arrivals of two calls; of one call alone, its period"
        ),
        words(598.0, "least: no stop has a smaller gap")
    )
}

/// The strips of a timetable as they are drawn.
struct Strips<'a> {
    timetable: &'a Timetable<'a>,
    layout: Layout,
    id: &'a str,
}

impl Strips<'_> {
    /// All strips from here on, class after class, and where they end.
    fn all(&self, stops: &[Stop], mut y: f64) -> (String, f64) {
        let mut strips = String::new();
        for class in stops.chunk_by(|one, other| one.class == other.class) {
            let top = y;
            for stop in class {
                strips += &self.strip(stop, y);
                y += self.layout.height(stop);
            }
            if class.len() > 1 {
                strips += &bracket(top, y);
            }
            y += APART;
        }
        (strips, y - APART)
    }

    /// The strip of a stop.
    fn strip(&self, stop: &Stop, y: f64) -> String {
        let (number, class, gap) = (stop.number, stop.class, stop.gap);
        let mut strip = format!(
            "<g class=\"strip\" data-stop=\"{number}\" data-class=\"{class}\" data-gap=\"{gap}\">\n"
        );
        let (edge, end, top) = (place(MARGIN + 18.0), place(WIDTH - MARGIN), place(y));
        strip +=
            &format!("<path d=\"M{edge} {top}H{end}\" stroke=\"{GREY}\" stroke-width=\"0.6\"/>\n");
        if stop.is_least {
            strip += &frame(y, self.layout.height(stop));
        }
        strip += &self.labels(stop, y);
        strip += &self.rows(stop, y);
        if let Some(join) = Join::of(self.timetable, stop, &self.layout, y) {
            strip += &join.element(stop);
        }
        for (row, call) in stop.calls.iter().enumerate() {
            strip += &self.call(call, self.layout.row(y, row));
        }
        strip + "</g>\n"
    }

    /// The stop on the left of its strip, its gap on the right.
    fn labels(&self, stop: &Stop, y: f64) -> String {
        let (layout, names) = (&self.layout, self.timetable.names);
        let line = layout.row(y, 0) + 4.5;
        let number = Text::at(layout.names - 6.0, line, SIZE).anchored(Anchor::End);
        let mut labels = number.bold().element(&stop.number.to_string());
        if let Some(name) = names.stop(stop.number) {
            labels += &Text::at(layout.names, line, SIZE).cut(name, NAMES);
        }
        let gap = Text::at(layout.right + 48.0, line, SIZE).anchored(Anchor::End);
        labels += &gap.bold().element(&stop.gap.to_string());
        if stop.is_least {
            let least = Text::at(layout.right + 53.0, line, SIZE).bold();
            labels += &least.element("least");
        }
        labels
    }

    /// A line for each call, on which its marks stand.
    fn rows(&self, stop: &Stop, y: f64) -> String {
        let layout = &self.layout;
        let [left, right] = [layout.left, layout.right].map(place);
        let row = |row: usize| format!("M{left} {}H{right}", place(layout.row(y, row)));
        let rows: String = (0..stop.calls.len()).map(row).collect();
        format!("<path d=\"{rows}\" stroke=\"{FAINT}\"/>\n")
    }

    /// The line's number and the marks of a call.
    fn call(&self, call: &Call, y: f64) -> String {
        let layout = &self.layout;
        let line = call.line;
        let words = escaped(&named::line(self.timetable.names, line));
        let y = place(y);
        let number = Text::at(layout.left - 12.0, 3.6, 10.0).anchored(Anchor::End);
        let mut row = format!(
            "<g class=\"call\" data-line=\"{line}\" transform=\"translate(0 {y})\">\
             <title>{words}</title>\n{}",
            number.element(&line.to_string())
        );
        let mark = reference(self.id, line);
        for time in &call.times {
            let x = place(layout.x(*time));
            row += &format!("<use class=\"a\" href=\"#{mark}\" x=\"{x}\" data-time=\"{time}\"/>");
        }
        row + "</g>\n"
    }

    /// The round minutes over the strips, and below where these are high; and where that ends.
    fn ruler(&self, top: f64, bottom: f64) -> (String, f64) {
        let (layout, window) = (&self.layout, self.timetable.window);
        let minutes = round_minutes(window, layout.room_for_numbers(window, 11.0));
        let high = bottom - top > HIGH;
        let [from, to] = [top - 6.0, bottom + if high { 6.0 } else { 0.0 }].map(place);
        let mut ruler = self.headings(top - 11.0) + "<g class=\"minutes\">\n";
        for minute in minutes {
            let x = layout.x(minute);
            let label = |y: f64| {
                let text = Text::at(x, y, 11.0).anchored(Anchor::Middle);
                text.element(&minute.to_string())
            };
            let at = place(x);
            ruler += &format!("<path d=\"M{at} {from}V{to}\" stroke=\"{FAINT}\"/>\n");
            ruler += &label(top - 11.0);
            if high {
                ruler += &label(bottom + 19.0);
            }
        }
        (ruler + "</g>\n", bottom + if high { 24.0 } else { 0.0 })
    }

    /// What stands in the columns.
    fn headings(&self, y: f64) -> String {
        let over = Text::at(self.layout.left, y - 14.0, 11.0);
        let heading = |x: f64, word: &str| {
            let text = Text::at(x, y, 11.0).anchored(Anchor::End);
            text.element(word)
        };
        let layout = &self.layout;
        let headings = over.anchored(Anchor::Middle).element("minute")
            + &heading(layout.names - 6.0, "stop")
            + &heading(layout.left - 12.0, "line")
            + &heading(layout.right + 48.0, "gap");
        format!("<g fill=\"{GREY}\" font-style=\"italic\">\n{headings}</g>\n")
    }
}

/// What says that no stop has a smaller gap.
fn frame(y: f64, height: f64) -> String {
    let width = WIDTH - 2.0 * MARGIN - 18.0;
    let [x, y, width, height] = [MARGIN + 18.0, y + 2.0, width, height - 4.0].map(place);
    format!(
        "<rect class=\"least\" x=\"{x}\" y=\"{y}\" width=\"{width}\" height=\"{height}\" \
         rx=\"3\" fill=\"none\" stroke=\"{INK}\" stroke-width=\"2\"/>\n"
    )
}

/// What says that the stops from here to there always rate alike.
fn bracket(top: f64, bottom: f64) -> String {
    let [from, to] = [top + 3.0, bottom - 3.0].map(place);
    let middle = place((top + bottom) / 2.0);
    let x = MARGIN + 14.0;
    format!(
        "<path d=\"M{x} {from}h-4V{to}h4\" fill=\"none\" stroke=\"{INK}\"/>\
         <text class=\"alike\" font-size=\"11\" text-anchor=\"middle\" \
         transform=\"translate({MARGIN} {middle}) rotate(-90)\" y=\"4\">alike</text>\n"
    )
}
