//! A stop's arrivals on a circle of one common cycle: each call is a regular polygon.

use super::arc::{Circle, RADIUS};
use super::legend::Legend;
use super::marks::{self, colour, reference};
use super::svg::{place, Picture, GREY, INK};
use super::text::Text;
use super::timetable::{Call, Stop, Timetable};
use super::words;
use crate::output::lines::joined;
use crate::output::named;
use crate::output::xml::escaped;
use engine::Refusal;
use std::collections::BTreeMap;

const WIDTH: f64 = 700.0;
const MARGIN: f64 = 16.0;
/// The middle of the circle.
const MIDDLE: (f64, f64) = (350.0, 358.0);
/// Where the legend begins.
const BELOW: f64 = 634.0;
/// Marks are larger than in strips.
const LARGER: f64 = 1.35;
/// Marks at one minute stand behind each other towards the middle, so far apart.
const STEP: f64 = 15.0;
/// They take no more room than this.
const DEEPEST: f64 = 180.0;
/// Of more arrivals the words don't list each.
const MANY: usize = 100;

pub fn element(timetable: &Timetable, id: &str, number: u8) -> Result<String, Refusal> {
    let stop = timetable.stop(number)?;
    let circle = Circle {
        middle: MIDDLE,
        cycle: timetable.cycle,
    };
    let calls: &[Call] = stop.as_ref().map_or(&[], |stop| &stop.calls);
    let mut lines: Vec<u8> = calls.iter().map(|call| call.line).collect();
    lines.dedup();
    let legend = Legend {
        x: MARGIN,
        y: BELOW,
        width: WIDTH - 2.0 * MARGIN,
        columns: 2,
    };
    let title = title(timetable, stop.as_ref(), number);
    let body = head(timetable, stop.as_ref(), &title)
        + &circle.ruler()
        + &stop
            .as_ref()
            .map_or(String::new(), |stop| gap(&circle, stop))
        + &polygons(&circle, calls)
        + &corners(&circle, timetable, calls, id)
        + &legend.of_lines(timetable, id, &lines);
    let periods = lines
        .iter()
        .map(|line| timetable.periods()[usize::from(*line)]);
    let closest = circle.distance(periods.min().unwrap_or(1).into());
    let picture = Picture {
        id,
        width: WIDTH,
        height: BELOW + legend.height(lines.len()) + MARGIN,
        words: described(timetable, stop.as_ref(), number),
        title,
        definitions: marks::definitions(id, lines.iter().copied(), LARGER * marks::scale(closest)),
        body,
    };
    Ok(picture.element())
}

/// The stop and its gap.
fn title(timetable: &Timetable, stop: Option<&Stop>, number: u8) -> String {
    let gap = stop.map_or(String::new(), |stop| format!(" gap {}", stop.gap));
    let name = timetable.names.stop(number);
    // A name comes last, where it may be cut.
    let name = name.map_or(String::new(), |name| format!(" · {name}"));
    format!("stop {number}{gap}{name}")
}

/// What is to be seen, for those who don't see it.
fn described(timetable: &Timetable, stop: Option<&Stop>, number: u8) -> String {
    let span = words::span(timetable);
    let Some(stop) = stop else {
        let named = named::stop(timetable.names, number);
        return format!("A circle of {span}. No line calls at {named}.");
    };
    let words = words::of_stop(stop, timetable.names);
    let sentence = |call: &Call| {
        let line = named::line(timetable.names, call.line);
        format!(" A call of {line} at the minutes {}.", joined(&call.times))
    };
    let calls: String = match stop.arrivals() > MANY {
        true => String::new(),
        false => stop.calls.iter().map(sentence).collect(),
    };
    format!("A circle of {span}, a regular polygon for each call. {words}{calls}")
}

/// The title, and what makes the gap.
fn head(timetable: &Timetable, stop: Option<&Stop>, title: &str) -> String {
    let room = WIDTH - 2.0 * MARGIN;
    let makes = match stop {
        Some(stop) => words::makes(stop, timetable.names),
        None => Some("no line calls here".to_string()),
    };
    let large = Text::at(MARGIN, 36.0, 22.0).bold();
    let small = |y: f64| Text::at(MARGIN, y, 12.0);
    large.cut(title, room)
        + &small(56.0).cut(&makes.unwrap_or_default(), room)
        + &small(72.0).element(&format!(
            "{}; a call's arrivals are the corners of a regular polygon",
            words::span(timetable)
        ))
}

/// A polygon for each call: two corners are a line through the middle, and one is a line
/// from there.
fn polygons(circle: &Circle, calls: &[Call]) -> String {
    let polygon = |call: &Call| {
        let corner = |time: &i64| circle.at(*time as f64, RADIUS);
        let corners: Vec<String> = call.times.iter().map(corner).collect();
        let path = match &corners[..] {
            [one] => format!("M{}L{one}", circle.middle()),
            corners => format!("M{}Z", corners.join("L")),
        };
        let (line, colour) = (call.line, colour(call.line));
        // Lines whose marks are hollow have broken sides.
        let dashes = if marks::is_hollow(line) {
            " stroke-dasharray=\"7 4\""
        } else {
            ""
        };
        format!(
            "<g class=\"polygon\" data-line=\"{line}\" fill=\"none\" stroke-linejoin=\"round\">\
             <path d=\"{path}\" stroke=\"{GREY}\" stroke-width=\"3\"{dashes}/>\
             <path d=\"{path}\" stroke=\"{colour}\" stroke-width=\"2.2\"{dashes}/></g>\n"
        )
    };
    calls.iter().map(polygon).collect()
}

/// The marks of all arrivals.
fn corners(circle: &Circle, timetable: &Timetable, calls: &[Call], id: &str) -> String {
    let step = STEP.min(DEEPEST / most_at_once(calls).max(1) as f64);
    // How many stand at a minute already.
    let mut taken: BTreeMap<i64, usize> = BTreeMap::new();
    let mut corners = String::new();
    for call in calls {
        let (line, mark) = (call.line, reference(id, call.line));
        let words = escaped(&named::line(timetable.names, line));
        corners += &format!("<g class=\"call\" data-line=\"{line}\"><title>{words}</title>\n");
        for time in &call.times {
            let behind = taken.entry(*time).or_default();
            let radius = RADIUS - *behind as f64 * step;
            *behind += 1;
            let (x, y) = circle.place(*time as f64, radius);
            let [x, y] = [x, y].map(place);
            corners += &format!(
                "<use class=\"a\" href=\"#{mark}\" x=\"{x}\" y=\"{y}\" data-time=\"{time}\"/>"
            );
        }
        corners += "</g>\n";
    }
    corners
}

/// The most arrivals that there are at one minute.
fn most_at_once(calls: &[Call]) -> usize {
    let mut counts: BTreeMap<i64, usize> = BTreeMap::new();
    for time in calls.iter().flat_map(|call| &call.times) {
        *counts.entry(*time).or_default() += 1;
    }
    counts.into_values().max().unwrap_or(0)
}

/// The shortest arc between corners of two calls, or of one call alone its period.
fn gap(circle: &Circle, stop: &Stop) -> String {
    let Some([one, other]) = stop.pair else {
        return String::new();
    };
    let (from, to, gap) = (one.time, other.time, stop.gap);
    let lines = format!("{} {}", one.line, other.line);
    let arc = match gap {
        0 => circle.ring(from),
        _ => circle.arc(from, to) + &circle.pointer((from + to) as f64 / 2.0),
    };
    let label = circle.beyond_numbers((from + to) as f64 / 2.0, 16.0);
    let label = label.bold();
    format!(
        "<g class=\"gap\" data-from=\"{from}\" data-to=\"{to}\" data-gap=\"{gap}\" \
         data-lines=\"{lines}\">\n<g fill=\"none\" stroke=\"{INK}\">{arc}</g>\n{}</g>\n",
        label.element(&format!("{gap} min"))
    )
}
