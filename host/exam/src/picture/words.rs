//! What is to be seen, in words.

use super::timetable::{Stop, Timetable};
use crate::output::named;
use engine::plan::Names;
use engine::Arrival;

/// `1 arrival`, or `2 arrivals`.
pub fn counted(count: usize, thing: &str) -> String {
    let plural = if count == 1 { "" } else { "s" };
    format!("{count} {thing}{plural}")
}

/// The minutes of a picture.
pub fn span(timetable: &Timetable) -> String {
    let (first, length) = (timetable.window.first, timetable.window.length);
    let span = format!("{} from minute {first}", counted(length as usize, "minute"));
    match length == timetable.cycle {
        true => format!("one common cycle, {span}"),
        false => span,
    }
}

/// What makes a stop's gap, where that is known.
pub fn makes(stop: &Stop, names: &Names) -> Option<String> {
    match (stop.lone_line(), stop.pair) {
        (Some(line), _) => {
            let line = named::line(names, line);
            Some(format!("the period of {line}, the only call here"))
        }
        (None, Some(pair)) => {
            let [one, other] = pair.map(|arrival| arrives(arrival, names));
            Some(format!("from {one} to {other}"))
        }
        (None, None) => None,
    }
}

fn arrives(arrival: Arrival, names: &Names) -> String {
    let line = named::line(names, arrival.line);
    format!("{line} at minute {}", arrival.time)
}

/// A stop's gap and what makes it, a sentence.
pub fn of_stop(stop: &Stop, names: &Names) -> String {
    let (named, gap) = (
        named::stop(names, stop.number),
        counted(stop.gap.into(), "minute"),
    );
    let least = if stop.is_least { ", the least" } else { "" };
    let makes = makes(stop, names).map_or(String::new(), |makes| format!(", {makes}"));
    format!("At {named} the gap is {gap}{least}{makes}.")
}

/// Which of these stops always rate alike, a sentence for each class of several.
pub fn alike(stops: &[Stop], names: &Names) -> String {
    let classes = stops.chunk_by(|one, other| one.class == other.class);
    let several = classes.filter(|class| class.len() > 1);
    let sentence = |class: &[Stop]| {
        let named = |stop: &Stop| named::with(stop.number, names.stop(stop.number));
        let stops: Vec<String> = class.iter().map(named).collect();
        format!(" The stops {} always rate alike.", stops.join(", "))
    };
    several.map(sentence).collect()
}
