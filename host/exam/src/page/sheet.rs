//! One sheet: its mark, what decides, where it loses, and its picture.

use super::html::{element, escaped, head, list, number, row, table};
use super::picture::picture;
use super::sitting::{in_line_order, sheet_id, Sitting};
use crate::hall::explaining::{explained, Change, Explained, Stop};
use crate::hall::outcome::{Outcome, Row};
use crate::hall::report::in_words;
use crate::hall::verdict::verdict;
use crate::output::arrivals::{clock, day};
use crate::output::named;
use crate::output::names::shown;
use engine::plan::Names;
use engine::{Arrival, Refusal, Sheet};

pub fn section(sitting: &Sitting, place: usize, row: &Row) -> Result<String, Refusal> {
    let id = sheet_id(place);
    let name = shown(&row.name);
    let (told, picture) = match (&row.outcome, &row.sheet) {
        (Outcome::Rated(_) | Outcome::Marked(_), Some(sheet)) => {
            let named = (
                &format!("{id}-picture")[..],
                &format!("Picture of {name}")[..],
            );
            let picture = picture(sitting, sheet, named)?;
            (told(sitting, sheet, &name)?, picture)
        }
        _ => (without_rating(sitting, row), String::new()),
    };
    let (name, result) = (escaped(&name), element("strong", &result(&row.outcome)));
    let line = element("code", &row.outcome.line());
    Ok(format!(
        "<section class=\"sheet\" id=\"{id}\" aria-labelledby=\"{id}-head\">\n\
         <h2 id=\"{id}-head\">{name}</h2>\n<p class=\"result\">{result}</p>\n{told}\
         <p>As exam mark prints it: {line}</p>\n{picture}\
         <p class=\"back\"><a href=\"#sheets\">All sheets</a></p>\n</section>\n"
    ))
}

/// The mark, or why there is none.
fn result(outcome: &Outcome) -> String {
    match (outcome.hundred(), outcome.word()) {
        (Some(hundred), word) => {
            let (mark, remainder) = (hundred.mark, hundred.remainder);
            format!("Mark {mark}, remainder {remainder}: {word}")
        }
        (None, word) => format!("No mark: {word}"),
    }
}

/// What is said of a refused or unreadable sheet.
fn without_rating(sitting: &Sitting, row: &Row) -> String {
    let words = in_words(sitting.network, row).unwrap_or_default();
    let lines = words.lines().map(|line| element("p", line.trim()) + "\n");
    lines.collect()
}

/// What decides, the starts, and the stops where the sheet loses.
fn told(sitting: &Sitting, sheet: &Sheet, name: &str) -> Result<String, Refusal> {
    let names = &sitting.network.names;
    let explained = explained(sitting.network.bytes(), sheet, &sitting.key)?;
    let sentences = verdict(&explained, names).join(" ");
    let starts = in_line_order(&starts(sheet));
    let losses = losses(&explained, names, name);
    let (sentences, starts) = (element("p", &sentences), element("p", &starts));
    Ok(format!("{sentences}\n{starts}\n{losses}"))
}

/// The starts of a sheet that fits: 4 bytes each.
fn starts(sheet: &Sheet) -> Vec<i32> {
    let (starts, _) = sheet.bytes().as_chunks();
    starts
        .iter()
        .map(|start| i32::from_be_bytes(*start))
        .collect()
}

/// The stops where the gap is smaller than the key's.
fn losses(explained: &Explained, names: &Names, name: &str) -> String {
    if explained.beside.is_none() {
        return String::new();
    }
    let lost = explained.stops.iter();
    let lost = lost.filter(|stop| stop.change() == Some(Change::Loses));
    let rows: String = lost.map(|stop| loss(stop, names)).collect();
    match rows.is_empty() {
        true => element("p", "At no stop is its gap smaller than the key's.") + "\n",
        false => {
            let caption = format!("Where {name} loses: its gap is smaller than the key's");
            let heads = [
                "Stop",
                "Gap",
                "Key's gap",
                "The two arrivals that make the gap",
            ];
            table(&caption, &heads, &rows)
        }
    }
}

fn loss(stop: &Stop, names: &Names) -> String {
    let least = if stop.is_least { ", the least gap" } else { "" };
    let name = named::with(stop.number, names.stop(stop.number));
    let arrivals = stop.pair.iter().flatten();
    let arrivals = arrivals.map(|arrival| arrived(arrival, names));
    row(&[
        head(&format!("{name}{least}")),
        number(stop.gap),
        stop.key_gap.map_or(element("td", ""), number),
        list("", arrivals),
    ])
}

/// An arrival with the words of a board.
fn arrived(arrival: &Arrival, names: &Names) -> String {
    let Arrival { time, line } = *arrival;
    let (day, clock, line) = (day(time), clock(time), named::line(names, line));
    format!("time {time}, day {day}, {clock}, {line}")
}
