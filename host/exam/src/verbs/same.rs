//! `exam same`: whether two files are of one network.

use crate::input::network::Network;
use crate::line::operands::networks;
use crate::line::options::{BYTES, PLAN, TYPED};
use crate::line::table::{Request, Sheets, Verb};
use crate::output::fault::refused;
use crate::output::named;
use crate::output::streams::{put, say};
use crate::status::{Status, Trouble};
use engine::{Call, Contents};

pub const VERB: Verb = Verb {
    name: "same",
    operands: "NETWORK NETWORK",
    networks: 2,
    sheets: Sheets::Exactly(0),
    last: None,
    options: &[&PLAN, &TYPED, &BYTES],
    summary: "whether two files are of one network",
    about: "\
Prints same where two files have the same archive form, otherwise different, and
standard error says in what they differ first:
  exam: another network: line 1 has period 20 in a.hex and 30 in b.hex
with the names of lines and stops where a plan has them. Equal lines and calls in
two editions are two networks.
Where a file has a fault, its ground, and standard error names the file:
  refused 5 at 0
Each file is a plan, typed or bytes by its own name; an option counts for both.
",
    run,
};

/// Two files are of one network exactly where their archive forms are equal.
fn run(request: &Request) -> Result<Status, Trouble> {
    let networks: [_; 2] = networks(request)?;
    let mut forms = Vec::new();
    for network in &networks {
        match engine::archive(network.bytes()) {
            Ok(form) => forms.push(form),
            Err(refusal) => return refused(refusal, network),
        }
    }
    if forms[0] == forms[1] {
        put("same\n")?;
        return Ok(Status::Done);
    }
    put("different\n")?;
    // What an accepted file says is not refused.
    if let [Ok(one), Ok(other)] = [&forms[0], &forms[1]].map(|form| engine::contents(form)) {
        let words = difference(&one, &other, [&networks[0], &networks[1]]);
        say(&format!("exam: another network: {words}"));
    }
    Ok(Status::Refused)
}

/// In what two networks differ first: by their editions, by lines, then by calls in
/// their order.
fn difference(one: &Contents, other: &Contents, both: [&Network; 2]) -> String {
    let [first, second] = both.map(|network| network.name.as_str());
    let [a, b] = [one, other].map(|network| network.edition);
    if a != b {
        return format!("{first} is in edition {a} and {second} in edition {b}");
    }
    line_difference(one, other, both).unwrap_or_else(|| call_difference(one, other, both))
}

/// The first line in which two networks differ, if they do in any.
fn line_difference(one: &Contents, other: &Contents, both: [&Network; 2]) -> Option<String> {
    let [first, second] = both.map(|network| network.name.as_str());
    for number in 0..=u8::MAX {
        let [a, b] = [one, other].map(|network| network.periods.get(usize::from(number)));
        let line = line_of(both, number);
        match (a, b) {
            (None, None) => return None,
            (Some(_), None) => return Some(format!("{line} is in {first} alone")),
            (None, Some(_)) => return Some(format!("{line} is in {second} alone")),
            (Some(a), Some(b)) if a != b => {
                let words = format!("{line} has period {a} in {first} and {b} in {second}");
                return Some(words);
            }
            _ => {}
        }
    }
    None
}

/// The first call in which two networks of equal lines differ.
fn call_difference(one: &Contents, other: &Contents, both: [&Network; 2]) -> String {
    let [first, second] = both.map(|network| network.name.as_str());
    let calls = one.calls.iter().chain(&other.calls);
    let mut places: Vec<(u8, u8)> = calls.map(|call| (call.line, call.stop)).collect();
    places.sort();
    let differs = |&(line, stop): &(u8, u8)| offsets(one, line, stop) != offsets(other, line, stop);
    // There is such a place: the archive forms differ, and not by what stands above.
    let (number, place) = places.into_iter().find(differs).unwrap_or((0, 0));
    let (line, stop) = (line_of(both, number), stop_of(both, place));
    let [a, b] = [one, other].map(|network| offsets(network, number, place));
    match (a.is_empty(), b.is_empty()) {
        (false, true) => format!("{line} calls at {stop} in {first} alone"),
        (true, false) => format!("{line} calls at {stop} in {second} alone"),
        _ => {
            let [a, b] = [a, b].map(|offsets| offsets.join(" and "));
            format!("{line} reaches {stop} after {a} minutes in {first} and {b} in {second}")
        }
    }
}

/// The minutes after which a line reaches a stop, twice where it is a loop.
fn offsets(network: &Contents, line: u8, stop: u8) -> Vec<String> {
    let there = |call: &&Call| (call.line, call.stop) == (line, stop);
    let calls = network.calls.iter().filter(there);
    calls.map(|call| call.offset.to_string()).collect()
}

/// A line by its number and its name.
fn line_of(both: [&Network; 2], number: u8) -> String {
    let names = both.map(|network| network.names.line(number));
    format!("line {}", with_either(number, names))
}

/// A stop by its number and its name.
fn stop_of(both: [&Network; 2], number: u8) -> String {
    let names = both.map(|network| network.names.stop(number));
    format!("stop {}", with_either(number, names))
}

/// Two plans may have two names for one number.
fn with_either(number: u8, names: [Option<&str>; 2]) -> String {
    match names {
        [Some(one), Some(other)] if one != other => format!("{number} '{one}' or '{other}'"),
        [one, other] => named::with(number, one.or(other)),
    }
}
