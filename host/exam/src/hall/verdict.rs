//! What decides between a sheet and a key, in words.

use super::explaining::{Beside, Change, Explained, Standing, Stop};
use crate::output::named;
use engine::plan::Names;

/// What decides, and at which stops: a few sentences.
pub fn verdict(explained: &Explained, names: &Names) -> Vec<String> {
    let least = minutes(explained.rating.least);
    let at_least = named_stops(explained, names, |stop| stop.is_least);
    let of_least = format!("The least gap is {least}, at {at_least}.");
    let Some(beside) = &explained.beside else {
        let head = "Undecided: the best timetable isn't known, so that there is no key.";
        return vec![head.to_string(), of_least];
    };
    let name = match beside.is_best {
        true => "the best",
        false => "the key given",
    };
    match beside.standing {
        Standing::Equal => vec![
            format!("Equal to {name}: the least gap and the sum of the gaps are those of the key."),
            of_least,
        ],
        Standing::Below => decision(&format!("Below {name}"), explained, (beside, names)),
        Standing::Above => decision(&format!("Above {name}"), explained, (beside, names)),
    }
}

/// Whether the least gap decides or the sum, and where that is seen.
fn decision(head: &str, explained: &Explained, (beside, names): (&Beside, &Names)) -> Vec<String> {
    let (own, key) = (explained.rating, beside.rating);
    let least = minutes(own.least);
    if own.least != key.least {
        let at_least = named_stops(explained, names, |stop| stop.is_least);
        return vec![
            format!(
                "{head}: the least gap decides, {least} here and {} in the key.",
                key.least
            ),
            format!("The least gap is at {at_least}."),
        ];
    }
    let both = [
        format!("{head}: the least gap is {least} here and in the key."),
        format!(
            "So the sum of the gaps decides, {} here and {} in the key.",
            own.sum, key.sum
        ),
    ];
    both.into_iter().chain(changes(explained, names)).collect()
}

/// Where the sheet loses and where it gains, as far as there are such stops.
fn changes(explained: &Explained, names: &Names) -> Vec<String> {
    let sentence = |change: Change| {
        let is_such = |stop: &Stop| stop.change() == Some(change);
        let any = explained.stops.iter().any(is_such);
        let stops = || named_stops(explained, names, is_such);
        any.then(|| format!("The sheet {} at {}.", change.word(), stops()))
    };
    let both = [Change::Loses, Change::Gains];
    both.into_iter().filter_map(sentence).collect()
}

/// More stops than these aren't named one by one in a sentence.
const MOST_NAMED: usize = 8;

/// `stop 0 'Market'`, `stops 0 'Market', 2 and 5`, by number, or `9 stops`.
fn named_stops(explained: &Explained, names: &Names, which: impl Fn(&Stop) -> bool) -> String {
    let such = explained.stops.iter().filter(|stop| which(stop));
    let mut numbers: Vec<u8> = such.map(|stop| stop.number).collect();
    numbers.sort();
    let named = |stop: &u8| named::with(*stop, names.stop(*stop));
    match numbers.split_last() {
        Some((last, [])) => format!("stop {}", named(last)),
        Some((last, others)) if numbers.len() <= MOST_NAMED => {
            let others: Vec<String> = others.iter().map(named).collect();
            format!("stops {} and {}", others.join(", "), named(last))
        }
        _ => format!("{} stops", numbers.len()),
    }
}

fn minutes(count: u32) -> String {
    match count {
        1 => "1 minute".to_string(),
        _ => format!("{count} minutes"),
    }
}

#[cfg(test)]
mod tests {
    use super::verdict;
    use crate::hall::explaining::{explained, Key};
    use engine::plan::Names;
    use engine::Sheet;

    /// What is said of a line that calls once at each of so many stops, from stop 3 on.
    fn said(stops: u8, names: &Names) -> Vec<String> {
        let calls = (3..3 + stops).map(|stop| format!("4300{stop:02X}0008"));
        let typed = format!("4C000F {} 45", calls.collect::<Vec<_>>().join(" "));
        let network = engine::typed::read(typed.as_bytes()).expect("typed");
        let sheet = Sheet::of_starts(&[0]);
        let explained = explained(network.bytes(), &sheet, &Key::Unknown);
        verdict(&explained.expect("a sheet that fits"), names)
    }

    /// Few stops are named, and of more than eight it is said how many they are.
    #[test]
    fn stops_in_a_sentence() {
        let least = |stops, at: &str| {
            let undecided = "Undecided: the best timetable isn't known, so that there is no key.";
            let least = format!("The least gap is 15 minutes, at {at}.");
            assert_eq!(said(stops, &Names::default()), [undecided, &least]);
        };
        least(1, "stop 3");
        least(2, "stops 3 and 4");
        least(3, "stops 3, 4 and 5");
        least(8, "stops 3, 4, 5, 6, 7, 8, 9 and 10");
        least(9, "9 stops");
        least(61, "61 stops");
    }

    #[test]
    fn stops_by_their_names() {
        let plan = engine::plan::read(b"stop 3 Mill\nstop 5 Market");
        let plan = plan.expect("a plan");
        let least = "The least gap is 15 minutes, at stops 3 'Mill', 4 and 5 'Market'.";
        assert_eq!(said(3, plan.names())[1], least);
    }
}
