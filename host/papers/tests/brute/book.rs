//! The walk by the book: as the sections "Caps" and "The walk" say it, and document
//! 02, A.3, from arrivals alone and with nothing carried along.

use papers::sections::network::{Call, Network};
use papers::sections::rating::{arrivals, pairs, rating_of_gaps, Rating};
use papers::sections::walk::{Answer, Walked};
use papers::sections::wanted::{Sought, Wanted};

/// The greatest number that divides both.
pub fn divisor_by_search(a: u32, b: u32) -> u32 {
    (1..=a.min(b))
        .rev()
        .find(|g| a.is_multiple_of(*g) && b.is_multiple_of(*g))
        .expect("1 divides both")
}

/// The smallest distance round the cycle between any arrival by one call and
/// any by the other.
fn pair_gap_by_arrivals(net: &Network, a: Call, b: Call, starts: &[i64]) -> u32 {
    let mut least = net.cycle;
    for one in arrivals(net, a, starts[a.line]) {
        for other in arrivals(net, b, starts[b.line]) {
            let distance = one.abs_diff(other) as u32;
            least = least.min(distance).min(net.cycle - distance);
        }
    }
    least
}

/// The cap as the section "Caps" says it, with fractions brought to one
/// denominator instead of C/T.
pub fn cap_by_the_book(net: &Network, stop: usize) -> u32 {
    let calls = net.calls_at(stop);
    if let [lone] = calls[..] {
        return net.period(lone);
    }
    let starts = vec![0; net.lines()];
    let of_pairs = pairs(&calls).map(|(a, b)| match a.line == b.line {
        true => pair_gap_by_arrivals(net, a, b, &starts),
        false => divisor_by_search(net.period(a), net.period(b)) / 2,
    });
    let least = of_pairs.min().expect("a pair");
    // The whole part of 1 / (sum of 1/T): the largest m with m × sum ≤ 1.
    let periods = || calls.iter().map(|&call| u64::from(net.period(call)));
    let product: u64 = periods().product();
    let sum: u64 = periods().map(|period| product / period).sum();
    least.min((product / sum) as u32)
}

/// The upper rating worked out anew, from arrivals alone.
pub fn upper_by_the_book(net: &Network, placed: usize, starts: &[i64]) -> Rating {
    let mut values = Vec::new();
    for stop in net.served_stops() {
        let mut value = cap_by_the_book(net, stop);
        for (a, b) in pairs(&net.calls_at(stop)).filter(|(_, b)| b.line < placed) {
            value = value.min(pair_gap_by_arrivals(net, a, b, starts));
        }
        values.push(value);
    }
    rating_of_gaps(&values)
}

/// The walk as the section "The walk" says it, with nothing carried along but
/// the starts, a list instead of calls: the timetable in progress is a row of
/// starts, and the next try is the next row.
pub fn walk_by_the_book(net: &Network, budget: u32) -> Walked {
    let mut best: Option<(Rating, Vec<i32>)> = None;
    let mut tries = 0;
    // The try that is due: the last of these starts is the one being placed.
    let mut due: Vec<i64> = vec![0];
    while !due.is_empty() {
        if tries == budget {
            return stopped(best, tries);
        }
        tries += 1;
        let upper = upper_by_the_book(net, due.len(), &due);
        let stands = match &best {
            Some((best, _)) => {
                upper.least > best.least || upper.least == best.least && upper.sum > best.sum
            }
            None => true,
        };
        if stands && due.len() < net.lines() {
            due.push(0);
            continue;
        }
        if stands {
            best = Some((upper, due.iter().map(|&start| start as i32).collect()));
        }
        go_on(net, &mut due);
    }
    let (best, starts) = best.expect("a full timetable");
    Walked {
        answer: Answer::Finished { best, tries },
        starts: Some(starts),
    }
}

fn stopped(best: Option<(Rating, Vec<i32>)>, tries: u32) -> Walked {
    match best {
        Some((best, starts)) => Walked {
            answer: Answer::Stopped { best, tries },
            starts: Some(starts),
        },
        None => Walked {
            answer: Answer::StoppedWithNone { tries },
            starts: None,
        },
    }
}

/// The same walk with the cut of document 02, A.3: "a try is dropped if its upper
/// least gap is below the wanted one, and the first full timetable ends it".
pub fn seek_by_the_book(net: &Network, gap: u16, budget: u32) -> Sought {
    let without = |answer| Sought {
        answer,
        starts: None,
    };
    let mut tries = 0;
    let mut due: Vec<i64> = vec![0];
    while !due.is_empty() {
        if tries == budget {
            return without(Wanted::Stopped { tries });
        }
        tries += 1;
        let upper = upper_by_the_book(net, due.len(), &due);
        match (upper.least >= u32::from(gap), due.len() == net.lines()) {
            (false, _) => go_on(net, &mut due),
            (true, false) => due.push(0),
            (true, true) => {
                return Sought {
                    answer: Wanted::Found { tries },
                    starts: Some(due.iter().map(|&start| start as i32).collect()),
                };
            }
        }
    }
    without(Wanted::None { tries })
}

/// On to the next start, of an earlier line where this one is through.
fn go_on(net: &Network, due: &mut Vec<i64>) {
    let choices = |line: usize| match line {
        0 => 1,
        _ => i64::from(net.periods[line]),
    };
    while let Some(start) = due.pop() {
        if start + 1 < choices(due.len()) {
            due.push(start + 1);
            return;
        }
    }
}
