//! Document 01, "Gap and rating"; document 02, A.2: "A gap is taken over pairs
//! of different calls, also of one line, whose g is its period"; source 000,
//! definitions 2.1.4 to 2.1.6 and theorem 3.1.2.
//!
//! The rating stands here twice, by two methods that share nothing but the
//! network: by counting the arrivals of one common cycle (source 000, section
//! 2.3 and "Direkte Berechnung" in 3.1.2), and by the formula of theorem 3.1.2.

use super::network::{Call, Network, STOPS};

/// "The rating is (least gap over served stops, sum of their gaps)." The order
/// of the fields gives the order of ratings: "One rating is above another if
/// its least gap is larger, or that is equal and its sum is larger."
#[derive(Clone, Copy, Debug, PartialEq, Eq, PartialOrd, Ord)]
pub struct Rating {
    pub least: u32,
    pub sum: u32,
}

/// The rating made of the gaps of all served stops.
pub fn rating_of_gaps(gaps: &[u32]) -> Rating {
    Rating {
        least: gaps.iter().copied().min().unwrap_or(0),
        sum: gaps.iter().sum(),
    }
}

/// A sheet's starts as whole numbers of no particular size.
pub fn whole(starts: &[i32]) -> Vec<i64> {
    starts.iter().map(|&start| i64::from(start)).collect()
}

// ---------------------------------------------------------------------------
// By counting
// ---------------------------------------------------------------------------

/// The rating, by counting the arrivals of one common cycle.
pub fn rating_by_counting(net: &Network, starts: &[i64]) -> Rating {
    let gaps: Vec<u32> = (0..STOPS)
        .filter_map(|stop| gap_by_counting(net, stop, starts))
        .collect();
    rating_of_gaps(&gaps)
}

/// The gap of a stop by counting, `None` if it is unserved.
pub fn gap_by_counting(net: &Network, stop: usize, starts: &[i64]) -> Option<u32> {
    let calls = net.calls_at(stop);
    match calls[..] {
        [] => None,
        [lone] => Some(net.period(lone)),
        _ => Some(least_distance(&mark_arrivals(net, &calls, starts))),
    }
}

/// For each minute of the cycle the set of calls by which a line arrives, the
/// call at place i as bit i: there are at most 32.
fn mark_arrivals(net: &Network, calls: &[Call], starts: &[i64]) -> Vec<u32> {
    let mut minutes = vec![0u32; net.cycle as usize];
    for (place, &call) in calls.iter().enumerate() {
        for minute in arrivals(net, call, starts[call.line]) {
            minutes[minute] |= 1 << place;
        }
    }
    minutes
}

/// The minutes of the cycle, ascending, at which a line reaches a stop by a
/// call: "its start plus its offset there, plus every whole multiple of its
/// period, negative ones included".
pub fn arrivals(net: &Network, call: Call, start: i64) -> Vec<usize> {
    let period = i64::from(net.period(call));
    let first = (start.rem_euclid(period) + i64::from(call.offset)).rem_euclid(period);
    (first as usize..net.cycle as usize)
        .step_by(period as usize)
        .collect()
}

/// The smallest distance round the cycle between arrivals by different calls,
/// two calls at least being marked. Between the two arrivals that are nearest
/// there is no third (it would be nearer to the one that is by another call),
/// so neighbours suffice. The second turn finds the pairs across the end.
fn least_distance(minutes: &[u32]) -> u32 {
    let cycle = minutes.len();
    let mut least = cycle;
    let mut before: Option<(usize, u32)> = None;
    for time in 0..2 * cycle {
        let calls = minutes[time % cycle];
        if calls == 0 {
            continue;
        }
        if calls.count_ones() > 1 {
            return 0;
        }
        if let Some((earlier, others)) = before {
            if others != calls {
                least = least.min(time - earlier);
            }
        }
        before = Some((time, calls));
    }
    least as u32
}

// ---------------------------------------------------------------------------
// By theorem 3.1.2
// ---------------------------------------------------------------------------

/// The rating, by theorem 3.1.2.
pub fn rating(net: &Network, starts: &[i64]) -> Rating {
    let gaps: Vec<u32> = (0..STOPS)
        .filter_map(|stop| stop_gap(net, stop, starts))
        .collect();
    rating_of_gaps(&gaps)
}

/// The gap of a stop, `None` if it is unserved: the least over its pairs of
/// different calls. "A stop counts as lone only with one call"; it is then that
/// line's period.
pub fn stop_gap(net: &Network, stop: usize, starts: &[i64]) -> Option<u32> {
    let calls = net.calls_at(stop);
    match calls[..] {
        [] => None,
        [lone] => Some(net.period(lone)),
        _ => pairs(&calls)
            .map(|(a, b)| pair_gap(net, a, b, starts))
            .min(),
    }
}

/// All pairs of different calls among those given, each once.
pub fn pairs(calls: &[Call]) -> impl Iterator<Item = (Call, Call)> + '_ {
    calls
        .iter()
        .enumerate()
        .flat_map(|(at, &a)| calls[at + 1..].iter().map(move |&b| (a, b)))
}

/// The gap of two calls at a stop, of two lines or of one.
pub fn pair_gap(net: &Network, a: Call, b: Call, starts: &[i64]) -> u32 {
    let g = divisor(net.period(a), net.period(b));
    let arrival = |call: Call| starts[call.line].rem_euclid(i64::from(g)) + i64::from(call.offset);
    nearer(remainder(arrival(a) - arrival(b), g), g)
}

/// "the greatest common divisor g of the two periods"
pub fn divisor(a: u32, b: u32) -> u32 {
    match b {
        0 => a,
        _ => divisor(b, a % b),
    }
}

/// A difference "reduced to 0..g-1".
pub fn remainder(difference: i64, g: u32) -> u32 {
    difference.rem_euclid(i64::from(g)) as u32
}

/// "the lesser of d and g-d"
pub fn nearer(d: u32, g: u32) -> u32 {
    d.min(g - d)
}
