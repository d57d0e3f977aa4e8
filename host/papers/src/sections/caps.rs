//! Document 01, "Caps"; document 02, A.2: "A line's own pair caps its stop at
//! its exact gap, and the cap's sum has one term per call."

use super::network::{Call, Network, STOPS};
use super::rating::{divisor, nearer, pair_gap, pairs, rating_of_gaps, remainder, Rating};

/// The cap of a stop, `None` if it is unserved.
pub fn cap(net: &Network, stop: usize) -> Option<u32> {
    let calls = net.calls_at(stop);
    match calls[..] {
        [] => None,
        [lone] => Some(net.period(lone)),
        _ => {
            let of_pairs = pairs(&calls).map(|(a, b)| pair_cap(net, a, b));
            Some(of_pairs.fold(mean_distance(net, &calls), u32::min))
        }
    }
}

/// "the smallest half of g, rounded down, over its pairs"; of one line the exact
/// gap, in which its start plays no part.
fn pair_cap(net: &Network, a: Call, b: Call) -> u32 {
    if a.line == b.line {
        let period = net.period(a);
        let apart = i64::from(a.offset) - i64::from(b.offset);
        return nearer(remainder(apart, period), period);
    }
    divisor(net.period(a), net.period(b)) / 2
}

/// "the whole part of C / (sum of C/T over its lines), C the common cycle, T a
/// period", with one term per call
fn mean_distance(net: &Network, calls: &[Call]) -> u32 {
    let arrivals: u32 = calls.iter().map(|&call| net.cycle / net.period(call)).sum();
    net.cycle / arrivals
}

/// The caps of all stops, 0 where unserved.
pub fn caps(net: &Network) -> [u32; STOPS] {
    let mut row = [0; STOPS];
    for stop in net.served_stops() {
        row[stop] = cap(net, stop).expect("a served stop");
    }
    row
}

/// A stop's upper value with the lines below `placed` placed: "the least of its
/// cap and the gaps of its placed pairs". Starts behind `placed` aren't looked
/// at. (The walk doesn't use this; it brings its upper values forward.)
pub fn upper_value(net: &Network, stop: usize, placed: usize, starts: &[i64]) -> Option<u32> {
    let mut calls = net.calls_at(stop);
    calls.retain(|call| call.line < placed);
    let gaps = pairs(&calls).map(|(a, b)| pair_gap(net, a, b, starts));
    cap(net, stop).map(|cap| gaps.fold(cap, u32::min))
}

/// "The upper rating is (least upper value, sum of upper values)."
pub fn upper_rating(net: &Network, placed: usize, starts: &[i64]) -> Rating {
    let values: Vec<u32> = (0..STOPS)
        .filter_map(|stop| upper_value(net, stop, placed, starts))
        .collect();
    rating_of_gaps(&values)
}
