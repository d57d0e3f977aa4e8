//! Document 01, "Gap and rating", by lines and pairs of lines; source 000,
//! theorem 3.1.2.

use super::network::Network;
use crate::sections::network::STOPS;
use crate::sections::rating::{divisor, nearer, rating_of_gaps, remainder, Rating};

/// The rating, by theorem 3.1.2.
pub fn rating(net: &Network, starts: &[i64]) -> Rating {
    let gaps: Vec<u32> = (0..STOPS)
        .filter_map(|stop| stop_gap(net, stop, starts))
        .collect();
    rating_of_gaps(&gaps)
}

/// The gap of a stop, `None` if it is unserved: "the least over its pairs of
/// different lines; with one line only, it is that line's period".
pub fn stop_gap(net: &Network, stop: usize, starts: &[i64]) -> Option<u32> {
    let lines = net.lines_at(stop);
    match lines.len() {
        0 => None,
        1 => Some(net.periods[lines[0]]),
        _ => pairs(&lines)
            .map(|(a, b)| pair_gap(net, stop, a, b, starts))
            .min(),
    }
}

/// All pairs of different lines among those given, each once.
pub fn pairs(lines: &[usize]) -> impl Iterator<Item = (usize, usize)> + '_ {
    lines
        .iter()
        .enumerate()
        .flat_map(|(at, &a)| lines[at + 1..].iter().map(move |&b| (a, b)))
}

/// The gap of two lines at a stop where both call.
pub fn pair_gap(net: &Network, stop: usize, a: usize, b: usize, starts: &[i64]) -> u32 {
    let g = divisor(net.periods[a], net.periods[b]);
    let arrival = |line: usize| {
        let offset = net.offsets[line][stop].expect("the line calls there");
        starts[line].rem_euclid(i64::from(g)) + i64::from(offset)
    };
    nearer(remainder(arrival(a) - arrival(b), g), g)
}
