//! Document 01, "Caps".

use super::network::Network;
use super::rating::pairs;
use crate::sections::network::STOPS;
use crate::sections::rating::divisor;

/// The cap of a stop, `None` if it is unserved.
pub fn cap(net: &Network, stop: usize) -> Option<u32> {
    let lines = net.lines_at(stop);
    match lines.len() {
        0 => None,
        1 => Some(net.periods[lines[0]]),
        _ => Some(half_divisor(net, &lines).min(mean_distance(net, &lines))),
    }
}

/// "the smallest half of g, rounded down, over its pairs"
fn half_divisor(net: &Network, lines: &[usize]) -> u32 {
    pairs(lines)
        .map(|(a, b)| divisor(net.periods[a], net.periods[b]) / 2)
        .min()
        .expect("two lines at least")
}

/// "the whole part of C / (sum of C/T over its lines), C the common cycle, T a
/// period"
fn mean_distance(net: &Network, lines: &[usize]) -> u32 {
    let arrivals: u32 = lines
        .iter()
        .map(|&line| net.cycle / net.periods[line])
        .sum();
    net.cycle / arrivals
}

/// The caps of all stops, 0 where unserved.
pub fn caps(net: &Network) -> [u32; STOPS] {
    let mut row = [0; STOPS];
    for stop in net.served_stops() {
        row[stop] = cap(net, stop).expect("a served stop");
    }
    row
}
