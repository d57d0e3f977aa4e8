//! Document 01, "Classes of stops", by lines and pairs of lines.

use super::network::Network;
use super::rating::pairs;
use crate::sections::classes::{Classes, UNSERVED};
use crate::sections::network::STOPS;
use crate::sections::rating::{divisor, remainder};

/// The classes of an accepted network.
pub fn classes(net: &Network) -> Classes {
    let mut class_row = [UNSERVED; STOPS];
    let mut weight_row = [0u16; STOPS];
    for stop in net.served_stops() {
        let lowest = lowest_alike(net, stop);
        class_row[stop] = lowest as u8;
        weight_row[lowest] += 1;
    }
    let count = weight_row.iter().filter(|&&weight| weight > 0).count();
    Classes {
        class_row,
        weight_row,
        count,
    }
}

/// The lowest stop alike to a served stop, which may be the stop itself.
fn lowest_alike(net: &Network, stop: usize) -> usize {
    (0..stop)
        .find(|&other| alike(net, other, stop))
        .unwrap_or(stop)
}

/// "Two served stops are alike if the same lines call at both and, for each
/// pair of those lines, the differences of their offsets leave the same
/// remainder by g."
pub fn alike(net: &Network, one: usize, other: usize) -> bool {
    let lines = net.lines_at(one);
    !lines.is_empty()
        && lines == net.lines_at(other)
        && pairs(&lines)
            .all(|(a, b)| offset_remainder(net, one, a, b) == offset_remainder(net, other, a, b))
}

/// The remainder by g of the difference of two lines' offsets at a stop.
fn offset_remainder(net: &Network, stop: usize, a: usize, b: usize) -> u32 {
    let offset =
        |line: usize| i64::from(net.offsets[line][stop].expect("the line calls at the stop"));
    let g = divisor(net.periods[a], net.periods[b]);
    remainder(offset(a) - offset(b), g)
}
