//! Document 01, "Classes of stops", and document 02, A.2; ground 17.

use super::network::{read, Call, Network, Refusal, STOPS};
use super::rating::{divisor, pairs, remainder, stop_gap, Rating};

/// The class row's entry for an unserved stop.
pub const UNSERVED: u8 = 255;

/// The two rows of the class call and the number of classes.
#[derive(Clone, Debug, PartialEq, Eq)]
pub struct Classes {
    /// For each stop the lowest stop alike to it, 255 if unserved.
    pub class_row: [u8; STOPS],
    /// The size of the class at its lowest stop, 0 elsewhere.
    pub weight_row: [u16; STOPS],
    /// The number of classes.
    pub count: usize,
}

/// The classes of an accepted network.
pub fn classes(net: &Network) -> Classes {
    let mut class_row = [UNSERVED; STOPS];
    let mut weight_row = [0u16; STOPS];
    for stop in net.served_stops() {
        let lowest = lowest_alike(net, stop);
        class_row[stop] = lowest as u8;
        weight_row[lowest] += 1;
    }
    let count = weight_row.iter().filter(|&&weight| weight > 0).count();
    Classes {
        class_row,
        weight_row,
        count,
    }
}

/// The lowest stop alike to a served stop, which may be the stop itself.
fn lowest_alike(net: &Network, stop: usize) -> usize {
    (0..stop)
        .find(|&other| alike(net, other, stop))
        .unwrap_or(stop)
}

/// "Alike stops have equally many calls of each line, matched in order of offset,
/// and are compared over every pair of calls, also of one line": "the differences
/// of their offsets leave the same remainder by g".
pub fn alike(net: &Network, one: usize, other: usize) -> bool {
    let (here, there) = (net.calls_at(one), net.calls_at(other));
    let lines = |calls: &[Call]| calls.iter().map(|call| call.line).collect::<Vec<usize>>();
    let matched = || pairs(&here).zip(pairs(&there));
    !here.is_empty()
        && lines(&here) == lines(&there)
        && matched()
            .all(|((a, b), (c, d))| offset_remainder(net, a, b) == offset_remainder(net, c, d))
}

/// The remainder by g of the difference of two calls' offsets.
fn offset_remainder(net: &Network, a: Call, b: Call) -> u32 {
    let g = divisor(net.period(a), net.period(b));
    remainder(i64::from(a.offset) - i64::from(b.offset), g)
}

/// The weighted rating: "takes lowest stops only, each gap times its weight in
/// the sum".
pub fn weighted_rating(net: &Network, starts: &[i64]) -> Rating {
    let weights = classes(net).weight_row;
    let mut least = u32::MAX;
    let mut sum = 0;
    for stop in (0..STOPS).filter(|&stop| weights[stop] > 0) {
        let gap = stop_gap(net, stop, starts).expect("a lowest stop is served");
        least = least.min(gap);
        sum += gap * u32::from(weights[stop]);
    }
    Rating { least, sum }
}

/// The class call: fills both rows and returns the number of classes. Ground
/// 17, after the file's own: "class or weight row isn't 64 long".
pub fn class_call(
    file: &[u8],
    class_row: &mut [u8],
    weight_row: &mut [u16],
) -> Result<usize, Refusal> {
    let net = read(file)?;
    if class_row.len() != STOPS || weight_row.len() != STOPS {
        return Err(Refusal {
            number: 17,
            place: 0,
        });
    }
    let found = classes(&net);
    class_row.copy_from_slice(&found.class_row);
    weight_row.copy_from_slice(&found.weight_row);
    Ok(found.count)
}
