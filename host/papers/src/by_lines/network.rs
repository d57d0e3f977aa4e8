//! Document 01, "The network file", and grounds 1 to 14 of "Grounds for
//! refusing": ground 9 is for a line's second call at a stop.

use crate::before_editions;
use crate::sections::network::{Counts, Refusal, STOPS};

/// An accepted network.
#[derive(Clone, Debug, PartialEq, Eq)]
pub struct Network {
    /// The period of each line, in file order.
    pub periods: Vec<u32>,
    /// `offsets[line][stop]`: the travel offset, if the line calls there.
    pub offsets: Vec<[Option<u32>; STOPS]>,
    /// The number of calls.
    pub calls: usize,
    /// The least common multiple of all periods.
    pub cycle: u32,
}

impl Network {
    /// The number of lines.
    pub fn lines(&self) -> usize {
        self.periods.len()
    }

    /// The lines that call at a stop, ascending.
    pub fn lines_at(&self, stop: usize) -> Vec<usize> {
        (0..self.lines())
            .filter(|&line| self.offsets[line][stop].is_some())
            .collect()
    }

    /// The stops with a call, ascending. "A stop with no call is unserved and
    /// counts nowhere."
    pub fn served_stops(&self) -> Vec<usize> {
        (0..STOPS)
            .filter(|&stop| !self.lines_at(stop).is_empty())
            .collect()
    }

    /// The answer of the read call for this network.
    pub fn counts(&self) -> Counts {
        Counts {
            lines: self.lines(),
            served_stops: self.served_stops().len(),
            calls: self.calls,
            cycle: self.cycle,
        }
    }
}

/// Reads a network file by the rules before editions, a line's calls at a stop being
/// one at most.
pub fn read(file: &[u8]) -> Result<Network, Refusal> {
    let read = before_editions::read_with(1, file)?;
    let mut offsets = vec![[None; STOPS]; read.periods.len()];
    for call in &read.calls {
        offsets[call.line][call.stop] = Some(call.offset);
    }
    Ok(Network {
        periods: read.periods,
        offsets,
        calls: read.calls.len(),
        cycle: read.cycle,
    })
}
