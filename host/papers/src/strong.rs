//! The walk as one writes it by hand to be quick, for the benchmark alone: what
//! the engine's time is measured by. [`crate::sections`] is written to be read
//! beside document 01 and says nothing about speed.
//!
//! For each two lines a table has, by the difference of their starts, the least
//! gap over the stops that both call at. A try's upper least gap is then the
//! least of some look-ups, and a try that falls by it is dropped before any stop
//! is touched. For the others a second table has the gaps at those stops.

use crate::sections::caps::caps;
use crate::sections::network::{Call, Network, STOPS};
use crate::sections::rating::{divisor, nearer, rating_of_gaps, remainder, Rating};
use crate::sections::walk::{Answer, Walked};

/// A number for each stop, or for each stop of a line.
type StopRow = [u16; STOPS];

/// What two lines have in common, the later being the one that is placed.
struct Meeting {
    earlier: usize,
    /// The greatest common divisor of the two periods.
    g: usize,
    /// By the difference of the starts, reduced to 0..g-1: the least gap over
    /// the stops where both call.
    least: Vec<u16>,
    /// By that difference: the gap at each stop where the later line meets
    /// others, the largest number where the earlier doesn't call.
    gaps: Vec<u16>,
    /// The difference with the later line at the start that is due.
    apart: usize,
}

/// A line as it is placed.
struct Line {
    choices: u32,
    /// The stops where it meets earlier lines.
    stops: Vec<usize>,
    meetings: Vec<Meeting>,
}

struct Walker {
    lines: Vec<Line>,
    /// `uppers[n]`: the stops' upper values with the first n lines placed.
    uppers: Vec<StopRow>,
    /// `ratings[n]`: the upper rating with the first n lines placed.
    ratings: Vec<Rating>,
    starts: Vec<i32>,
    best: Option<Rating>,
    best_starts: Vec<i32>,
    tries: u32,
    budget: u32,
}

/// The walk over an accepted network.
pub fn walk(net: &Network, budget: u32) -> Walked {
    let mut walker = Walker::new(net, budget);
    let walked = walker.line(0);
    let tries = walker.tries;
    let answer = match walker.best {
        Some(best) if walked => Answer::Finished { best, tries },
        Some(best) => Answer::Stopped { best, tries },
        None => Answer::StoppedWithNone { tries },
    };
    Walked {
        answer,
        starts: walker.best.map(|_| walker.best_starts),
    }
}

impl Walker {
    fn new(net: &Network, budget: u32) -> Walker {
        let lines = net.lines();
        let caps = caps(net);
        let served: Vec<u32> = net.served_stops().iter().map(|&stop| caps[stop]).collect();
        let calls = calls_of_stops(net);
        Walker {
            lines: (0..lines)
                .map(|line| Line::new(net, &calls, line))
                .collect(),
            uppers: vec![caps.map(|cap| cap as u16); lines + 1],
            ratings: vec![rating_of_gaps(&served); lines + 1],
            starts: vec![0; lines],
            best: None,
            best_starts: vec![0; lines],
            tries: 0,
            budget,
        }
    }

    /// Tries the starts of a line, ascending, all earlier lines being placed;
    /// false where the budget ends the walk.
    fn line(&mut self, line: usize) -> bool {
        self.enter(line);
        for start in 0..self.lines[line].choices {
            if self.tries == self.budget {
                return false;
            }
            self.tries += 1;
            if !self.place(line) {
                continue;
            }
            self.starts[line] = start as i32;
            if line + 1 == self.lines.len() {
                self.best = Some(self.ratings[line + 1]);
                self.best_starts.copy_from_slice(&self.starts);
            } else if !self.line(line + 1) {
                return false;
            }
        }
        true
    }

    /// Makes ready to try a line from start 0 on.
    fn enter(&mut self, line: usize) {
        self.uppers[line + 1] = self.uppers[line];
        for meeting in &mut self.lines[line].meetings {
            let earlier = i64::from(self.starts[meeting.earlier]);
            meeting.apart = remainder(-earlier, meeting.g as u32) as usize;
        }
    }

    /// Places a line at the start that is due, unless its upper rating isn't
    /// above the best so far.
    fn place(&mut self, line: usize) -> bool {
        let mut least = self.ratings[line].least;
        for meeting in &self.lines[line].meetings {
            least = least.min(u32::from(meeting.least[meeting.apart]));
        }
        let stands = match self.best {
            Some(best) if least < best.least => false,
            best => {
                let upper = Rating {
                    least,
                    sum: self.lower(line),
                };
                self.ratings[line + 1] = upper;
                Some(upper) > best
            }
        };
        for meeting in &mut self.lines[line].meetings {
            meeting.apart += 1;
            if meeting.apart == meeting.g {
                meeting.apart = 0;
            }
        }
        stands
    }

    /// Lowers the upper values where the line meets earlier ones, and returns
    /// their sum.
    fn lower(&mut self, line: usize) -> u32 {
        let Line {
            stops, meetings, ..
        } = &self.lines[line];
        let (before, behind) = self.uppers.split_at_mut(line + 1);
        let (old, new) = (&before[line], &mut behind[0]);
        let mut values = [0u16; STOPS];
        for (value, &stop) in values.iter_mut().zip(stops) {
            *value = old[stop];
        }
        for meeting in meetings {
            let row = &meeting.gaps[meeting.apart * stops.len()..][..stops.len()];
            for (value, &gap) in values.iter_mut().zip(row) {
                *value = (*value).min(gap);
            }
        }
        let mut sum = self.ratings[line].sum;
        for (&value, &stop) in values.iter().zip(stops) {
            sum -= u32::from(old[stop] - value);
            new[stop] = value;
        }
        sum
    }
}

/// The calls of each stop, in one pass: short walks take hardly longer than what
/// goes before them.
fn calls_of_stops(net: &Network) -> Vec<Vec<Call>> {
    let mut calls = vec![Vec::new(); STOPS];
    for &call in &net.calls {
        calls[call.stop].push(call);
    }
    calls
}

impl Line {
    /// The calls are those of each stop.
    fn new(net: &Network, calls: &[Vec<Call>], line: usize) -> Line {
        let calls_at = |line: usize, stop: usize| calls[stop].iter().any(|call| call.line == line);
        let meets = |stop: usize| (0..line).any(|earlier| calls_at(earlier, stop));
        let stops: Vec<usize> = (0..STOPS)
            .filter(|&stop| calls_at(line, stop) && meets(stop))
            .collect();
        let meetings = (0..line)
            .filter(|&earlier| stops.iter().any(|&stop| calls_at(earlier, stop)))
            .map(|earlier| {
                let g = divisor(net.periods[line], net.periods[earlier]);
                let differences = |&stop: &usize| differences(&calls[stop], line, earlier);
                Meeting::new(earlier, g, stops.iter().map(differences).collect())
            })
            .collect();
        Line {
            choices: if line == 0 { 1 } else { net.periods[line] },
            stops,
            meetings,
        }
    }
}

impl Meeting {
    /// The shifts are, for each stop, the differences of the two lines' offsets.
    fn new(earlier: usize, g: u32, shifts: Vec<Vec<i64>>) -> Meeting {
        let mut meeting = Meeting {
            earlier,
            g: g as usize,
            least: Vec::new(),
            gaps: Vec::new(),
            apart: 0,
        };
        for apart in 0..i64::from(g) {
            let gap = |shift: &i64| nearer(remainder(apart + shift, g), g) as u16;
            let mut least = u16::MAX;
            for shifts in &shifts {
                let gap = shifts.iter().map(gap).min().unwrap_or(u16::MAX);
                least = least.min(gap);
                meeting.gaps.push(gap);
            }
            meeting.least.push(least);
        }
        meeting
    }
}

/// Of a stop's calls each offset of the line less each of the earlier line's.
fn differences(calls: &[Call], line: usize, earlier: usize) -> Vec<i64> {
    let offsets = |line: usize| {
        let of_line = calls.iter().filter(move |call| call.line == line);
        of_line.map(|call| i64::from(call.offset))
    };
    offsets(line)
        .flat_map(|late| offsets(earlier).map(move |early| late - early))
        .collect()
}
