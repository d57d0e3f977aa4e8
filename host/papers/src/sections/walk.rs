//! Document 01, "The walk"; ground 16. Document 02, A.3, has another rule for the
//! same walk; what it answers by that stands in `wanted.rs`.
//!
//! The upper values are brought forward: a try looks only at the pairs that
//! the newly placed line forms with earlier lines. A line's own pairs are
//! already in the caps (document 02, A.2).

use super::caps::caps;
use super::network::{read, Call, Network, Refusal, STOPS};
use super::rating::{divisor, nearer, rating_of_gaps, remainder, Rating};

/// What the search answers.
#[derive(Clone, Copy, Debug, PartialEq, Eq)]
pub enum Answer {
    Finished { best: Rating, tries: u32 },
    Stopped { best: Rating, tries: u32 },
    StoppedWithNone { tries: u32 },
}

/// The answer together with the best starts (none if stopped with none).
#[derive(Clone, Debug, PartialEq, Eq)]
pub struct Walked {
    pub answer: Answer,
    pub starts: Option<Vec<i32>>,
}

/// The search call: "The best starts are written to the lent start row;
/// stopped with none leaves it untouched." Ground 16, after the file's own:
/// "start row's length isn't the number of lines".
pub fn search(file: &[u8], start_row: &mut [i32], budget: u32) -> Result<Answer, Refusal> {
    let net = read_with_row(file, start_row)?;
    let walked = walk(&net, budget);
    if let Some(starts) = &walked.starts {
        start_row.copy_from_slice(starts);
    }
    Ok(walked.answer)
}

/// Reads the file, then tests the start row's length.
pub(super) fn read_with_row(file: &[u8], start_row: &[i32]) -> Result<Network, Refusal> {
    let net = read(file)?;
    match start_row.len() == net.lines() {
        true => Ok(net),
        false => Err(Refusal {
            number: 16,
            place: 0,
        }),
    }
}

/// The walk over an accepted network.
pub fn walk(net: &Network, budget: u32) -> Walked {
    let (end, walker) = walk_by(Rule::Best, net, budget);
    let tries = walker.tries;
    let answer = match (end, walker.best) {
        (End::Walked, Some(best)) => Answer::Finished { best, tries },
        (End::Stopped, Some(best)) => Answer::Stopped { best, tries },
        (End::Stopped, None) => Answer::StoppedWithNone { tries },
        (End::Walked, None) => unreachable!("the first descent reaches a full timetable"),
        (End::Found, _) => unreachable!("no timetable ends a walk for the best one"),
    };
    Walked {
        answer,
        starts: walker.best.map(|_| walker.best_starts),
    }
}

/// The walk by a rule: how it ended, and what it left.
pub(super) fn walk_by(rule: Rule, net: &Network, budget: u32) -> (End, Walker<'_>) {
    let mut walker = Walker::new(rule, net, budget);
    let end = walker.line(0);
    (end, walker)
}

/// "1 + T1 + T1×T2 + .. over the periods after the first" (demand 3); the
/// largest number of 128 bits where the sum is larger still (15 periods of
/// 1,440 would take 158 bits).
pub fn most_tries(net: &Network) -> u128 {
    let mut sum = 1u128;
    let mut product = 1u128;
    for &period in &net.periods[1..] {
        product = product.saturating_mul(u128::from(period));
        sum = sum.saturating_add(product);
    }
    sum
}

/// One pair of a line's call with an earlier line's at one stop.
#[derive(Clone)]
struct Pair {
    earlier: usize,
    /// The greatest common divisor of the two periods.
    g: u32,
    /// The line's offset less that of the earlier line, reduced to 0..g-1.
    shift: u32,
    /// The difference of arrivals, reduced to 0..g-1, with the line at the
    /// start that is due and the earlier line where it stands.
    apart: u32,
}

/// The pairs of a line with earlier lines at one stop.
#[derive(Clone)]
struct Meeting {
    stop: usize,
    pairs: Vec<Pair>,
}

/// What a walk is for: by what it drops a try, and whether a full timetable ends
/// it.
#[derive(Clone, Copy)]
pub(super) enum Rule {
    /// "A try whose upper rating isn't above the best so far is dropped"
    Best,
    /// Document 02, A.3: "a try is dropped if its upper least gap is below the
    /// wanted one, and the first full timetable ends it"
    Wanted(u32),
}

/// How the walk below a line ended.
#[derive(Clone, Copy, PartialEq, Eq)]
pub(super) enum End {
    /// No try is left.
    Walked,
    /// A try was due, and the budget was used up.
    Stopped,
    /// A full timetable ended it.
    Found,
}

pub(super) struct Walker<'a> {
    rule: Rule,
    net: &'a Network,
    /// For each line the stops where it meets earlier lines.
    meetings: Vec<Vec<Meeting>>,
    /// `uppers[n]`: the stops' upper values with the first n lines placed.
    uppers: Vec<[u32; STOPS]>,
    /// `ratings[n]`: the upper rating with the first n lines placed.
    ratings: Vec<Rating>,
    /// The starts of the placed lines.
    starts: Vec<i32>,
    /// The rating of the full timetable that was kept last.
    best: Option<Rating>,
    pub(super) best_starts: Vec<i32>,
    pub(super) tries: u32,
    budget: u32,
}

impl Walker<'_> {
    fn new(rule: Rule, net: &Network, budget: u32) -> Walker<'_> {
        let lines = net.lines();
        let caps = caps(net);
        let served: Vec<u32> = net.served_stops().iter().map(|&stop| caps[stop]).collect();
        Walker {
            rule,
            net,
            meetings: (0..lines).map(|line| meetings(net, line)).collect(),
            uppers: vec![caps; lines + 1],
            ratings: vec![rating_of_gaps(&served); lines + 1],
            starts: vec![0; lines],
            best: None,
            best_starts: vec![0; lines],
            tries: 0,
            budget,
        }
    }

    /// Tries the starts of a line, ascending, all earlier lines being placed.
    fn line(&mut self, line: usize) -> End {
        self.enter(line);
        for start in 0..self.choices(line) {
            // "If a try is due and the tries made equal the budget [..], the
            // walk stops."
            if self.tries == self.budget {
                return End::Stopped;
            }
            self.tries += 1;
            match self.judge(line, start) {
                End::Walked => {}
                end => return end,
            }
        }
        End::Walked
    }

    /// "Line 0 is tried at 0 only, each other line at 0 up to its period less
    /// 1."
    fn choices(&self, line: usize) -> u32 {
        match line {
            0 => 1,
            _ => self.net.periods[line],
        }
    }

    /// Judges one placement: dropped, or on to the next line, or the new best.
    fn judge(&mut self, line: usize, start: u32) -> End {
        self.starts[line] = start as i32;
        let upper = self.place(line);
        if self.drops(upper) {
            return End::Walked;
        }
        if line + 1 < self.net.lines() {
            return self.line(line + 1);
        }
        self.best = Some(upper);
        self.best_starts.copy_from_slice(&self.starts);
        match self.rule {
            Rule::Best => End::Walked,
            Rule::Wanted(_) => End::Found,
        }
    }

    /// Whether a try of this upper rating is dropped.
    fn drops(&self, upper: Rating) -> bool {
        match self.rule {
            // "before the first full timetable every rating is above": None is
            // below every Some.
            Rule::Best => Some(upper) <= self.best,
            Rule::Wanted(gap) => upper.least < gap,
        }
    }

    /// Makes ready to try a line from start 0 on, all earlier lines being
    /// placed.
    fn enter(&mut self, line: usize) {
        self.uppers[line + 1] = self.uppers[line];
        for meeting in &mut self.meetings[line] {
            for pair in &mut meeting.pairs {
                let earlier = i64::from(self.starts[pair.earlier]);
                pair.apart = remainder(i64::from(pair.shift) - earlier, pair.g);
            }
        }
    }

    /// Places a line at the start that is due and returns the upper rating.
    /// Only the stops where the line meets earlier lines get another upper
    /// value. Starts ascend by one, and so do the differences of arrivals.
    fn place(&mut self, line: usize) -> Rating {
        let (before, behind) = self.uppers.split_at_mut(line + 1);
        let (old, new) = (&before[line], &mut behind[0]);
        let Rating { mut least, mut sum } = self.ratings[line];
        for meeting in &mut self.meetings[line] {
            let mut value = old[meeting.stop];
            for pair in &mut meeting.pairs {
                value = value.min(nearer(pair.apart, pair.g));
                pair.apart = minute_more(pair.apart, pair.g);
            }
            least = least.min(value);
            sum -= old[meeting.stop] - value;
            new[meeting.stop] = value;
        }
        self.ratings[line + 1] = Rating { least, sum };
        self.ratings[line + 1]
    }
}

/// A remainder of 0..g-1 for a difference that is one minute more.
fn minute_more(apart: u32, g: u32) -> u32 {
    match apart + 1 == g {
        true => 0,
        false => apart + 1,
    }
}

/// The stops where a line meets earlier lines.
fn meetings(net: &Network, line: usize) -> Vec<Meeting> {
    (0..STOPS)
        .map(|stop| Meeting {
            stop,
            pairs: pairs_with_earlier(net, line, stop),
        })
        .filter(|meeting| !meeting.pairs.is_empty())
        .collect()
}

/// The pairs of a line's calls at a stop with those of earlier lines.
fn pairs_with_earlier(net: &Network, line: usize, stop: usize) -> Vec<Pair> {
    let calls = net.calls_at(stop);
    let own = calls.iter().filter(|call| call.line == line);
    own.flat_map(|&call| {
        let earlier = calls.iter().filter(move |other| other.line < line);
        earlier.map(move |&other| pair(net, call, other))
    })
    .collect()
}

/// A call with one of an earlier line, before the first try.
fn pair(net: &Network, call: Call, earlier: Call) -> Pair {
    let g = divisor(net.period(call), net.period(earlier));
    let shift = remainder(i64::from(call.offset) - i64::from(earlier.offset), g);
    Pair {
        earlier: earlier.line,
        g,
        shift,
        apart: shift,
    }
}
