//! The calls of a hall as one writes them by hand to be quick, for the benchmark
//! alone: what the engine's time is measured by. [`crate::sections`] is written to
//! be read beside document 01 and says nothing about speed. Everything lies in rows
//! of fixed length, so that reading and rating take nothing from the heap; only the
//! walk of a mark does.

use crate::sections::network::{
    self, Call, Counts, Refusal, CALL, EDITION, END, FIRST_EDITION, FOLLOW, LATEST_EDITION, LINE,
    MAX_CALLS, MAX_CYCLE, MAX_LINES, MAX_OFFSET, MAX_PERIOD, STOPS,
};
use crate::sections::rating::Rating;
use crate::sections::sheets::{Better, Marked};
use crate::sections::walk::Walked;

/// A number for each line.
type LineRow = [u32; MAX_LINES];

/// The greatest common divisors of the periods of each two lines.
type Divisors = [LineRow; MAX_LINES];

const WRONG_LENGTH: Refusal = Refusal {
    number: 15,
    place: 0,
};

/// Counts what a file has, or refuses it on the grounds of document 01.
pub fn read(file: &[u8]) -> Result<Counts, Refusal> {
    let mut net = Network::empty();
    net.read(file)?;
    Ok(net.counts())
}

/// Rates a sheet of 4 bytes for each start, or refuses as [`read`] does and then
/// by ground 15.
pub fn rate(file: &[u8], sheet: &[u8]) -> Result<Rating, Refusal> {
    let mut net = Network::empty();
    net.read(file)?;
    if !net.fits(sheet) {
        return Err(WRONG_LENGTH);
    }
    Ok(net.rating(&net.starts(sheet), &net.divisors()))
}

/// Says which of two sheets is the better. The file is read once, and where only
/// one sheet fits nothing is rated.
pub fn better(file: &[u8], first: &[u8], second: &[u8]) -> Better {
    let mut net = Network::empty();
    if net.read(file).is_err() {
        return Better::Neither;
    }
    match (net.fits(first), net.fits(second)) {
        (true, true) => {
            let divisors = net.divisors();
            let [one, other] =
                [first, second].map(|sheet| net.rating(&net.starts(sheet), &divisors));
            if other > one {
                Better::Second
            } else {
                Better::First
            }
        }
        (true, false) => Better::First,
        (false, true) => Better::Second,
        (false, false) => Better::Neither,
    }
}

/// Marks a sheet by a walk over the papers' network, which is made of what was
/// read here, so that the file is read once. Which walk is quick depends on its
/// length: that of [`crate::strong`] fills tables first, which only many tries
/// make up for.
pub fn mark_by(
    walk: impl Fn(&network::Network, u32) -> Walked,
    file: &[u8],
    sheet: &[u8],
    budget: u32,
) -> Result<Marked, Refusal> {
    let mut net = Network::empty();
    net.read(file)?;
    if !net.fits(sheet) {
        return Err(WRONG_LENGTH);
    }
    let rating = net.rating(&net.starts(sheet), &net.divisors());
    Ok(Marked::by(rating, walk(&net.of_papers(), budget).answer))
}

/// What has been read of a file.
struct Network {
    edition: u8,
    lines: usize,
    periods: LineRow,
    /// The least common multiple of the periods.
    cycle: u32,
    count: usize,
    /// The calls, 65,536 × line + offset.
    calls: [u32; MAX_CALLS],
    /// For each call the number of the one before it at its stop, counted from 1,
    /// 0 where there is none.
    before: [u16; MAX_CALLS],
    /// The offset of each line's latest call.
    latest: [Option<u32>; MAX_LINES],
    /// For each stop the number of its latest call, 0 where there is none.
    last: [u16; STOPS],
    /// For each stop the lines that call there, line i as bit i, and those that
    /// do so twice.
    lines_at: [u16; STOPS],
    twice_at: [u16; STOPS],
}

// ---------------------------------------------------------------------------
// Reading
// ---------------------------------------------------------------------------

impl Network {
    fn empty() -> Network {
        Network {
            edition: FIRST_EDITION,
            lines: 0,
            periods: [0; MAX_LINES],
            cycle: 1,
            count: 0,
            calls: [0; MAX_CALLS],
            before: [0; MAX_CALLS],
            latest: [None; MAX_LINES],
            last: [0; STOPS],
            lines_at: [0; STOPS],
            twice_at: [0; STOPS],
        }
    }

    fn read(&mut self, file: &[u8]) -> Result<(), Refusal> {
        let mut place = 0;
        loop {
            let taken = match file[place..] {
                [LINE, high, low, ..] => self.line(number(high, low)).map(|()| 3),
                [command @ (CALL | FOLLOW), line, stop, high, low, ..] => {
                    let follows = command == FOLLOW;
                    let minutes = number(high, low);
                    let (line, stop) = (usize::from(line), usize::from(stop));
                    self.call(line, stop, minutes, follows).map(|()| 5)
                }
                [END] => return self.end().map_err(|number| Refusal { number, place }),
                // Here the place is behind the command, if the end is in order.
                [END, ..] => self.end().and(Err(14)),
                [EDITION, edition, ..] => self.open(place, edition).map(|()| 2),
                [] => Err(1),
                [EDITION | LINE | CALL | FOLLOW, ..] => Err(3),
                _ => Err(2),
            };
            place += taken.map_err(|number| Refusal {
                number,
                place: place + usize::from(number == 14),
            })?;
        }
    }

    /// Grounds 20 and 21.
    fn open(&mut self, place: usize, edition: u8) -> Result<(), u8> {
        if place != 0 {
            return Err(20);
        }
        if !(FIRST_EDITION..=LATEST_EDITION).contains(&edition) {
            return Err(21);
        }
        self.edition = edition;
        Ok(())
    }

    /// Grounds 4 to 6.
    fn line(&mut self, period: u32) -> Result<(), u8> {
        if self.lines == MAX_LINES {
            return Err(4);
        }
        if period == 0 || period > MAX_PERIOD {
            return Err(5);
        }
        let cycle = self.cycle / divisor(self.cycle, period) * period;
        if cycle > MAX_CYCLE {
            return Err(6);
        }
        self.cycle = cycle;
        self.periods[self.lines] = period;
        self.lines += 1;
        Ok(())
    }

    /// Ground 19, where the call follows, and 7 to 12. The minutes count from the
    /// line's start or, where the call follows, from its latest call.
    fn call(&mut self, line: usize, stop: usize, minutes: u32, follows: bool) -> Result<(), u8> {
        if follows && self.edition > FIRST_EDITION {
            return Err(19);
        }
        if line >= self.lines {
            return Err(7);
        }
        if stop >= STOPS {
            return Err(8);
        }
        if self.twice_at[stop] & (1 << line) != 0 {
            return Err(9);
        }
        if self.count == MAX_CALLS {
            return Err(10);
        }
        let before = if follows {
            self.latest[line].ok_or(11)?
        } else {
            0
        };
        let offset = before + minutes;
        if offset > MAX_OFFSET {
            return Err(12);
        }
        self.twice_at[stop] |= self.lines_at[stop] & (1 << line);
        self.lines_at[stop] |= 1 << line;
        self.latest[line] = Some(offset);
        self.calls[self.count] = 65_536 * line as u32 + offset;
        self.before[self.count] = self.last[stop];
        self.count += 1;
        self.last[stop] = self.count as u16;
        Ok(())
    }

    /// Ground 13.
    fn end(&self) -> Result<(), u8> {
        if self.lines == 0 || self.latest[..self.lines].contains(&None) {
            return Err(13);
        }
        Ok(())
    }

    fn counts(&self) -> Counts {
        Counts {
            lines: self.lines,
            served_stops: self.last.iter().filter(|&&last| last != 0).count(),
            calls: self.count,
            cycle: self.cycle,
        }
    }

    /// The same network as the papers have it, its calls in their order.
    fn of_papers(&self) -> network::Network {
        let mut calls: Vec<Call> = (0..STOPS).flat_map(|stop| self.calls_at(stop)).collect();
        calls.sort_unstable();
        network::Network {
            edition: self.edition,
            periods: self.periods[..self.lines].to_vec(),
            calls,
            cycle: self.cycle,
        }
    }

    /// The calls at a stop, the latest first.
    fn calls_at(&self, stop: usize) -> impl Iterator<Item = Call> + '_ {
        let numbered = |number: u16| (number != 0).then(|| usize::from(number) - 1);
        let latest = numbered(self.last[stop]);
        let all = std::iter::successors(latest, move |&at| numbered(self.before[at]));
        all.map(move |at| Call {
            line: self.calls[at] as usize / 65_536,
            stop,
            offset: self.calls[at] % 65_536,
        })
    }
}

fn number(high: u8, low: u8) -> u32 {
    u32::from(u16::from_be_bytes([high, low]))
}

fn divisor(mut a: u32, mut b: u32) -> u32 {
    while b != 0 {
        (a, b) = (b, a % b);
    }
    a
}

// ---------------------------------------------------------------------------
// Rating
// ---------------------------------------------------------------------------

impl Network {
    /// Whether a sheet has one start for each line.
    fn fits(&self, sheet: &[u8]) -> bool {
        sheet.len() == 4 * self.lines
    }

    /// The sheet's starts, each less than its line's period, so that no
    /// arrival has a sign. Whole periods change no gap.
    fn starts(&self, sheet: &[u8]) -> LineRow {
        let mut starts = [0; MAX_LINES];
        for (line, bytes) in sheet.chunks_exact(4).enumerate() {
            let start = i32::from_be_bytes([bytes[0], bytes[1], bytes[2], bytes[3]]);
            starts[line] = start.rem_euclid(self.periods[line] as i32) as u32;
        }
        starts
    }

    fn rating(&self, starts: &LineRow, divisors: &Divisors) -> Rating {
        let mut rating = Rating {
            least: u32::MAX,
            sum: 0,
        };
        for stop in 0..STOPS {
            if self.last[stop] != 0 {
                let gap = self.stop_gap(stop, starts, divisors);
                rating.least = rating.least.min(gap);
                rating.sum += gap;
            }
        }
        rating
    }

    /// The greatest common divisors of the periods of each two lines, and of one
    /// line its period. Two lines may meet at many stops.
    fn divisors(&self) -> Divisors {
        let mut divisors = [[0; MAX_LINES]; MAX_LINES];
        for line in 0..self.lines {
            divisors[line][line] = self.periods[line];
            for before in 0..line {
                let g = divisor(self.periods[line], self.periods[before]);
                divisors[line][before] = g;
                divisors[before][line] = g;
            }
        }
        divisors
    }

    /// A lone call's period, else the least by theorem 3.1.2 over the pairs of
    /// calls. Of the difference of two arrivals the sign doesn't matter: it
    /// exchanges d and g-d.
    fn stop_gap(&self, stop: usize, starts: &LineRow, divisors: &Divisors) -> u32 {
        let call = |number: u16| {
            let at = usize::from(number) - 1;
            let (line, offset) = (self.calls[at] / 65_536, self.calls[at] % 65_536);
            let line = line as usize % MAX_LINES;
            (line, starts[line] + offset, self.before[at])
        };
        let (line, _, before) = call(self.last[stop]);
        if before == 0 {
            return self.periods[line];
        }
        let mut least = u32::MAX;
        let mut number = self.last[stop];
        while number != 0 {
            let (line, arrival, before) = call(number);
            let mut other = before;
            while other != 0 {
                let (earlier, reached, next) = call(other);
                let g = divisors[line][earlier];
                let d = u32::abs_diff(arrival, reached) % g;
                least = least.min(d).min(g - d);
                other = next;
            }
            number = before;
        }
        least
    }
}
