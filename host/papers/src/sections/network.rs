//! Document 01, "The network file", and grounds 1 to 14 of "Grounds for
//! refusing"; document 02, A.2: "A line may now call twice at a stop; ground 9
//! is for the third"; and A.6: the edition, with grounds 19 to 21.

/// "at most 16 lines"
pub const MAX_LINES: usize = 16;
/// "Stops are 0 to 63"
pub const STOPS: usize = 64;
/// "at most 256 calls"
pub const MAX_CALLS: usize = 256;
/// "Periods are 1 to 1,440"
pub const MAX_PERIOD: u32 = 1_440;
/// "The common cycle [..] is at most 10,080"
pub const MAX_CYCLE: u32 = 10_080;
/// "offsets 0 to 65,535"
pub const MAX_OFFSET: u32 = 65_535;
/// "A line may now call twice at a stop"
pub const MAX_CALLS_AT_STOP: usize = 2;
/// "without it the edition is 1"
pub const FIRST_EDITION: u8 = 1;
/// The last edition that is known; a later request raises it.
pub const LATEST_EDITION: u8 = 2;

/// The five command bytes.
pub const EDITION: u8 = 0x56;
pub const LINE: u8 = 0x4C;
pub const CALL: u8 = 0x43;
pub const FOLLOW: u8 = 0x46;
pub const END: u8 = 0x45;

/// "Each returns number and place."
#[derive(Clone, Copy, Debug, PartialEq, Eq)]
pub struct Refusal {
    pub number: u8,
    pub place: usize,
}

/// A call: the line reaches the stop so many minutes after its start. The order
/// of calls is by line, then stop, then offset.
#[derive(Clone, Copy, Debug, PartialEq, Eq, PartialOrd, Ord)]
pub struct Call {
    pub line: usize,
    pub stop: usize,
    pub offset: u32,
}

/// An accepted network. "The edition is part of the network."
#[derive(Clone, Debug, PartialEq, Eq)]
pub struct Network {
    pub edition: u8,
    /// The period of each line, in file order.
    pub periods: Vec<u32>,
    /// The calls, in their order: nothing but reading goes by the file's.
    pub calls: Vec<Call>,
    /// The least common multiple of all periods.
    pub cycle: u32,
}

/// "The read call returns the numbers of lines, served stops and calls, and
/// the common cycle."
#[derive(Clone, Copy, Debug, PartialEq, Eq)]
pub struct Counts {
    pub lines: usize,
    pub served_stops: usize,
    pub calls: usize,
    pub cycle: u32,
}

impl Network {
    /// The number of lines.
    pub fn lines(&self) -> usize {
        self.periods.len()
    }

    /// The calls at a stop by line, those of one line by offset.
    pub fn calls_at(&self, stop: usize) -> Vec<Call> {
        let there = |call: &&Call| call.stop == stop;
        self.calls.iter().filter(there).copied().collect()
    }

    /// The period of a call's line.
    pub fn period(&self, call: Call) -> u32 {
        self.periods[call.line]
    }

    /// The stops with a call, ascending. "A stop with no call is unserved and
    /// counts nowhere."
    pub fn served_stops(&self) -> Vec<usize> {
        (0..STOPS)
            .filter(|&stop| self.calls.iter().any(|call| call.stop == stop))
            .collect()
    }

    /// The answer of the read call for this network.
    pub fn counts(&self) -> Counts {
        Counts {
            lines: self.lines(),
            served_stops: self.served_stops().len(),
            calls: self.calls.len(),
            cycle: self.cycle,
        }
    }
}

/// The read call.
pub fn read_counts(file: &[u8]) -> Result<Counts, Refusal> {
    read(file).map(|net| net.counts())
}

/// Reads a network file. "Commands are checked in file order, grounds in
/// ascending order; the place is the command's byte." Of the later grounds 19 comes
/// "between grounds 3 and 7", 20 "after ground 3", 21 "after 20".
pub fn read(file: &[u8]) -> Result<Network, Refusal> {
    let mut reader = Reader::new();
    let mut place = 0;
    loop {
        let refuse = |number| Refusal { number, place };
        // Ground 1: here the place is the length of the file.
        let command = *file.get(place).ok_or(refuse(1))?;
        let width = operand_width(command).ok_or(refuse(2))?;
        let behind = place + 1 + width;
        let operands = file.get(place + 1..behind).ok_or(refuse(3))?;
        reader.command(place, command, operands).map_err(refuse)?;
        if command == END {
            return match file.len() > behind {
                true => Err(Refusal {
                    number: 14,
                    place: behind,
                }),
                false => Ok(reader.network()),
            };
        }
        place = behind;
    }
}

/// The number of operand bytes behind a command byte, if it is a command.
fn operand_width(command: u8) -> Option<usize> {
    match command {
        EDITION => Some(1),
        LINE => Some(2),
        CALL | FOLLOW => Some(4),
        END => Some(0),
        _ => None,
    }
}

/// Two bytes, most significant first.
fn number(bytes: &[u8]) -> u32 {
    u32::from(bytes[0]) * 256 + u32::from(bytes[1])
}

/// The network read so far, and each line's latest call in the file.
struct Reader {
    net: Network,
    /// The offset of each line's latest call.
    latest: Vec<Option<u32>>,
}

/// A ground's number, where the place is that of the command.
type Ground = u8;

impl Reader {
    fn new() -> Reader {
        let net = Network {
            edition: FIRST_EDITION,
            periods: Vec::new(),
            calls: Vec::new(),
            cycle: 1,
        };
        Reader {
            net,
            latest: Vec::new(),
        }
    }

    /// The network of a file that is read to its end.
    fn network(mut self) -> Network {
        self.net.calls.sort();
        self.net
    }

    /// Takes the command at a place, whose operands are all there.
    fn command(&mut self, place: usize, command: u8, operands: &[u8]) -> Result<(), Ground> {
        match command {
            EDITION => self.edition(place, operands[0]),
            LINE => self.line(number(operands)),
            CALL | FOLLOW => self.call(
                command,
                usize::from(operands[0]),
                usize::from(operands[1]),
                number(&operands[2..]),
            ),
            _ => self.end(),
        }
    }

    /// `56`: grounds 20, 21.
    fn edition(&mut self, place: usize, edition: u8) -> Result<(), Ground> {
        check(place == 0, 20)?;
        check((FIRST_EDITION..=LATEST_EDITION).contains(&edition), 21)?;
        self.net.edition = edition;
        Ok(())
    }

    /// `4C`: grounds 4, 5, 6.
    fn line(&mut self, period: u32) -> Result<(), Ground> {
        check(self.net.lines() < MAX_LINES, 4)?;
        check((1..=MAX_PERIOD).contains(&period), 5)?;
        self.net.cycle = common_cycle(self.net.cycle, period).ok_or(6u8)?;
        self.net.periods.push(period);
        self.latest.push(None);
        Ok(())
    }

    /// `43` and `46`: grounds 7 to 12, and for `46` before them 19: "Edition 2 has no
    /// `46`", nor have later ones. The last operand is the offset or the ride.
    fn call(&mut self, command: u8, line: usize, stop: usize, last: u32) -> Result<(), Ground> {
        check(command != FOLLOW || self.net.edition == FIRST_EDITION, 19)?;
        check(line < self.net.lines(), 7)?;
        check(stop < STOPS, 8)?;
        let there = |call: &&Call| (call.line, call.stop) == (line, stop);
        let often = self.net.calls.iter().filter(there).count();
        check(often < MAX_CALLS_AT_STOP, 9)?;
        check(self.net.calls.len() < MAX_CALLS, 10)?;
        let offset = match command {
            FOLLOW => self.latest[line].ok_or(11u8)? + last,
            _ => last,
        };
        check(offset <= MAX_OFFSET, 12)?;
        self.net.calls.push(Call { line, stop, offset });
        self.latest[line] = Some(offset);
        Ok(())
    }

    /// `45`: ground 13.
    fn end(&self) -> Result<(), Ground> {
        check(self.net.lines() > 0, 13)?;
        check(self.latest.iter().all(|latest| latest.is_some()), 13)
    }
}

/// The ground applies unless the condition holds.
fn check(holds: bool, ground: Ground) -> Result<(), Ground> {
    match holds {
        true => Ok(()),
        false => Err(ground),
    }
}

/// The least common multiple of the cycle so far and one more period, found by
/// going through the multiples of the cycle; `None` if it is above 10,080.
fn common_cycle(cycle: u32, period: u32) -> Option<u32> {
    (1..=MAX_CYCLE / cycle)
        .map(|times| times * cycle)
        .find(|multiple| multiple % period == 0)
}
