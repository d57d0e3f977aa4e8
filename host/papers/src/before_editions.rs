//! Document 01, "The network file", and grounds 1 to 14 of "Grounds for refusing",
//! as they stood before editions (document 02, A.6): four commands, and `56` is
//! unknown. It stays as a witness: "Files without the command `56` are read as ever."
//! Nothing here is brought up to date by later requests: limits and command bytes are
//! its own, and of the papers it has the two types alone in which it answers.

use crate::sections::network::{Call, Refusal};

const MAX_LINES: usize = 16;
const STOPS: usize = 64;
const MAX_CALLS: usize = 256;
const MAX_PERIOD: u32 = 1_440;
const MAX_CYCLE: u32 = 10_080;
const MAX_OFFSET: u32 = 65_535;

/// The four command bytes, and the one that came with editions.
const LINE: u8 = 0x4C;
const CALL: u8 = 0x43;
const FOLLOW: u8 = 0x46;
const END: u8 = 0x45;
const EDITION: u8 = 0x56;

/// An accepted network.
#[derive(Clone, Debug, PartialEq, Eq)]
pub struct Network {
    /// The period of each line, in file order.
    pub periods: Vec<u32>,
    /// The calls by line, then stop, then offset.
    pub calls: Vec<Call>,
    /// The least common multiple of all periods.
    pub cycle: u32,
}

/// Whether the reading of a file meets no command `56`: it would be refused as
/// unknown.
pub fn is_of_before(file: &[u8]) -> bool {
    let unknown = |why: Refusal| why.number == 2 && file[why.place] == EDITION;
    !read(file).is_err_and(unknown)
}

/// Reads a network file: "A line may now call twice at a stop" (A.2).
pub fn read(file: &[u8]) -> Result<Network, Refusal> {
    read_with(2, file)
}

/// Reads a network file in which a line calls at a stop so often at most; ground 9 is
/// for one call more.
pub fn read_with(most_at_stop: usize, file: &[u8]) -> Result<Network, Refusal> {
    let mut reader = Reader::new(most_at_stop);
    let mut place = 0;
    loop {
        let refuse = |number| Refusal { number, place };
        // Ground 1: here the place is the length of the file.
        let command = *file.get(place).ok_or(refuse(1))?;
        let width = operand_width(command).ok_or(refuse(2))?;
        let behind = place + 1 + width;
        let operands = file.get(place + 1..behind).ok_or(refuse(3))?;
        reader.command(command, operands).map_err(refuse)?;
        if command == END {
            return match file.len() > behind {
                true => Err(Refusal {
                    number: 14,
                    place: behind,
                }),
                false => Ok(reader.network()),
            };
        }
        place = behind;
    }
}

/// The number of operand bytes behind a command byte, if it is a command.
fn operand_width(command: u8) -> Option<usize> {
    match command {
        LINE => Some(2),
        CALL | FOLLOW => Some(4),
        END => Some(0),
        _ => None,
    }
}

/// Two bytes, most significant first.
fn number(bytes: &[u8]) -> u32 {
    u32::from(bytes[0]) * 256 + u32::from(bytes[1])
}

/// The network read so far, and each line's latest call in the file.
struct Reader {
    most_at_stop: usize,
    net: Network,
    /// The offset of each line's latest call.
    latest: Vec<Option<u32>>,
}

/// A ground's number, where the place is that of the command.
type Ground = u8;

impl Reader {
    fn new(most_at_stop: usize) -> Reader {
        let net = Network {
            periods: Vec::new(),
            calls: Vec::new(),
            cycle: 1,
        };
        Reader {
            most_at_stop,
            net,
            latest: Vec::new(),
        }
    }

    /// The network of a file that is read to its end.
    fn network(mut self) -> Network {
        self.net.calls.sort();
        self.net
    }

    /// Takes one command whose operands are all there.
    fn command(&mut self, command: u8, operands: &[u8]) -> Result<(), Ground> {
        match command {
            LINE => self.line(number(operands)),
            CALL | FOLLOW => self.call(
                command,
                usize::from(operands[0]),
                usize::from(operands[1]),
                number(&operands[2..]),
            ),
            _ => self.end(),
        }
    }

    /// `4C`: grounds 4, 5, 6.
    fn line(&mut self, period: u32) -> Result<(), Ground> {
        check(self.net.periods.len() < MAX_LINES, 4)?;
        check((1..=MAX_PERIOD).contains(&period), 5)?;
        self.net.cycle = common_cycle(self.net.cycle, period).ok_or(6u8)?;
        self.net.periods.push(period);
        self.latest.push(None);
        Ok(())
    }

    /// `43` and `46`: grounds 7 to 12. The last operand is the offset or the
    /// ride.
    fn call(&mut self, command: u8, line: usize, stop: usize, last: u32) -> Result<(), Ground> {
        check(line < self.net.periods.len(), 7)?;
        check(stop < STOPS, 8)?;
        let there = |call: &&Call| (call.line, call.stop) == (line, stop);
        let often = self.net.calls.iter().filter(there).count();
        check(often < self.most_at_stop, 9)?;
        check(self.net.calls.len() < MAX_CALLS, 10)?;
        let offset = match command {
            FOLLOW => self.latest[line].ok_or(11u8)? + last,
            _ => last,
        };
        check(offset <= MAX_OFFSET, 12)?;
        self.net.calls.push(Call { line, stop, offset });
        self.latest[line] = Some(offset);
        Ok(())
    }

    /// `45`: ground 13.
    fn end(&self) -> Result<(), Ground> {
        check(!self.net.periods.is_empty(), 13)?;
        check(self.latest.iter().all(|latest| latest.is_some()), 13)
    }
}

/// The ground applies unless the condition holds.
fn check(holds: bool, ground: Ground) -> Result<(), Ground> {
    match holds {
        true => Ok(()),
        false => Err(ground),
    }
}

/// The least common multiple of the cycle so far and one more period, found by
/// going through the multiples of the cycle; `None` if it is above 10,080.
fn common_cycle(cycle: u32, period: u32) -> Option<u32> {
    (1..=MAX_CYCLE / cycle)
        .map(|times| times * cycle)
        .find(|multiple| multiple % period == 0)
}
