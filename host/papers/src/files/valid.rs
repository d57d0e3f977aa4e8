//! Files that are accepted.

use super::commands::{bytes_of, Command, Stated};
use super::dice::Dice;
use crate::sections::network::{
    FIRST_EDITION, LATEST_EDITION, MAX_CALLS, MAX_CALLS_AT_STOP, MAX_PERIOD, STOPS,
};

/// Bounds for a generated network.
#[derive(Clone, Debug)]
pub struct Size {
    /// At least and at most so many lines.
    pub lines: (usize, usize),
    /// At least and at most so many stops to choose from.
    pub stops: (usize, usize),
    /// Every period divides this number, itself at most 10,080.
    pub cycle: u16,
    /// Every period is at most this.
    pub longest: u16,
}

/// Numbers whose divisors serve as periods.
pub const CYCLES: [u16; 12] = [
    60, 60, 60, 60, 12, 30, 120, 720, 1_440, 5_040, 7_560, 10_080,
];

/// Mostly small bounds, now and then large ones.
pub fn any_size(dice: &mut Dice) -> Size {
    Size {
        lines: if dice.once_in(12) { (6, 16) } else { (1, 5) },
        stops: if dice.once_in(12) { (9, 64) } else { (1, 8) },
        cycle: dice.pick(&CYCLES),
        longest: dice.pick(&[10, 20, 60, 60, 1_440, 1_440]),
    }
}

/// The periods that a size allows.
fn period_pool(size: &Size) -> Vec<u16> {
    let longest = size.longest.min(MAX_PERIOD as u16);
    (1..=longest)
        .filter(|period| size.cycle.is_multiple_of(*period))
        .collect()
}

/// A quarter of the files begin with their edition, one of those that are known.
pub(super) fn opening(dice: &mut Dice) -> Vec<Command> {
    let [first, latest] = [FIRST_EDITION, LATEST_EDITION].map(usize::from);
    match dice.once_in(4) {
        true => vec![Command::Edition {
            edition: dice.within(first, latest) as u8,
        }],
        false => Vec::new(),
    }
}

/// The bytes of a file that is accepted.
pub fn valid_file(dice: &mut Dice) -> Vec<u8> {
    bytes_of(&valid_commands(dice))
}

/// A network whose periods have a large divisor in common, so that lines can keep
/// away from each other: for wanted gaps, which most of the other networks have at
/// once or never.
pub fn roomy_file(dice: &mut Dice) -> Vec<u8> {
    let common = dice.pick(&[8, 10, 12, 20, 30]);
    let (lines, stops) = (dice.within(2, 5), dice.within(1, 4));
    let mut commands = opening(dice);
    commands.extend((0..lines).map(|_| Command::Line {
        period: common * dice.pick(&[1, 1, 1, 2, 3]),
    }));
    for call in 0..lines * stops {
        let (line, stop) = (call / stops, call % stops);
        if line % stops == stop || dice.once_in(2) {
            commands.push(Command::Call {
                line: line as u8,
                stop: stop as u8,
                offset: dice.below(60) as u16,
            });
        }
    }
    commands.push(Command::End);
    bytes_of(&commands)
}

/// The commands of a file that is accepted.
pub fn valid_commands(dice: &mut Dice) -> Vec<Command> {
    let size = any_size(dice);
    valid_commands_of(dice, &size)
}

/// The commands of a file that is accepted, within the bounds: now and then the
/// edition, then lines and calls in a random order, each call after its line.
pub fn valid_commands_of(dice: &mut Dice, size: &Size) -> Vec<Command> {
    let pool = period_pool(size);
    let lines = dice.within(size.lines.0, size.lines.1);
    let mut waiting = choose_stops(dice, size, lines);
    // By the second a line comes back to a stop.
    let road = choose_roads(dice);
    let mut commands = opening(dice);
    let mut stated = Stated::by(&commands);
    loop {
        let ready: Vec<usize> = (0..stated.periods.len())
            .filter(|&line| !waiting[line].is_empty())
            .collect();
        let all_lines = stated.periods.len() == lines;
        if all_lines && ready.is_empty() {
            commands.push(Command::End);
            return commands;
        }
        let command = if ready.is_empty() || (!all_lines && dice.once_in(2)) {
            Command::Line {
                period: dice.pick(&pool),
            }
        } else {
            let line = dice.pick(&ready);
            let stop = waiting[line].pop().expect("a waiting stop");
            let turn = stated.how_often(line as u8, stop);
            let offset = choose_offset(dice, &road[turn], stated.periods[line], stop);
            call_or_follow(dice, &stated, line as u8, stop, offset)
        };
        stated.add(command);
        commands.push(command);
    }
}

/// In half of the files all lines go along one road, with the same minutes
/// between stops (but for whole periods), so that there are alike stops; and
/// those that come back to a stop along another.
fn choose_roads(dice: &mut Dice) -> [Option<Vec<u16>>; MAX_CALLS_AT_STOP] {
    let alike = dice.once_in(2);
    let longer = dice.below(20) as u16;
    let there: Vec<u16> = (0..STOPS).map(|_| dice.below(60) as u16).collect();
    let back = there.iter().map(|minutes| minutes + longer).collect();
    match alike {
        true => [Some(there), Some(back)],
        false => [None, None],
    }
}

/// The offset of a line of this period at a stop.
fn choose_offset(dice: &mut Dice, road: &Option<Vec<u16>>, period: u16, stop: u8) -> u16 {
    match road {
        Some(minutes) if !dice.once_in(8) => {
            minutes[usize::from(stop)] + period * dice.below(3) as u16
        }
        _ => any_minutes(dice, u16::MAX),
    }
}

/// For each line the stops at which it is to call: one at least, 256 calls in
/// all at most. In a third of the files lines come back to some of their stops.
fn choose_stops(dice: &mut Dice, size: &Size, lines: usize) -> Vec<Vec<u8>> {
    let mut stops: Vec<u8> = (0..STOPS as u8).collect();
    if dice.once_in(2) {
        dice.shuffle(&mut stops);
    }
    stops.truncate(dice.within(size.stops.0, size.stops.1));
    let loops = dice.once_in(3);
    let most = stops.len().min(MAX_CALLS / lines);
    (0..lines)
        .map(|_| {
            dice.shuffle(&mut stops);
            let count = if dice.once_in(3) {
                most
            } else {
                dice.within(1, most)
            };
            let mut chosen = stops[..count].to_vec();
            if loops {
                let twice = dice.within(0, count.min(MAX_CALLS / lines - count));
                chosen.extend_from_slice(&stops[..twice]);
                dice.shuffle(&mut chosen);
            }
            chosen
        })
        .collect()
}

/// A call of a line at a stop, as `43` or, where that is possible in the edition, as
/// `46`.
pub(super) fn call_or_follow(
    dice: &mut Dice,
    stated: &Stated,
    line: u8,
    stop: u8,
    offset: u16,
) -> Command {
    match stated.latest(line) {
        Some(latest) if stated.has_rides() && latest <= offset && !dice.once_in(4) => {
            Command::Follow {
                line,
                stop,
                ride: offset - latest,
            }
        }
        _ => Command::Call { line, stop, offset },
    }
}

/// Minutes of 0..=most, mostly few.
pub(super) fn any_minutes(dice: &mut Dice, most: u16) -> u16 {
    let most = usize::from(most);
    let minutes = match dice.below(16) {
        0 => most,
        1 => dice.within(0, most),
        2 | 3 => 0,
        _ => dice.within(0, most.min(90)),
    };
    minutes as u16
}
