//! Files that are refused on a given ground.

use super::bytes::random_bytes;
use super::commands::{bytes_of, Command, Stated};
use super::dice::Dice;
use super::valid::{any_minutes, opening, valid_commands};
use crate::sections::network::{
    CALL, EDITION, END, FIRST_EDITION, FOLLOW, LATEST_EDITION, LINE, MAX_CALLS, MAX_CALLS_AT_STOP,
    MAX_CYCLE, MAX_LINES, MAX_OFFSET, MAX_PERIOD, STOPS,
};

/// The grounds of a file's author: those of document 01 and of document 02, A.6.
pub const GROUNDS: [u8; 17] = [1, 2, 3, 4, 5, 6, 7, 8, 9, 10, 11, 12, 13, 14, 19, 20, 21];

/// The outcomes that a test counts: accepted, at 0, and each ground at its number,
/// those of sheets, rows and boards too.
pub const OUTCOMES: usize = 24;

/// A refused file with the place that the papers give it.
#[derive(Clone, Debug, PartialEq, Eq)]
pub struct Faulty {
    pub bytes: Vec<u8>,
    pub ground: u8,
    pub place: usize,
}

/// A file that is refused on the given ground, one of [`GROUNDS`].
pub fn faulty_file(dice: &mut Dice, ground: u8) -> Faulty {
    loop {
        // Not every valid file can be spoilt on every ground.
        let commands = match ground {
            4 => crowded(dice, MAX_LINES, 2),
            // 256 calls, and each line has stops left.
            10 => crowded(dice, 8, MAX_CALLS / 8),
            19 if dice.once_in(10) => crowded(dice, 8, MAX_CALLS / 8),
            _ => valid_commands(dice),
        };
        let made = match ground {
            1..=3 => Some(cut_or_unknown(dice, &commands, ground)),
            14 => Some(byte_behind(dice, &commands)),
            _ => with_faulty_command(dice, &commands, ground),
        };
        if let Some((bytes, place)) = made {
            return Faulty {
                bytes,
                ground,
                place,
            };
        }
    }
}

/// A valid file whose lines each call at all of so many stops.
fn crowded(dice: &mut Dice, lines: usize, stops: usize) -> Vec<Command> {
    let mut commands = opening(dice);
    commands.extend((0..lines).map(|_| Command::Line {
        period: dice.pick(&[10, 12, 15, 20, 30, 60]),
    }));
    for line in 0..lines {
        for stop in 0..stops {
            commands.push(Command::Call {
                line: line as u8,
                stop: stop as u8,
                offset: dice.below(60) as u16,
            });
        }
    }
    commands.push(Command::End);
    commands
}

/// Ground 1: cut before a command. Ground 2: another command byte. Ground 3:
/// cut within a command's operands.
fn cut_or_unknown(dice: &mut Dice, commands: &[Command], ground: u8) -> (Vec<u8>, usize) {
    let last = commands.len() - 1;
    let at = match ground {
        3 => dice.below(last),
        _ => dice.below(last + 1),
    };
    let mut bytes = bytes_of(commands);
    let place = bytes_of(&commands[..at]).len();
    match ground {
        1 => bytes.truncate(place),
        2 => bytes[place] = unknown_command(dice),
        // An edition too may be cut off, at its place or behind it.
        3 if dice.once_in(6) => {
            bytes.truncate(place);
            bytes.push(EDITION);
        }
        _ => bytes.truncate(place + dice.within(1, commands[at].bytes().len() - 1)),
    }
    (bytes, place)
}

/// A byte that is no command.
fn unknown_command(dice: &mut Dice) -> u8 {
    loop {
        let byte = dice.byte();
        if ![EDITION, LINE, CALL, FOLLOW, END].contains(&byte) {
            return byte;
        }
    }
}

/// Ground 14: bytes after the end.
fn byte_behind(dice: &mut Dice, commands: &[Command]) -> (Vec<u8>, usize) {
    let mut bytes = bytes_of(commands);
    let place = bytes.len();
    let more = dice.within(1, 9);
    bytes.extend(random_bytes(dice, more));
    (bytes, place)
}

/// Grounds 4 to 13 and 19 to 21: one faulty command put before one of the valid
/// ones. `None` if what is stated there doesn't allow this fault.
fn with_faulty_command(
    dice: &mut Dice,
    commands: &[Command],
    ground: u8,
) -> Option<(Vec<u8>, usize)> {
    let at = match ground {
        // The places where these can occur are known.
        4 => dice.within(MAX_LINES, commands.len() - 1),
        10 => commands.len() - 1,
        19 if dice.once_in(4) => commands.len() - 1,
        20 => dice.within(1, commands.len() - 1),
        21 => 0,
        _ => dice.below(commands.len()),
    };
    let fault = faulty_command(dice, &Stated::by(&commands[..at]), ground)?;
    let before = bytes_of(&commands[..at]);
    let place = before.len();
    let behind = bytes_of(&commands[at..]);
    Some(([before, fault.bytes(), behind].concat(), place))
}

/// A command that, after what is stated, has this ground and none that is tried
/// before it. Operands that only a later ground would look at are free.
fn faulty_command(dice: &mut Dice, stated: &Stated, ground: u8) -> Option<Command> {
    let lines = stated.periods.len();
    match ground {
        4 if lines == MAX_LINES => Some(Command::Line {
            period: dice.bits() as u16,
        }),
        5 if lines < MAX_LINES => Some(Command::Line {
            period: period_out_of_range(dice),
        }),
        6 if lines < MAX_LINES => too_long_a_cycle(dice, stated),
        7 => {
            let (line, stop) = (dice.within(lines, 255) as u8, dice.byte());
            Some(either(dice, stated, line, stop))
        }
        13 if lines == 0 || !stated.silent_lines().is_empty() => Some(Command::End),
        8..=12 if lines > 0 => faulty_call(dice, stated, ground),
        19 if !stated.has_rides() => Some(any_ride(dice, stated)),
        20 => Some(Command::Edition {
            edition: dice.pick(&[0, 1, 2, 2, 3, 255]),
        }),
        21 => Some(Command::Edition {
            edition: unknown_edition(dice),
        }),
        _ => None,
    }
}

/// Ground 19: a `46` whose line may be stated or not, at a stop that there is or not, or
/// where the line calls already.
fn any_ride(dice: &mut Dice, stated: &Stated) -> Command {
    let lines = stated.periods.len();
    let [line, stop] = match dice.below(4) {
        0 => [dice.byte(), dice.byte()],
        1 if !stated.calls.is_empty() => {
            let (line, stop, _) = dice.pick(&stated.calls);
            [line, stop]
        }
        _ => [lines + 1, STOPS + STOPS / 4].map(|bound| dice.below(bound) as u8),
    };
    let ride = any_minutes(dice, u16::MAX);
    Command::Follow { line, stop, ride }
}

/// Ground 21: 0 or above the latest.
fn unknown_edition(dice: &mut Dice) -> u8 {
    let next = LATEST_EDITION + 1;
    let any = dice.within(usize::from(next), 255) as u8;
    dice.pick(&[FIRST_EDITION - 1, next, u8::MAX, any])
}

/// A `43` or, where the edition has it, a `46`, with any offset or ride.
fn either(dice: &mut Dice, stated: &Stated, line: u8, stop: u8) -> Command {
    let minutes = any_minutes(dice, u16::MAX);
    match !stated.has_rides() || dice.once_in(2) {
        true => Command::Call {
            line,
            stop,
            offset: minutes,
        },
        false => Command::Follow {
            line,
            stop,
            ride: minutes,
        },
    }
}

/// Grounds 8 to 12, for a line that is stated.
fn faulty_call(dice: &mut Dice, stated: &Stated, ground: u8) -> Option<Command> {
    let line = dice.below(stated.periods.len()) as u8;
    if ground == 8 {
        let stop = dice.within(STOPS, 255) as u8;
        return Some(either(dice, stated, line, stop));
    }
    if ground == 9 {
        let full = |call: &&(u8, u8, u16)| stated.how_often(call.0, call.1) == MAX_CALLS_AT_STOP;
        let (line, stop, _) = *stated.calls.iter().find(full)?;
        return Some(either(dice, stated, line, stop));
    }
    let free = stated.free_stops(line);
    if free.is_empty() {
        return None;
    }
    let stop = dice.pick(&free);
    let full = stated.calls.len() == MAX_CALLS;
    match (ground, stated.latest(line)) {
        (10, _) if full => Some(either(dice, stated, line, stop)),
        (11 | 12, _) if !stated.has_rides() => None,
        (11, None) if !full => Some(Command::Follow {
            line,
            stop,
            ride: any_minutes(dice, u16::MAX),
        }),
        (12, Some(latest)) if !full && latest > 0 => {
            let least = MAX_OFFSET as usize + 1 - usize::from(latest);
            let ride = dice.within(least, usize::from(u16::MAX)) as u16;
            Some(Command::Follow { line, stop, ride })
        }
        _ => None,
    }
}

/// Ground 5: 0 or above 1,440.
fn period_out_of_range(dice: &mut Dice) -> u16 {
    let any = dice.within(MAX_PERIOD as usize + 1, usize::from(u16::MAX)) as u16;
    dice.pick(&[0, MAX_PERIOD as u16 + 1, u16::MAX, any])
}

/// Ground 6: a period in range that makes the common cycle too long.
fn too_long_a_cycle(dice: &mut Dice, stated: &Stated) -> Option<Command> {
    let period = dice.within(1, MAX_PERIOD as usize) as u16;
    let fits = (1..=MAX_CYCLE).any(|cycle| {
        let divides = |period: &u16| cycle % u32::from(*period) == 0;
        divides(&period) && stated.periods.iter().all(divides)
    });
    match fits {
        true => None,
        false => Some(Command::Line { period }),
    }
}
