//! Full files, files at the limits, and very long files.

use super::bytes::{likely_bytes, random_bytes};
use super::commands::{bytes_of, Command};
use super::dice::Dice;
use super::valid::{opening, valid_commands, valid_file};
use crate::sections::network::{FIRST_EDITION, LATEST_EDITION, MAX_CALLS};

/// A network of exactly so many lines and stops, with as many calls as the
/// limit of 256 allows, for measuring the walk. Few lines get long periods, so
/// that there are starts enough.
pub fn dense_file(dice: &mut Dice, lines: usize, stops: usize) -> Vec<u8> {
    let pool: [u16; 5] = match lines {
        0..=4 => [240, 360, 480, 720, 1_440],
        5..=8 => [40, 60, 80, 120, 240],
        _ => [20, 30, 40, 60, 120],
    };
    let per_line = stops.min(MAX_CALLS / lines);
    let mut commands: Vec<Command> = (0..lines)
        .map(|_| Command::Line {
            period: dice.pick(&pool),
        })
        .collect();
    for line in 0..lines {
        // Line after line the calls go round the stops, so that none is left
        // out.
        for place in 0..per_line {
            commands.push(Command::Call {
                line: line as u8,
                stop: ((line * per_line + place) % stops) as u8,
                offset: dice.below(120) as u16,
            });
        }
    }
    commands.push(Command::End);
    bytes_of(&commands)
}

/// What a file may begin with: no edition, or each of those that are known.
pub fn openings() -> Vec<Option<u8>> {
    let known = (FIRST_EDITION..=LATEST_EDITION).map(Some);
    std::iter::once(None).chain(known).collect()
}

/// The longest file that begins so: 16 lines, 256 calls in any order and the end,
/// 1,329 bytes, and two more for an edition.
pub fn longest_file(dice: &mut Dice, edition: Option<u8>) -> Vec<u8> {
    let period = dice.pick(&[12, 60, 1_440]);
    let mut calls: Vec<Command> = (0..=255u8)
        .map(|call| Command::Call {
            line: call / 16,
            stop: call % 16,
            offset: dice.below(1_440) as u16,
        })
        .collect();
    dice.shuffle(&mut calls);
    let opening = edition.map(|edition| Command::Edition { edition });
    let lines = vec![Command::Line { period }; 16];
    let opening: Vec<Command> = opening.into_iter().collect();
    bytes_of(&[opening, lines, calls, vec![Command::End]].concat())
}

/// A file at one of the limits or beyond it: of lines, periods, the cycle,
/// stops, calls or offsets, now and then in edition 2.
pub fn limit_file(dice: &mut Dice) -> Vec<u8> {
    let lines = dice.pick(&[1, 4, 4, 5, 5, 8, 15, 16, 16, 17]);
    let stops = dice.pick(&[1, 2, 15, 16, 17, 32, 51, 52, 63, 64, 65]);
    let period = dice.pick(&[1, 7, 60, 60, 1_439, 1_440, 1_440, 1_441]);
    let mut commands = opening(dice);
    commands.extend((0..lines).map(|_| Command::Line {
        period: match dice.below(60) {
            0 => dice.pick(&[0, 7, 11, 1_440, 1_441]),
            _ => period,
        },
    }));
    for line in 0..lines as u8 {
        for stop in 0..stops as u8 {
            let offset = dice.pick(&[0, 1, 59, 32_768, 65_534, 65_535]);
            // Now and then a line comes back to a stop, once or twice.
            for _ in 0..if dice.once_in(100) {
                dice.within(2, 3)
            } else {
                1
            } {
                commands.push(match dice.below(200) {
                    0 => Command::Follow {
                        line,
                        stop,
                        ride: offset,
                    },
                    _ => Command::Call { line, stop, offset },
                });
            }
        }
    }
    commands.push(Command::End);
    bytes_of(&commands)
}

/// A file of some ten thousand bytes or more.
pub fn very_long_file(dice: &mut Dice) -> Vec<u8> {
    let length = dice.within(10_000, 70_000);
    let mut bytes = match dice.below(4) {
        0 => valid_file(dice),
        1 => {
            let mut commands = valid_commands(dice);
            commands.pop();
            bytes_of(&commands)
        }
        _ => Vec::new(),
    };
    let more = match dice.below(3) {
        0 => random_bytes(dice, length),
        1 => likely_bytes(dice, length),
        _ => Command::Line { period: 60 }.bytes().repeat(length / 3 + 1),
    };
    bytes.extend(more);
    bytes
}
