//! Commands, their bytes and what they state.

use crate::sections::network::{CALL, EDITION, END, FIRST_EDITION, FOLLOW, LINE, STOPS};

/// One command of a file.
#[derive(Clone, Copy, Debug, PartialEq, Eq)]
pub enum Command {
    Edition { edition: u8 },
    Line { period: u16 },
    Call { line: u8, stop: u8, offset: u16 },
    Follow { line: u8, stop: u8, ride: u16 },
    End,
}

impl Command {
    /// The bytes of the command.
    pub fn bytes(self) -> Vec<u8> {
        match self {
            Command::Edition { edition } => vec![EDITION, edition],
            Command::Line { period } => [vec![LINE], period.to_be_bytes().to_vec()].concat(),
            Command::Call { line, stop, offset } => {
                [vec![CALL, line, stop], offset.to_be_bytes().to_vec()].concat()
            }
            Command::Follow { line, stop, ride } => {
                [vec![FOLLOW, line, stop], ride.to_be_bytes().to_vec()].concat()
            }
            Command::End => vec![END],
        }
    }
}

/// The bytes of a run of commands.
pub fn bytes_of(commands: &[Command]) -> Vec<u8> {
    commands
        .iter()
        .flat_map(|command| command.bytes())
        .collect()
}

/// A file of these periods and these calls (line, stop, offset).
pub fn file_of(periods: &[u16], calls: &[(u8, u8, u16)]) -> Vec<u8> {
    let lines = periods.iter().map(|&period| Command::Line { period });
    let calls = calls
        .iter()
        .map(|&(line, stop, offset)| Command::Call { line, stop, offset });
    let commands: Vec<Command> = lines.chain(calls).chain([Command::End]).collect();
    bytes_of(&commands)
}

/// What a run of commands, each of them in order, has stated.
#[derive(Clone, Debug, PartialEq, Eq)]
pub struct Stated {
    pub edition: u8,
    /// The periods of the lines.
    pub periods: Vec<u16>,
    /// Line, stop and offset of each call, in file order.
    pub calls: Vec<(u8, u8, u16)>,
}

impl Default for Stated {
    fn default() -> Stated {
        Stated {
            edition: FIRST_EDITION,
            periods: Vec::new(),
            calls: Vec::new(),
        }
    }
}

impl Stated {
    /// What a run of commands in order has stated.
    pub fn by(commands: &[Command]) -> Stated {
        let mut stated = Stated::default();
        for &command in commands {
            stated.add(command);
        }
        stated
    }

    pub(super) fn add(&mut self, command: Command) {
        match command {
            Command::Edition { edition } => self.edition = edition,
            Command::Line { period } => self.periods.push(period),
            Command::Call { line, stop, offset } => self.calls.push((line, stop, offset)),
            Command::Follow { line, stop, ride } => {
                let latest = self.latest(line).expect("an earlier call of the line");
                self.calls.push((line, stop, latest + ride));
            }
            Command::End => {}
        }
    }

    /// Whether a call may be counted from the line's latest one.
    pub fn has_rides(&self) -> bool {
        self.edition == FIRST_EDITION
    }

    /// The offset of a line's latest call.
    pub fn latest(&self, line: u8) -> Option<u16> {
        let of_line = self.calls.iter().rev().find(|call| call.0 == line);
        of_line.map(|call| call.2)
    }

    /// How often a line calls at a stop.
    pub fn how_often(&self, line: u8, stop: u8) -> usize {
        self.calls
            .iter()
            .filter(|call| (call.0, call.1) == (line, stop))
            .count()
    }

    /// Whether some line calls at some stop twice.
    pub fn has_loop(&self) -> bool {
        let twice = |call: &(u8, u8, u16)| self.how_often(call.0, call.1) > 1;
        self.calls.iter().any(twice)
    }

    /// The stops at which a line doesn't call.
    pub fn free_stops(&self, line: u8) -> Vec<u8> {
        (0..STOPS as u8)
            .filter(|&stop| self.how_often(line, stop) == 0)
            .collect()
    }

    /// The lines that have no call.
    pub fn silent_lines(&self) -> Vec<u8> {
        (0..self.periods.len() as u8)
            .filter(|&line| self.latest(line).is_none())
            .collect()
    }
}
