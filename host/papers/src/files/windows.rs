//! Windows of boards, and the network whose board is the fullest.

use super::commands::{bytes_of, Command};
use super::dice::Dice;
use super::sheets::any_start;
use crate::sections::board::{Window, MAX_LENGTH};
use crate::sections::network::{read, MAX_CALLS_AT_STOP, MAX_LINES, STOPS};

/// A window that no network refuses, for a file: mostly of a stop that is served, and
/// mostly short.
pub fn window(dice: &mut Dice, file: &[u8]) -> Window {
    let served = read(file).map_or(Vec::new(), |net| net.served_stops());
    let stop = match served.is_empty() || dice.once_in(8) {
        true => dice.below(STOPS),
        false => dice.pick(&served),
    };
    let length = match dice.below(24) {
        0 => 0,
        1 => 1,
        2 => MAX_LENGTH as usize,
        3 => dice.within(0, MAX_LENGTH as usize),
        _ => dice.below(200),
    };
    Window {
        stop: stop as u32,
        first: any_start(dice),
        length: length as u32,
    }
}

/// A window that now and then is refused: by its stop, which may be one that is served
/// but for bits above the 8 or 16 lowest ones, by its length, or by both.
pub fn any_window(dice: &mut Dice, file: &[u8]) -> Window {
    let mut window = window(dice, file);
    let kind = dice.below(12);
    if kind <= 1 {
        let above = dice.pick(&[64, 192, 256, 65_536, 1 << 31]);
        let any = dice.pick(&[64, 65, 255, 256, u32::MAX]);
        window.stop = dice.pick(&[window.stop + above, any]);
    }
    if (1..=2).contains(&kind) {
        let next = MAX_LENGTH + 1;
        let above = dice.pick(&[MAX_LENGTH + 1, 16_384, 65_536, 1 << 31]);
        window.length = dice.pick(&[next, u32::MAX, window.length + above]);
    }
    window
}

/// Every line calls twice at one stop, every minute: no board has more arrivals. The
/// offsets of a line may be equal, and one that is later is typed first.
pub fn fullest_file() -> Vec<u8> {
    let lines = vec![Command::Line { period: 1 }; MAX_LINES];
    let calls = (0..MAX_LINES * MAX_CALLS_AT_STOP).map(|call| Command::Call {
        line: (call % MAX_LINES) as u8,
        stop: 63,
        offset: 65_535 - (call / 24) as u16,
    });
    let calls: Vec<Command> = calls.collect();
    bytes_of(&[lines, calls, vec![Command::End]].concat())
}
