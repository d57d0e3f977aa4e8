//! Sheets, budgets and wanted gaps.

use super::dice::Dice;
use crate::sections::caps::upper_rating;
use crate::sections::network::read;

/// A start: small, negative, large or at an end of 32 signed bits.
pub fn any_start(dice: &mut Dice) -> i32 {
    match dice.below(8) {
        0 => 0,
        1 => dice.pick(&[i32::MIN, i32::MAX, i32::MIN + 1, i32::MAX - 1, -1, 1]),
        2 => dice.bits() as i32,
        3 => -(dice.below(2_000) as i32),
        4 => dice.below(20_000) as i32 - 10_000,
        _ => dice.below(60) as i32,
    }
}

/// A sheet of exactly so many starts. Some sheets hold the ends of the range
/// only.
pub fn sheet(dice: &mut Dice, lines: usize) -> Vec<i32> {
    let ends_only = dice.once_in(10);
    (0..lines)
        .map(|_| match ends_only {
            true => dice.pick(&[i32::MIN, i32::MAX]),
            false => any_start(dice),
        })
        .collect()
}

/// A sheet for so many lines that in one case out of five has a wrong length.
pub fn any_sheet(dice: &mut Dice, lines: usize) -> Vec<i32> {
    let length = match dice.below(20) {
        0 => 0,
        1 => lines + 1,
        2 => lines.saturating_sub(1),
        3 => dice.below(40),
        _ => lines,
    };
    sheet(dice, length)
}

/// A sheet as the host program hands it over: 4 bytes per start, two's
/// complement, most significant first.
pub fn sheet_bytes(sheet: &[i32]) -> Vec<u8> {
    sheet.iter().flat_map(|start| start.to_be_bytes()).collect()
}

/// A byte sheet for so many lines that now and then has a wrong length.
pub fn any_sheet_bytes(dice: &mut Dice, lines: usize) -> Vec<u8> {
    let mut bytes = sheet_bytes(&any_sheet(dice, lines));
    match dice.below(12) {
        0 => bytes.push(dice.byte()),
        1 => drop(bytes.pop()),
        _ => {}
    }
    bytes
}

/// A budget: mostly small, now and then without a bound that matters.
pub fn any_budget(dice: &mut Dice) -> u32 {
    match dice.below(8) {
        0 => dice.below(4) as u32,
        1 => dice.below(20_000) as u32,
        2 => 20_000,
        _ => dice.below(400) as u32,
    }
}

/// A wanted gap for a file: mostly one up to a minute more than the least cap of its
/// network, which no least gap exceeds; now and then any of 16 bits.
pub fn any_gap(dice: &mut Dice, file: &[u8]) -> u16 {
    let least_cap = read(file).map_or(0, |net| upper_rating(&net, 0, &[]).least);
    match dice.below(8) {
        0 => dice.pick(&[0, 1_439, 1_440, 1_441, u16::MAX - 1, u16::MAX]),
        1 => dice.bits() as u16,
        _ => dice.within(0, least_cap as usize + 1) as u16,
    }
}
