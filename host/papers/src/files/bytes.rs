//! Bytes without order.

use super::dice::Dice;
use crate::sections::network::{CALL, EDITION, END, FOLLOW, LINE};

/// Random bytes.
pub fn random_bytes(dice: &mut Dice, length: usize) -> Vec<u8> {
    (0..length).map(|_| dice.byte()).collect()
}

/// Random bytes of the kind that files hold: commands and small numbers.
pub fn likely_bytes(dice: &mut Dice, length: usize) -> Vec<u8> {
    let common = [
        EDITION, LINE, CALL, FOLLOW, END, 0, 0, 0, 1, 2, 10, 60, 63, 64, 255,
    ];
    (0..length).map(|_| dice.pick(&common)).collect()
}
