//! Files of every kind.

use super::bytes::{likely_bytes, random_bytes};
use super::damaged::damaged_file;
use super::dice::Dice;
use super::faulty::{faulty_file, GROUNDS};
use super::large::{limit_file, very_long_file};
use super::valid::valid_file;

/// A file of any content and length; about half of them are valid.
pub fn any_file(dice: &mut Dice) -> Vec<u8> {
    match dice.below(200) {
        0..=99 => valid_file(dice),
        100..=139 => damaged_file(dice),
        140..=169 => {
            let ground = dice.pick(&GROUNDS);
            faulty_file(dice, ground).bytes
        }
        170..=179 => limit_file(dice),
        180..=187 => {
            let length = dice.below(40);
            random_bytes(dice, length)
        }
        188..=196 => {
            let length = dice.below(40);
            likely_bytes(dice, length)
        }
        197 => very_long_file(dice),
        _ => Vec::new(),
    }
}
