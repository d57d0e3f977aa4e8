//! Accepted files with some damage.

use super::bytes::likely_bytes;
use super::dice::Dice;
use super::valid::valid_file;
use crate::sections::network::EDITION;

/// A valid file with some damage. It may by chance still be valid.
pub fn damaged_file(dice: &mut Dice) -> Vec<u8> {
    let mut bytes = valid_file(dice);
    for _ in 0..dice.pick(&[1, 1, 1, 2, 3]) {
        damage(dice, &mut bytes);
    }
    bytes
}

/// One damage to a file.
fn damage(dice: &mut Dice, bytes: &mut Vec<u8>) {
    if bytes.is_empty() {
        bytes.push(dice.byte());
        return;
    }
    let at = dice.below(bytes.len());
    let other = dice.below(bytes.len());
    match dice.below(10) {
        0 => bytes[at] = dice.byte(),
        1 => bytes[at] ^= 1 << dice.below(8),
        2 => bytes[at] = likely_bytes(dice, 1)[0],
        3 => drop(bytes.remove(at)),
        4 => bytes.insert(at, dice.byte()),
        5 => bytes.truncate(at),
        6 => bytes.swap(at, other),
        7 => bytes.push(dice.byte()),
        // An edition, as a rule not where it belongs.
        8 => drop(bytes.splice(at..at, [EDITION, dice.pick(&[0, 1, 2, 2, 3])])),
        _ => {
            // A stretch of the file stands there twice.
            let stretch = bytes[at.min(other)..=at.max(other)].to_vec();
            bytes.splice(at..at, stretch);
        }
    }
}
