//! Document 02, A.5, "Marks out of a hundred".

use super::network::Refusal;
use super::rating::Rating;
use super::sheets::{rate, rate_bytes, Marked};

/// "the mark as a whole number with its exact remainder". The order of the fields is
/// the order of ranks.
#[derive(Clone, Copy, Debug, PartialEq, Eq, PartialOrd, Ord)]
pub struct Hundred {
    pub mark: u32,
    pub remainder: u32,
}

/// "the whole part of 100×(sheet's least gap) / (best least gap), with the remainder":
/// how often the best one fits into a hundred of the sheet's, and what is left.
pub fn hundred(sheet: Rating, best: Rating) -> Hundred {
    // "Where the best least gap is 0, the mark is 100, remainder 0."
    if best.least == 0 {
        return Hundred {
            mark: 100,
            remainder: 0,
        };
    }
    let mut mark = 0;
    let mut left: u32 = [sheet.least; 100].iter().sum();
    while left >= best.least {
        left -= best.least;
        mark += 1;
    }
    Hundred {
        mark,
        remainder: left,
    }
}

impl Marked {
    /// "An undecided marking has no mark."
    pub fn hundred(&self) -> Option<Hundred> {
        match *self {
            Marked::Decided { sheet, best, .. } => Some(hundred(sheet, best)),
            Marked::Undecided { .. } => None,
        }
    }
}

/// The mark beside a key, whose rating is taken for the best one.
pub fn by_key(file: &[u8], sheet: &[i32], key: &[i32]) -> Result<Hundred, Refusal> {
    Ok(hundred(rate(file, sheet)?, rate(file, key)?))
}

/// The same, sheet and key as bytes.
pub fn by_key_bytes(file: &[u8], sheet: &[u8], key: &[u8]) -> Result<Hundred, Refusal> {
    Ok(hundred(rate_bytes(file, sheet)?, rate_bytes(file, key)?))
}
