//! Document 01, "Sheets"; ground 15.

use super::classes::weighted_rating;
use super::network::{read, Network, Refusal};
use super::rating::{rating, rating_by_counting, whole, Rating};
use super::walk::{walk, Answer};

/// Ground 15, place 0, after the file: "sheet's length isn't the number of
/// lines".
const WRONG_LENGTH: Refusal = Refusal {
    number: 15,
    place: 0,
};

/// What marking answers.
#[derive(Clone, Copy, Debug, PartialEq, Eq)]
pub enum Marked {
    /// "the sheet's rating, the best rating, whether they are equal, and the
    /// tries"
    Decided {
        sheet: Rating,
        best: Rating,
        equal: bool,
        tries: u32,
    },
    /// "if the search stops, undecided, with the sheet's rating and the tries"
    Undecided { sheet: Rating, tries: u32 },
}

impl Marked {
    /// The mark of a sheet of this rating after a search.
    pub fn by(sheet: Rating, searched: Answer) -> Marked {
        match searched {
            Answer::Finished { best, tries } => Marked::Decided {
                sheet,
                best,
                equal: sheet == best,
                tries,
            },
            Answer::Stopped { tries, .. } | Answer::StoppedWithNone { tries } => {
                Marked::Undecided { sheet, tries }
            }
        }
    }
}

/// Reads the file, then tests the sheet's length.
pub(super) fn read_both(file: &[u8], sheet: &[i32]) -> Result<Network, Refusal> {
    let net = read(file)?;
    match sheet.len() == net.lines() {
        true => Ok(net),
        false => Err(WRONG_LENGTH),
    }
}

/// Rate: "takes a sheet of starts and returns its rating".
pub fn rate(file: &[u8], sheet: &[i32]) -> Result<Rating, Refusal> {
    let net = read_both(file, sheet)?;
    Ok(rating(&net, &whole(sheet)))
}

/// Rate with the arrivals counted, to be compared with [`rate`].
pub fn rate_by_counting(file: &[u8], sheet: &[i32]) -> Result<Rating, Refusal> {
    let net = read_both(file, sheet)?;
    Ok(rating_by_counting(&net, &whole(sheet)))
}

/// The weighted rating, "a call on a file and a sheet that refuses as rate
/// does" ("Classes of stops").
pub fn weighted_rate(file: &[u8], sheet: &[i32]) -> Result<Rating, Refusal> {
    let net = read_both(file, sheet)?;
    Ok(weighted_rating(&net, &whole(sheet)))
}

/// Better-of-two: "hands back the better as a part of the caller's own row; the
/// first if equal; a sheet of the wrong length loses to one that fits; if
/// neither fits or the file is refused, the empty part at the first one's
/// beginning".
pub fn better_of_two<'a>(file: &[u8], first: &'a [i32], second: &'a [i32]) -> &'a [i32] {
    match (rate(file, first), rate(file, second)) {
        (Ok(one), Ok(other)) if other > one => second,
        (Ok(_), _) => first,
        (Err(_), Ok(_)) => second,
        (Err(_), Err(_)) => &first[..0],
    }
}

/// Mark: "takes a sheet and a budget".
pub fn mark(file: &[u8], sheet: &[i32], budget: u32) -> Result<Marked, Refusal> {
    let net = read_both(file, sheet)?;
    let sheet = rating(&net, &whole(sheet));
    Ok(Marked::by(sheet, walk(&net, budget).answer))
}

/// Rate as the hall's host program calls it, the sheet as bytes.
pub fn rate_bytes(file: &[u8], sheet: &[u8]) -> Result<Rating, Refusal> {
    let starts = read_both_bytes(file, sheet)?;
    rate(file, &starts)
}

/// Mark as the hall's host program calls it, the sheet as bytes.
pub fn mark_bytes(file: &[u8], sheet: &[u8], budget: u32) -> Result<Marked, Refusal> {
    let starts = read_both_bytes(file, sheet)?;
    mark(file, &starts, budget)
}

/// The weighted rating, the sheet as bytes.
pub fn weighted_bytes(file: &[u8], sheet: &[u8]) -> Result<Rating, Refusal> {
    let starts = read_both_bytes(file, sheet)?;
    weighted_rate(file, &starts)
}

/// Which of two sheets is the better.
#[derive(Clone, Copy, Debug, PartialEq, Eq)]
pub enum Better {
    First,
    Second,
    Neither,
}

/// Better-of-two, the sheets as bytes.
pub fn better_bytes(file: &[u8], first: &[u8], second: &[u8]) -> Better {
    match (rate_bytes(file, first), rate_bytes(file, second)) {
        (Ok(one), Ok(other)) if other > one => Better::Second,
        (Ok(_), _) => Better::First,
        (Err(_), Ok(_)) => Better::Second,
        (Err(_), Err(_)) => Better::Neither,
    }
}

/// Reads the file, then takes the byte sheet apart: "a byte count other than
/// 4×lines is ground 15".
pub(super) fn read_both_bytes(file: &[u8], sheet: &[u8]) -> Result<Vec<i32>, Refusal> {
    let net = read(file)?;
    match sheet.len() == 4 * net.lines() {
        true => Ok(starts_from_bytes(sheet)),
        false => Err(WRONG_LENGTH),
    }
}

/// "4 bytes per start, two's complement, most significant first"
fn starts_from_bytes(sheet: &[u8]) -> Vec<i32> {
    sheet
        .chunks_exact(4)
        .map(|start| i32::from_be_bytes([start[0], start[1], start[2], start[3]]))
        .collect()
}
