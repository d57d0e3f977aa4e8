//! Document 01, "Gap and rating" and "Sheets": the gap of each stop under a sheet, of which
//! the rating is made, by a call of its own; ground 15.

use super::network::{Network, Refusal, STOPS};
use super::rating::{gap_by_counting, rating, whole, Rating};
use super::sheets::{read_both, read_both_bytes};

/// The row's entry for an unserved stop: "A stop with no call is unserved and counts
/// nowhere."
pub const NO_GAP: u16 = 65_535;

/// The call: fills the row and returns the rating. It refuses as rate does, and then leaves
/// the row as it was.
pub fn gaps(file: &[u8], sheet: &[i32], gap_row: &mut [u16; STOPS]) -> Result<Rating, Refusal> {
    let net = read_both(file, sheet)?;
    let starts = whole(sheet);
    *gap_row = row_by_counting(&net, &starts);
    Ok(rating(&net, &starts))
}

/// The same, the sheet as bytes.
pub fn gaps_bytes(
    file: &[u8],
    sheet: &[u8],
    gap_row: &mut [u16; STOPS],
) -> Result<Rating, Refusal> {
    let starts = read_both_bytes(file, sheet)?;
    gaps(file, &starts, gap_row)
}

/// The row, by counting the arrivals of one common cycle. The rating beside it is by
/// theorem 3.1.2, so that neither is made of the other.
pub fn row_by_counting(net: &Network, starts: &[i64]) -> [u16; STOPS] {
    let gap = |stop| gap_by_counting(net, stop, starts);
    // No gap is above 1,440, the longest period.
    std::array::from_fn(|stop| gap(stop).map_or(NO_GAP, |gap| gap as u16))
}
