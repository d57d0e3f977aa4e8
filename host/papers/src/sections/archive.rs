//! Document 02, A.1, "A tidy file for the archive", and what A.6 adds to it; ground
//! 18.

use super::network::{read, Network, Refusal, CALL, EDITION, END, FIRST_EDITION, LINE};

/// The archive form of an accepted network: "lines in order, then calls by line
/// and then stop, all as `43`, then `45`"; a line's two calls at a stop by offset
/// (A.2). "Edition 1's archive form has neither `46` nor `56`. Edition 2 is archived
/// with its `56` first" (A.6).
pub fn archive_form(net: &Network) -> Vec<u8> {
    let mut form = Vec::new();
    if net.edition != FIRST_EDITION {
        form.extend([EDITION, net.edition]);
    }
    for &period in &net.periods {
        form.push(LINE);
        form.extend(two_bytes(period));
    }
    for call in &net.calls {
        form.extend([CALL, call.line as u8, call.stop as u8]);
        form.extend(two_bytes(call.offset));
    }
    form.push(END);
    form
}

/// A number of 16 bits, most significant byte first.
fn two_bytes(number: u32) -> [u8; 2] {
    [(number / 256) as u8, (number % 256) as u8]
}

/// The archive call: writes the archive form at the row's beginning. "The answer
/// is its length; bytes behind it stay, and a short row is untouched." Ground
/// 18, after the file's own: "row shorter than 3×lines + 5×calls + 1, place 0"; in
/// edition 2 its `56` "adds two bytes to the length that ground 18 tests".
pub fn archive(file: &[u8], row: &mut [u8]) -> Result<usize, Refusal> {
    let net = read(file)?;
    let opening = if net.edition == FIRST_EDITION { 0 } else { 2 };
    let length = opening + 3 * net.lines() + 5 * net.calls.len() + 1;
    if row.len() < length {
        return Err(Refusal {
            number: 18,
            place: 0,
        });
    }
    row[..length].copy_from_slice(&archive_form(&net));
    Ok(length)
}
