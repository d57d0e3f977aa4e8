//! Document 02, A.1, "A tidy file for the archive".

use super::network::Network;
use crate::sections::network::{CALL, END, LINE};

/// The archive form of an accepted network: "lines in order, then calls by line
/// and then stop, all as `43`, then `45`".
pub fn archive_form(net: &Network) -> Vec<u8> {
    let mut form = Vec::new();
    for &period in &net.periods {
        form.push(LINE);
        form.extend(two_bytes(period));
    }
    for (line, offsets) in net.offsets.iter().enumerate() {
        for (stop, offset) in offsets.iter().enumerate() {
            if let Some(offset) = offset {
                form.extend([CALL, line as u8, stop as u8]);
                form.extend(two_bytes(*offset));
            }
        }
    }
    form.push(END);
    form
}

/// A number of 16 bits, most significant byte first.
fn two_bytes(number: u32) -> [u8; 2] {
    [(number / 256) as u8, (number % 256) as u8]
}
