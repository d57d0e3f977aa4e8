//! `exam read`.

use crate::common::{exam, HEX, NET};

#[test]
fn read_prints_the_counts() {
    for network in [NET, HEX] {
        exam(&["read", network]).printed("lines 2 stops 1 calls 2 cycle 60\n", 0);
    }
    exam(&["read", "samples/town.hex"]).printed("lines 9 stops 20 calls 36 cycle 20\n", 0);
}
