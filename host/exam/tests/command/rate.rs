//! `exam rate`.

use crate::common::{exam, Folder, HEX, NET};

#[test]
fn rate_prints_the_rating() {
    let folder = Folder::new();
    let zeros = folder.file("zeros.sheet", "0 0");
    exam(&["rate", HEX, &zeros]).printed("gap 1 sum 1\n", 0);
    let negative = folder.file("negative.txt", "0\r\n-17 # P2\r\n");
    exam(&["rate", NET, &negative]).printed("gap 2 sum 2\n", 0);
    let bytes = folder.file("bytes.bin", [0, 0, 0, 0, 0xFF, 0xFF, 0xFF, 0xEF]);
    exam(&["rate", NET, &bytes]).printed("gap 2 sum 2\n", 0);
    let ends = folder.file("ends.sheet", "2147483647 -2147483648");
    // 15 and 20: 2147483655 less -2147483631 is 4294967286, 1 more than a
    // multiple of 5.
    exam(&["rate", NET, &ends]).printed("gap 1 sum 1\n", 0);
}
