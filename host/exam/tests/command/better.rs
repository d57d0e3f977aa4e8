//! `exam better`.

use crate::common::{exam, Folder, HEX};

#[test]
fn better_prints_which() {
    let folder = Folder::new();
    let zeros = folder.file("zeros.sheet", "0 0");
    let good = folder.file("good.sheet", "0 3");
    let short = folder.file("short.sheet", "0");
    let odd = folder.file("odd.bin", [0, 0, 0, 0, 0]);
    exam(&["better", HEX, &good, &zeros]).printed("first\n", 0);
    exam(&["better", HEX, &zeros, &good]).printed("second\n", 0);
    exam(&["better", HEX, &good, &good]).said("first\n", 0, "exam: both sheets have gap 2 sum 2\n");
    let words = "exam: the first sheet hasn't one start for each line\n  \
                 lines: 2; sheet: 1 starts; other sheet: 2 starts\n";
    exam(&["better", HEX, &short, &zeros]).said("second\n", 0, words);
    let words = "exam: the second sheet hasn't one start for each line\n  \
                 lines: 2; sheet: 2 starts; other sheet: 5 bytes, 4 being a start\n";
    exam(&["better", HEX, &zeros, &odd]).said("first\n", 0, words);
    let lengths = "lines: 2; sheet: 1 starts; other sheet: 5 bytes";
    exam(&["better", HEX, &short, &odd]).told("neither\n", 1, &["one start for each", lengths]);
    let bad = folder.file("bad.hex", "4C05A1");
    let pieces = ["refused 5 at 0: the period isn't 1 to 1,440"];
    exam(&["better", &bad, &good, &zeros]).told("neither\n", 1, &pieces);
}
