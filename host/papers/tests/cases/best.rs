//! What the program `best` prints.

use crate::given::{file, hex, p1, p7};
use papers::sections::best::best;

#[test]
fn what_best_prints() {
    let p1 = hex("4C000F 4C0014 4300000008 4301000011 45");
    assert_eq!(best(&p1), "gap 2 sum 2 tries 21 starts 0 3\n");
    let refused = file(&[1_441], &[(0, 0, 0)]);
    assert_eq!(best(&refused), "refused 5 at 0\n");
    assert_eq!(best(&[]), "refused 1 at 0\n");
    assert_eq!(best(&p7()), "gap 3 sum 3 tries 51 starts 0 3 6\n");
}

#[test]
fn best_reads_4096_bytes() {
    let mut input = p1();
    input.resize(5_000, 0);
    assert_eq!(best(&input), "refused 14 at 17\n");
    // The longest accepted file has 2 + 16×3 + 256×5 + 1 = 1,331 bytes, so a longer
    // input is refused in any case; bytes beyond 4,096 change nothing.
    let mut long = vec![0x4C; 4_096];
    let printed = best(&long);
    long.extend([1, 2, 3]);
    assert_eq!(best(&long), printed);
}

#[test]
fn best_stops_after_a_million() {
    // Caps that no timetable reaches, and a great many starts.
    let mut calls = Vec::new();
    for line in 0..8u16 {
        for stop in 0..8u16 {
            let minutes = line * line * stop * 7 % 60;
            calls.push((line as u8, stop as u8, minutes));
        }
    }
    let line = best(&file(&[60; 8], &calls));
    assert!(line.starts_with("stopped gap "), "{line}");
    assert!(line.contains(" tries 1000000 starts 0 "), "{line}");
}
