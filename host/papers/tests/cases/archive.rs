//! The archive form.

use crate::given::{file, hex, net, p1, refusal};
use papers::sections::archive::{archive, archive_form};

/// The archive form of an accepted file.
fn archived(file: &[u8]) -> Vec<u8> {
    archive_form(&net(file))
}

#[test]
fn archive_forms_by_hand() {
    let tidy = "4C000F 4C0014 4300000008 4301000011 45";
    let cases = [
        // A tidy file.
        (tidy, tidy),
        // A line stated behind another's call.
        ("4C000F 4300000008 4C0014 4301000011 45", tidy),
        // By line first and then by stop.
        (
            "4C000F 4C0014 4301000011 4300050008 4300000001 45",
            "4C000F 4C0014 4300000001 4300050008 4301000011 45",
        ),
        // `46` counts in file order: 100, 101, 7, 65,535.
        (
            "4C003C 4300090064 4600010001 4300040007 460000FFF8 45",
            "4C003C 430000FFFF 4300010065 4300040007 4300090064 45",
        ),
    ];
    for (typed, form) in cases {
        assert_eq!(archived(&hex(typed)), hex(form));
        assert_eq!(archived(&hex(form)), hex(form));
    }
}

/// Lines in another order are another network, and offsets are those stated,
/// not their remainders.
#[test]
fn networks_that_are_two() {
    let two = file(&[15, 20], &[(0, 0, 8), (1, 0, 17)]);
    let exchanged = file(&[20, 15], &[(0, 0, 17), (1, 0, 8)]);
    assert_ne!(archived(&two), archived(&exchanged));
    let (early, late) = (file(&[15], &[(0, 0, 8)]), file(&[15], &[(0, 0, 23)]));
    assert_ne!(archived(&early), archived(&late));
}

/// Ground 18, after the file's: a row of exactly the length is enough, a shorter
/// one stays, and so do the bytes behind.
#[test]
fn archive_rows() {
    for length in 0..=30 {
        let mut row = vec![0xEE; length];
        let answer = archive(&p1(), &mut row);
        if length < 17 {
            assert_eq!((answer, row), (refusal(18, 0), vec![0xEE; length]));
        } else {
            let behind = vec![0xEE; length - 17];
            assert_eq!((answer, row), (Ok(17), [p1(), behind].concat()));
        }
        let mut row = vec![0xEE; length];
        assert_eq!(archive(&p1()[..16], &mut row), refusal(1, 16));
        assert_eq!(row, vec![0xEE; length]);
    }
    // The shortest and the longest.
    assert_eq!(archived(&file(&[15], &[(0, 0, 8)])).len(), 9);
    let calls: Vec<(u8, u8, u16)> = (0..256)
        .map(|call| (call as u8 % 16, call as u8 / 16, 65_535 - call))
        .collect();
    assert_eq!(archived(&file(&[60; 16], &calls)).len(), 1_329);
}
