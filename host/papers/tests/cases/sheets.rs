//! Sheets: their length, marks, better-of-two.

use crate::given::{all_ratings, at, hex, p1, refusal};
use papers::sections::sheets::{better_of_two, mark, mark_bytes, rate, rate_bytes, Marked};

#[test]
fn sheets_of_a_wrong_length() {
    for sheet in [&[][..], &[0], &[0, 0, 0]] {
        assert_eq!(all_ratings(&p1(), sheet), refusal(15, 0));
        assert_eq!(mark(&p1(), sheet, 21), refusal(15, 0));
        // The file comes first.
        assert_eq!(all_ratings(&[0x45], sheet), refusal(13, 0));
        assert_eq!(mark(&[0x45], sheet, 21), refusal(13, 0));
    }
}

#[test]
fn marking() {
    let decided = |sheet, equal| Marked::Decided {
        sheet,
        best: at(2, 2),
        equal,
        tries: 21,
    };
    assert_eq!(mark(&p1(), &[0, 0], 21), Ok(decided(at(1, 1), false)));
    assert_eq!(mark(&p1(), &[0, -17], 21), Ok(decided(at(2, 2), true)));
    for budget in [0, 1, 2, 20] {
        let undecided = Marked::Undecided {
            sheet: at(2, 2),
            tries: budget,
        };
        assert_eq!(mark(&p1(), &[0, -17], budget), Ok(undecided));
    }
}

#[test]
fn byte_sheets() {
    // 0 and -17, most significant byte first.
    let sheet = hex("00000000 FFFFFFEF");
    assert_eq!(rate_bytes(&p1(), &sheet), Ok(at(2, 2)));
    assert_eq!(mark_bytes(&p1(), &sheet, 21), mark(&p1(), &[0, -17], 21));
    let ends = hex("80000000 7FFFFFFF");
    let expected = rate(&p1(), &[i32::MIN, i32::MAX]);
    assert_eq!(rate_bytes(&p1(), &ends), expected);
    for length in [0, 4, 7, 9, 12] {
        let sheet = vec![0; length];
        assert_eq!(rate_bytes(&p1(), &sheet), refusal(15, 0));
        assert_eq!(mark_bytes(&p1(), &sheet, 21), refusal(15, 0));
        assert_eq!(rate_bytes(&[0x45], &sheet), refusal(13, 0));
        assert_eq!(mark_bytes(&[], &sheet, 21), refusal(1, 0));
    }
}

/// Whether two slices are the same part of the same row.
fn same_part(one: &[i32], other: &[i32]) -> bool {
    one.as_ptr() == other.as_ptr() && one.len() == other.len()
}

#[test]
fn better_of_two_hands_back_a_part() {
    let (worse, better, equal) = (vec![0, 0], vec![0, -17], vec![0, 3]);
    let (short, long) = (vec![0], vec![0, 0, 0]);
    assert!(same_part(better_of_two(&p1(), &worse, &better), &better));
    assert!(same_part(better_of_two(&p1(), &better, &worse), &better));
    assert!(same_part(better_of_two(&p1(), &better, &equal), &better));
    assert!(same_part(better_of_two(&p1(), &equal, &better), &equal));
    assert!(same_part(better_of_two(&p1(), &short, &worse), &worse));
    assert!(same_part(better_of_two(&p1(), &worse, &long), &worse));
    assert!(same_part(better_of_two(&p1(), &short, &long), &short[..0]));
    assert!(same_part(better_of_two(&p1(), &long, &short), &long[..0]));
    assert!(same_part(better_of_two(&[], &worse, &better), &worse[..0]));
}
