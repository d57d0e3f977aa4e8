//! Document 02, A.5: marks out of a hundred. Each is asked of the papers and of the
//! engine, with its search and by the best key.

use crate::given::{at, file, hex, p1, p7, p8, p9, refusal, searched};
use engine::Sheet;
use papers::answers::{marked, out_of_hundred};
use papers::sections::hundred::{by_key, by_key_bytes, hundred, Hundred};
use papers::sections::sheets::{mark, rate, Marked};

fn out_of(mark: u32, remainder: u32) -> Hundred {
    Hundred { mark, remainder }
}

/// The mark out of a hundred of a sheet under the largest budget.
fn found(file: &[u8], sheet: &[i32]) -> Hundred {
    let paper = mark(file, sheet, u32::MAX).expect("a sheet that fits");
    let handed = Sheet::of_starts(sheet);
    assert_eq!(engine::mark(file, &handed, u32::MAX), Ok(marked(paper)));
    let found = paper.hundred().expect("the largest budget");
    let (_, key) = searched(file, u32::MAX);
    assert_eq!(by_key(file, sheet, &key), Ok(found));
    let by_engine = engine::mark_by_key(file, &handed, &Sheet::of_starts(&key));
    assert_eq!(by_engine, Ok(out_of_hundred(found)));
    found
}

/// The best least gap is 3: a hundred, two hundred and nothing by 3.
#[test]
fn marks_of_p7() {
    for (sheet, least, expected) in [
        ([0, 1, 5], 1, out_of(33, 1)),
        ([0, 2, 5], 2, out_of(66, 2)),
        ([0, 0, 5], 0, out_of(0, 0)),
        ([0, 3, 6], 3, out_of(100, 0)),
        ([-7, 3, 1_000_006], 0, out_of(0, 0)),
    ] {
        assert_eq!(rate(&p7(), &sheet), Ok(at(least, least)));
        assert_eq!(found(&p7(), &sheet), expected);
    }
}

/// 500 by 12: the lone line's 12 is the best least gap, and the sheet has 5 elsewhere.
#[test]
fn marks_of_p8() {
    assert_eq!(rate(&p8(), &[0, 5, 0]), Ok(at(5, 17)));
    assert_eq!(found(&p8(), &[0, 5, 0]), out_of(41, 8));
}

/// Two lines of a day at one stop can be 720 minutes apart: 71,900 and 100 by 720.
#[test]
fn marks_of_a_day() {
    let day = file(&[1_440, 1_440], &[(0, 0, 0), (1, 0, 0)]);
    assert_eq!(found(&day, &[0, 719]), out_of(99, 620));
    assert_eq!(found(&day, &[0, 1]), out_of(0, 100));
    assert_eq!(found(&day, &[0, -720]), out_of(100, 0));
    assert_eq!(found(&day, &[0, 0]), out_of(0, 0));
}

/// "Where the best least gap is 0, the mark is 100, remainder 0", whatever the sums
/// are.
#[test]
fn a_best_least_gap_of_0() {
    let ones = file(&[1, 1], &[(0, 0, 0), (1, 0, 0)]);
    assert_eq!(found(&ones, &[0, 0]), out_of(100, 0));
    let text = "4C0001 4C0001 4C0006 4C0006 4300000000 4301000000 4300010000 4302010000 \
                4302020000 4303020000 45";
    let below = Marked::Decided {
        sheet: at(0, 0),
        best: at(0, 3),
        equal: false,
        tries: 14,
    };
    assert_eq!(mark(&hex(text), &[0, 0, 0, 0], u32::MAX), Ok(below));
    assert_eq!(found(&hex(text), &[0, 0, 0, 0]), out_of(100, 0));
}

/// A sheet with the best least gap and a smaller sum has 100 and is below.
#[test]
fn sums_do_not_enter() {
    let below = Marked::Decided {
        sheet: at(3, 10),
        best: at(3, 11),
        equal: false,
        tries: 31,
    };
    assert_eq!(mark(&p9(), &[0, 3], u32::MAX), Ok(below));
    assert_eq!(found(&p9(), &[0, 3]), out_of(100, 0));
    for sum in [0, 4, 1_000] {
        assert_eq!(hundred(at(2, sum), at(3, 5)), out_of(66, 2));
        assert_eq!(hundred(at(2, 5), at(3, sum)), out_of(66, 2));
    }
}

/// "An undecided marking has no mark."
#[test]
fn undecided_ones() {
    let of = |budget| mark(&p1(), &[0, 0], budget).expect("a sheet that fits");
    assert_eq!(of(20).hundred(), None);
    assert_eq!(of(0).hundred(), None);
    assert_eq!(of(21).hundred(), Some(out_of(50, 0)));
    let undecided = engine::mark(&p1(), &Sheet::of_starts(&[0, 0]), 20);
    assert_eq!(undecided, Ok(marked(of(20))));
}

/// Beside a key that isn't the best the mark may be above 100: it is the key's gap that
/// divides, also where it is the smaller one.
#[test]
fn keys_that_are_not_the_best() {
    assert_eq!(by_key(&p7(), &[0, 3, 6], &[0, 2, 5]), Ok(out_of(150, 0)));
    assert_eq!(by_key(&p7(), &[0, 3, 6], &[0, 1, 5]), Ok(out_of(300, 0)));
    assert_eq!(by_key(&p7(), &[0, 3, 6], &[0, 0, 5]), Ok(out_of(100, 0)));
    assert_eq!(by_key(&p7(), &[0, 0, 5], &[0, 0, 7]), Ok(out_of(100, 0)));
}

/// Ground 15 of a sheet or a key, behind the file's own.
#[test]
fn sheets_and_keys_of_a_wrong_length() {
    for (sheet, key) in [(3, 2), (2, 3), (0, 2), (2, 0), (0, 0), (1, 1)] {
        let [sheet, key] = [sheet, key].map(|starts| vec![0; starts]);
        assert_eq!(by_key(&p1(), &sheet, &key), refusal(15, 0));
        assert_eq!(by_key(&[0x45], &sheet, &key), refusal(13, 0));
    }
    for (sheet, key) in [(8, 7), (7, 8), (9, 8), (8, 9), (8, 12), (4, 4)] {
        let [sheet, key] = [sheet, key].map(|bytes| vec![0; bytes]);
        assert_eq!(by_key_bytes(&p1(), &sheet, &key), refusal(15, 0));
        assert_eq!(by_key_bytes(&[], &sheet, &key), refusal(1, 0));
    }
    assert_eq!(by_key_bytes(&p1(), &[0; 8], &[0; 8]), Ok(out_of(100, 0)));
}
