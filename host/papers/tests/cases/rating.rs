//! Ratings at the ends of what is allowed.

use crate::given::{all_ratings, at, file, finished, net, p1, searched};
use papers::sections::classes::classes;
use papers::sections::rating::{rating, rating_by_counting};
use papers::sections::walk::{most_tries, Answer};

#[test]
fn starts_at_the_ends_of_32_bits() {
    let bytes = file(&[1_440, 7, 60], &[(0, 0, 65_535), (1, 0, 0), (2, 0, 1)]);
    let starts = [i32::MIN, i32::MAX, -1, 0, 1];
    for a in starts {
        for b in starts {
            for c in starts {
                all_ratings(&bytes, &[a, b, c]).expect("a rating");
            }
        }
    }
    // By hand: 7 and the others have g = 1, so the stop's gap is 0.
    assert_eq!(all_ratings(&bytes, &[i32::MIN, i32::MAX, 0]), Ok(at(0, 0)));
    // 2^31 leaves 8 by 60 (2,147,483,640 is 35,791,394 times 60), so MIN leaves
    // 52 and MAX leaves 7: a difference of 45, which is 15 away.
    let two = file(&[60, 60], &[(0, 0, 0), (1, 0, 0)]);
    assert_eq!(all_ratings(&two, &[i32::MIN, i32::MAX]), Ok(at(15, 15)));
    assert_eq!(all_ratings(&two, &[i32::MIN, 0]), Ok(at(8, 8)));
    assert_eq!(all_ratings(&two, &[i32::MAX, 0]), Ok(at(7, 7)));
}

#[test]
fn whole_number_starts_of_any_size() {
    let net = net(&p1());
    for start in [i64::MIN, i64::MAX, -1_000_000_000_007, 1 << 40] {
        let small = start.rem_euclid(60);
        let one = rating(&net, &[start, -5]);
        assert_eq!(one, rating(&net, &[small, -5]));
        assert_eq!(one, rating_by_counting(&net, &[start, -5]));
    }
}

#[test]
fn one_line_has_its_period_at_each_stop() {
    let bytes = file(&[1_440], &[(0, 3, 0), (0, 5, 7), (0, 63, 65_535)]);
    assert_eq!(all_ratings(&bytes, &[i32::MIN]), Ok(at(1_440, 4_320)));
    let key = (finished(1_440, 4_320, 1), vec![0]);
    assert_eq!(searched(&bytes, 1), key);
    assert_eq!(
        searched(&bytes, 0),
        (Answer::StoppedWithNone { tries: 0 }, vec![99])
    );
    assert_eq!(most_tries(&net(&bytes)), 1);
    assert_eq!(classes(&net(&bytes)).weight_row[3], 3);
    assert_eq!(classes(&net(&bytes)).count, 1);
}

#[test]
fn period_one_leaves_no_gap() {
    let bytes = file(&[1, 60], &[(0, 0, 0), (1, 0, 30), (1, 1, 0)]);
    assert_eq!(all_ratings(&bytes, &[0, 17]), Ok(at(0, 60)));
    // The first full timetable reaches the caps, so all other tries are dropped.
    assert_eq!(searched(&bytes, 61), (finished(0, 60, 61), vec![0, 0]));
}
