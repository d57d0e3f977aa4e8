//! P1 to P9 of document 01.

use crate::given::{all_ratings, at, file, finished, hex, net, p1, p7, p8, p9, searched, stopped};
use papers::sections::classes::{alike, classes, UNSERVED};
use papers::sections::rating::{pair_gap, stop_gap};
use papers::sections::walk::{most_tries, Answer};

#[test]
fn p1_and_p2_rate() {
    assert_eq!(p1(), hex("4C000F 4C0014 4300000008 4301000011 45"));
    assert_eq!(all_ratings(&p1(), &[0, 0]), Ok(at(1, 1)));
    assert_eq!(all_ratings(&p1(), &[0, -17]), Ok(at(2, 2)));
}

#[test]
fn p3_finishes() {
    assert_eq!(searched(&p1(), 21), (finished(2, 2, 21), vec![0, 3]));
    assert_eq!(searched(&p1(), 22), (finished(2, 2, 21), vec![0, 3]));
    assert_eq!(searched(&p1(), u32::MAX), (finished(2, 2, 21), vec![0, 3]));
    assert_eq!(most_tries(&net(&p1())), 21);
}

#[test]
fn p4_to_p6_stop() {
    assert_eq!(searched(&p1(), 20), (stopped(2, 2, 20), vec![0, 3]));
    assert_eq!(searched(&p1(), 2), (stopped(1, 1, 2), vec![0, 0]));
    let none = |tries| Answer::StoppedWithNone { tries };
    assert_eq!(searched(&p1(), 1), (none(1), vec![99, 99]));
    assert_eq!(searched(&p1(), 0), (none(0), vec![99, 99]));
}

#[test]
fn p7_three_lines_of_ten() {
    assert_eq!(searched(&p7(), 51), (finished(3, 3, 51), vec![0, 3, 6]));
    assert_eq!(searched(&p7(), 50), (stopped(3, 3, 50), vec![0, 3, 6]));
    assert_eq!(all_ratings(&p7(), &[0, 3, 6]), Ok(at(3, 3)));
}

#[test]
fn p8_a_stop_with_one_line() {
    let key = (finished(12, 42, 433), vec![0, 30, 0]);
    assert_eq!(searched(&p8(), 433), key);
    assert_eq!(searched(&p8(), 432), (stopped(12, 42, 432), vec![0, 30, 0]));
    assert_eq!(all_ratings(&p8(), &[0, 30, 0]), Ok(at(12, 42)));
}

#[test]
fn caps_by_half_divisors() {
    // Periods 15, 20 and 4: the half of 1, rounded down, is 0. By the even spacing alone it would take 89 tries.
    let three = file(&[15, 20, 4], &[(0, 0, 0), (1, 0, 0), (2, 0, 0)]);
    assert_eq!(searched(&three, 25), (finished(0, 0, 25), vec![0, 0, 0]));
    assert_eq!(searched(&three, 24), (stopped(0, 0, 24), vec![0, 0, 0]));
}

#[test]
fn p9_classes_and_search() {
    let found = classes(&net(&p9()));
    assert_eq!(found.class_row[..3], [0, 0, 2]);
    assert_eq!(found.weight_row[..3], [2, 0, 1]);
    assert!(found.class_row[3..].iter().all(|&class| class == UNSERVED));
    assert!(found.weight_row[3..].iter().all(|&weight| weight == 0));
    assert_eq!(found.count, 2);
    assert_eq!(searched(&p9(), 31), (finished(3, 11, 31), vec![0, 4]));
    assert_eq!(all_ratings(&p9(), &[0, 4]), Ok(at(3, 11)));
}

/// "Mistakes near at hand": what the named mistakes would confuse.
#[test]
fn mistakes_near_at_hand() {
    // Passing over stops with one line: the lone line's 12 is the least.
    assert_eq!(stop_gap(&net(&p8()), 1, &[0, 30, 0]), Some(12));
    // Keeping the first timetable with the best least gap: 0, 3 has it too.
    assert_eq!(all_ratings(&p9(), &[0, 3]).map(|found| found.least), Ok(3));
    assert!(all_ratings(&p9(), &[0, 3]).ok() < all_ratings(&p9(), &[0, 4]).ok());
    // Subtracting without g gives 9, forgetting g-d gives 4.
    let p1 = net(&p1());
    assert_eq!(pair_gap(&p1, p1.calls[0], p1.calls[1], &[0, 0]), 1);
    // Offset differences without remainders: 0 and -10 are alike by 10.
    assert!(alike(&net(&p9()), 0, 1));
    assert!(!alike(&net(&p9()), 0, 2));
    assert!(!alike(&net(&p9()), 0, 3));
}
