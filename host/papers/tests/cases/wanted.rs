//! Document 02, A.3: from a wanted gap to a timetable.

use crate::given::{at, file, finished, hex, net, p1, p7, p8, p9, refusal, searched};
use papers::sections::sheets::rate;
use papers::sections::wanted::{wanted, Wanted};

/// The answer of the call and the start row, which held 99 before.
fn sought(file: &[u8], gap: u16, budget: u32) -> (Wanted, Vec<i32>) {
    let mut row = vec![99; net(file).lines()];
    let answer = wanted(file, &mut row, gap, budget).expect("an accepted file");
    (answer, row)
}

fn found(tries: u32, starts: &[i32]) -> (Wanted, Vec<i32>) {
    (Wanted::Found { tries }, starts.to_vec())
}

fn none(tries: u32, lines: usize) -> (Wanted, Vec<i32>) {
    (Wanted::None { tries }, vec![99; lines])
}

fn stopped(tries: u32, lines: usize) -> (Wanted, Vec<i32>) {
    (Wanted::Stopped { tries }, vec![99; lines])
}

#[test]
fn gaps_of_p1() {
    for budget in [5, 6, u32::MAX] {
        assert_eq!(sought(&p1(), 2, budget), found(5, &[0, 3]));
    }
    for budget in 0..5 {
        assert_eq!(sought(&p1(), 2, budget), stopped(budget, 2));
    }
    assert_eq!(sought(&p1(), 1, 2), found(2, &[0, 0]));
    assert_eq!(sought(&p1(), 1, 1), stopped(1, 2));
    assert_eq!(sought(&p1(), 3, u32::MAX), none(1, 2));
    assert_eq!(sought(&p1(), 3, 1), none(1, 2));
    assert_eq!(sought(&p1(), 3, 0), stopped(0, 2));
}

/// "A wanted gap of 0 yields a timetable whenever the budget is at least the number
/// of lines."
#[test]
fn a_gap_of_0() {
    for file in [p1(), p7(), p8(), p9()] {
        let lines = net(&file).lines();
        let first = vec![0; lines];
        for budget in [lines as u32, lines as u32 + 1, u32::MAX] {
            assert_eq!(sought(&file, 0, budget), found(lines as u32, &first));
        }
        for budget in 0..lines as u32 {
            assert_eq!(sought(&file, 0, budget), stopped(budget, lines));
        }
    }
}

/// The first timetable of the least gap that the best one has, not the best: by
/// the sum 0, 4 is above 0, 3.
#[test]
fn sums_play_no_part() {
    assert_eq!(sought(&p9(), 3, u32::MAX), found(5, &[0, 3]));
    assert_eq!(rate(&p9(), &[0, 3]), Ok(at(3, 10)));
    assert_eq!(searched(&p9(), u32::MAX), (finished(3, 11, 31), vec![0, 4]));
    assert_eq!(sought(&p9(), 4, u32::MAX), none(31, 2));
    assert_eq!(sought(&p9(), 4, 31), none(31, 2));
    assert_eq!(sought(&p9(), 4, 30), stopped(30, 2));
}

/// "Lone stops count": the line of 12 has a stop to itself.
#[test]
fn lone_stops_count() {
    assert_eq!(sought(&p8(), 13, u32::MAX), none(1, 3));
    assert_eq!(sought(&p8(), 12, u32::MAX), found(15, &[0, 12, 0]));
    assert_eq!(sought(&p8(), 12, 14), stopped(14, 3));
    let one_line = hex("4C000F 4300000008 45");
    assert_eq!(sought(&one_line, 15, 1), found(1, &[0]));
    assert_eq!(sought(&one_line, 16, 1), none(1, 1));
}

/// The budget is used up by the try after which none is due.
#[test]
fn none_with_the_last_try_of_the_budget() {
    let four = file(&[4, 4], &[(0, 0, 0), (1, 0, 0), (0, 1, 0), (1, 1, 1)]);
    for budget in [5, 6, u32::MAX] {
        assert_eq!(sought(&four, 2, budget), none(5, 2));
    }
    assert_eq!(sought(&four, 2, 4), stopped(4, 2));
    // Both stops may have 2, but not both at once.
    assert_eq!(sought(&four, 1, u32::MAX), found(3, &[0, 1]));
}

/// A gap above some stop's cap is none after one try.
#[test]
fn gaps_above_a_cap() {
    for file in [p1(), p7(), p8(), p9()] {
        let lines = net(&file).lines();
        for gap in [1_441, 32_768, 65_535] {
            assert_eq!(sought(&file, gap, 1), none(1, lines));
            assert_eq!(sought(&file, gap, u32::MAX), none(1, lines));
            assert_eq!(sought(&file, gap, 0), stopped(0, lines));
        }
    }
    // A line's own pair, which is 3 whatever its start.
    let own_loop = hex("4C000A 4300000002 4300000005 45");
    assert_eq!(sought(&own_loop, 3, 1), found(1, &[0]));
    assert_eq!(sought(&own_loop, 4, 1), none(1, 1));
}

#[test]
fn rows_of_a_wrong_length_are_refused_and_stay() {
    for length in [0, 1, 3, 16] {
        let mut row = vec![99; length];
        for gap in [0, 2, 65_535] {
            assert_eq!(wanted(&p1(), &mut row, gap, 21), refusal(16, 0));
            assert_eq!(wanted(&p1(), &mut row, gap, 0), refusal(16, 0));
            assert_eq!(wanted(&[0x4C], &mut row, gap, 21), refusal(3, 0));
        }
        assert_eq!(row, vec![99; length]);
    }
}
