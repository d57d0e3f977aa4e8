//! The examples of source 000.

use crate::given::{all_ratings, at, file, net, p1, searched};
use papers::sections::caps::cap;
use papers::sections::classes::classes;
use papers::sections::rating::{arrivals, gap_by_counting, rating_by_counting, stop_gap};
use papers::sections::walk::Answer;

/// Section 2.3, table 2.1. The offsets are the first arrivals of the table less
/// the starts.
pub const CALLS: [(u8, u8, u16); 9] = [
    (1, 1, 0),
    (2, 1, 0),
    (0, 2, 2),
    (1, 2, 1),
    (2, 2, 1),
    (0, 3, 4),
    (1, 3, 3),
    (2, 3, 3),
    (0, 4, 0),
];

/// Its whole table: stop, line and the arrivals of an hour.
const TABLE: [(usize, usize, &[usize]); 9] = [
    (1, 1, &[5, 15, 25, 35, 45, 55]),
    (1, 2, &[1, 21, 41]),
    (2, 0, &[4, 19, 34, 49]),
    (2, 1, &[6, 16, 26, 36, 46, 56]),
    (2, 2, &[2, 22, 42]),
    (3, 0, &[6, 21, 36, 51]),
    (3, 1, &[8, 18, 28, 38, 48, 58]),
    (3, 2, &[4, 24, 44]),
    (4, 0, &[2, 17, 32, 47]),
];

/// Section 2.3, table 2.1: periods 15, 10, 20 and starts 2, 5, 1.
#[test]
fn source_example_of_section_2_3() {
    let bytes = file(&[15, 10, 20], &CALLS);
    let net = net(&bytes);
    let starts = [2, 5, 1];
    for (stop, line, times) in TABLE {
        let mut calls = net.calls_at(stop);
        calls.retain(|call| call.line == line);
        assert_eq!(arrivals(&net, calls[0], starts[line]), times);
    }
    let gaps: Vec<Option<u32>> = (1..=4)
        .map(|stop| gap_by_counting(&net, stop, &starts))
        .collect();
    assert_eq!(gaps, [Some(4), Some(2), Some(2), Some(15)]);
    assert_eq!(all_ratings(&bytes, &[2, 5, 1]), Ok(at(2, 23)));
    // Stops 2 and 3 are alike: one polygon picture is the other, turned.
    assert_eq!(classes(&net).class_row[..5], [255, 1, 2, 2, 4]);
    assert_eq!(classes(&net).weight_row[..5], [0, 1, 2, 0, 1]);
    // g is 5 for the pairs with line 0, 10 for lines 1 and 2.
    let caps: Vec<Option<u32>> = (0..5).map(|stop| cap(&net, stop)).collect();
    assert_eq!(caps, [None, Some(5), Some(2), Some(2), Some(15)]);
    // The best of all 3,000 timetables reaches every cap: (2, 5, 1) has the best
    // least gap, but at stop 1 it loses one minute of the sum.
    let every = (0..15).flat_map(|a| (0..10).flat_map(move |b| (0..20).map(move |c| [a, b, c])));
    let best = every.map(|starts| rating_by_counting(&net, &starts)).max();
    assert_eq!(best, Some(at(2, 24)));
    let (answer, row) = searched(&bytes, u32::MAX);
    assert!(matches!(answer, Answer::Finished { best, .. } if best == at(2, 24)));
    assert_eq!(all_ratings(&bytes, &row), Ok(at(2, 24)));
}

/// Example 3.1.1: arrivals 8, 17, 23, 37, 38, 53, 57 in 60 minutes.
#[test]
fn source_example_3_1_1() {
    let net = net(&p1());
    assert_eq!(arrivals(&net, net.calls[0], 0), [8, 23, 38, 53]);
    assert_eq!(arrivals(&net, net.calls[1], 0), [17, 37, 57]);
    assert_eq!(gap_by_counting(&net, 0, &[0, 0]), Some(1));
    assert_eq!(stop_gap(&net, 0, &[0, 0]), Some(1));
}

/// Example 2.7.3 in small: m lines of period T through the same stops reach
/// the whole part of T/m.
#[test]
fn lines_of_one_period_share_it_evenly() {
    let calls = [(0, 0, 0), (1, 0, 0), (2, 0, 0), (3, 0, 0)];
    let bytes = file(&[9, 9, 9, 9], &calls);
    assert_eq!(cap(&net(&bytes), 0), Some(2));
    let (answer, row) = searched(&bytes, u32::MAX);
    assert!(matches!(answer, Answer::Finished { best, .. } if best == at(2, 2)));
    assert_eq!(row, [0, 2, 4, 6]);
}
