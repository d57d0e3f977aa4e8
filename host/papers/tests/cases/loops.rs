//! Document 02, A.2: loop routes.

use crate::given::{all_ratings, at, hex, net, searched};
use papers::sections::archive::archive_form;
use papers::sections::caps::cap;
use papers::sections::classes::classes;
use papers::sections::walk::Answer;

/// One line of 10 that calls at a stop after 2 and 5 minutes.
fn own_loop() -> Vec<u8> {
    hex("4C000A 4300000002 4300000005 45")
}

#[test]
fn a_lines_own_pair_whatever_its_start() {
    for start in [0, 3, -7, i32::MIN, i32::MAX] {
        assert_eq!(all_ratings(&own_loop(), &[start]), Ok(at(3, 3)));
    }
    assert_eq!(cap(&net(&own_loop()), 0), Some(3));
    let (answer, row) = searched(&own_loop(), 1);
    let best = at(3, 3);
    assert_eq!(
        (answer, row),
        (Answer::Finished { best, tries: 1 }, vec![0])
    );
    let far = hex("4C0007 430000FFFF 4300000000 45");
    assert_eq!(all_ratings(&far, &[0]), Ok(at(1, 1)));
    for offsets in ["4300000002 430000000C", "4300000002 4300000002"] {
        let file = hex(&format!("4C000A {offsets} 45"));
        assert_eq!(all_ratings(&file, &[0]), Ok(at(0, 0)));
    }
}

/// A search of a file to its end: best, starts and tries.
fn found(text: &str) -> (Answer, Vec<i32>) {
    searched(&hex(text), u32::MAX)
}

#[test]
fn searches_of_loops() {
    let finished = |least, sum, tries| Answer::Finished {
        best: at(least, sum),
        tries,
    };
    assert_eq!(
        found("4C000A 4C000A 4300000000 4300000004 4301000000 45"),
        (finished(3, 3, 11), vec![0, 7])
    );
    // With half the period for the own pair it would take 37 tries.
    assert_eq!(
        found("4C0006 4C0006 4C0006 4300010000 4301010000 4302000000 4302000001 45"),
        (finished(1, 4, 31), vec![0, 3, 0])
    );
    // With one term for each line it would take 16 tries.
    assert_eq!(
        found("4C000C 4C0003 4C0004 4300000000 4300010000 4301010000 4302000000 4302000002 45"),
        (finished(1, 2, 12), vec![0, 1, 1])
    );
}

#[test]
fn classes_of_loops() {
    let matched = hex(
        "4C000A 4300000002 4300000005 430001000F 430001000C 430002000C 4300020005 4300030000 45",
    );
    let found = classes(&net(&matched));
    assert_eq!(found.class_row[..5], [0, 0, 2, 3, 255]);
    assert_eq!(found.weight_row[..5], [2, 0, 1, 1, 0]);
    assert_eq!(all_ratings(&matched, &[0]), Ok(at(3, 19)));
    // The same gap, and not alike.
    let gaps = hex("4C000A 4300000000 4300000003 4300010000 4300010007 45");
    assert_eq!(classes(&net(&gaps)).count, 2);
}

#[test]
fn archived_by_offset() {
    let other_order = hex("4C000A 4300000005 4300000002 45");
    assert_eq!(archive_form(&net(&other_order)), own_loop());
}
