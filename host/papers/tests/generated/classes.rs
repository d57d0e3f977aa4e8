//! Classes of stops.

use papers::files::{valid_file, Dice};
use papers::sections::classes::{alike, class_call, classes, UNSERVED};
use papers::sections::network::{read, Call, Network, STOPS};
use papers::sections::rating::{pair_gap, pairs};

/// Whether two served stops are alike, by trying: as many calls of each line,
/// and for each two calls, matched in order of offset, the same gap at both
/// stops for every minute by which the one is late.
fn alike_by_gaps(net: &Network, one: usize, other: usize) -> bool {
    let (here, there) = (net.calls_at(one), net.calls_at(other));
    let starts = vec![0; net.lines()];
    // The minutes by which b would have to be late for the two calls to meet:
    // they give away the remainder.
    let late = |a: Call, b: Call| {
        (0..net.period(b)).find(|minutes| {
            let offset = b.offset + minutes;
            pair_gap(net, a, Call { offset, ..b }, &starts) == 0
        })
    };
    let lines = |calls: &[Call]| calls.iter().map(|call| call.line).collect::<Vec<usize>>();
    lines(&here) == lines(&there)
        && pairs(&here)
            .zip(pairs(&there))
            .all(|((a, b), (c, d))| late(a, b) == late(c, d))
}

/// Whether some line calls twice.
fn own_pair(calls: &[Call]) -> bool {
    pairs(calls).any(|(a, b)| a.line == b.line)
}

/// Class and weight rows: every entry by its definition.
#[test]
fn classes_of_valid_files() {
    let mut dice = Dice::new(17);
    let (mut joined, mut loops) = (0, 0);
    for _ in 0..1_000 {
        let file = valid_file(&mut dice);
        let net = read(&file).expect("a valid file");
        let found = classes(&net);
        let served = net.served_stops();
        for stop in 0..STOPS {
            if !served.contains(&stop) {
                assert_eq!(found.class_row[stop], UNSERVED);
                assert_eq!(found.weight_row[stop], 0);
                assert!(!alike(&net, stop, stop));
                continue;
            }
            let alikes: Vec<usize> = served
                .iter()
                .copied()
                .filter(|&other| alike_by_gaps(&net, stop, other))
                .collect();
            assert_eq!(usize::from(found.class_row[stop]), alikes[0]);
            let weight = if alikes[0] == stop { alikes.len() } else { 0 };
            assert_eq!(usize::from(found.weight_row[stop]), weight);
            joined += usize::from(weight > 1 && net.calls_at(stop).len() > 1);
            loops += usize::from(weight > 1 && own_pair(&net.calls_at(stop)));
        }
        let total: usize = found
            .weight_row
            .iter()
            .map(|&weight| usize::from(weight))
            .sum();
        assert_eq!(total, served.len());
        let mut class_row = [1u8; STOPS];
        let mut weight_row = [1u16; STOPS];
        let count = class_call(&file, &mut class_row, &mut weight_row);
        assert_eq!(count, Ok(found.count));
        assert_eq!((class_row, weight_row), (found.class_row, found.weight_row));
    }
    assert!(joined > 100, "{joined}");
    assert!(loops > 20, "{loops}");
}
