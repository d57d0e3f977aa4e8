//! The edges of document 01.

use crate::given::{file, hex, refusal};
use papers::sections::network::{read_counts, Counts};

#[test]
fn edges_of_the_period_and_the_cycle() {
    let one = read_counts(&file(&[1_440], &[(0, 0, 0)]));
    let lone = Counts {
        lines: 1,
        served_stops: 1,
        calls: 1,
        cycle: 1_440,
    };
    assert_eq!(one, Ok(lone));
    let two = read_counts(&file(&[1_440, 7], &[(0, 0, 0), (1, 63, 65_535)]));
    let longest = Counts {
        lines: 2,
        served_stops: 2,
        calls: 2,
        cycle: 10_080,
    };
    assert_eq!(two, Ok(longest));
    assert_eq!(read_counts(&file(&[1_441], &[(0, 0, 0)])), refusal(5, 0));
    let eleven = file(&[1_440, 11], &[(0, 0, 0), (1, 0, 0)]);
    assert_eq!(read_counts(&eleven), refusal(6, 3));
}

#[test]
fn edges_of_the_smallest_file() {
    let small = hex("4C000F 4300000008 45");
    let counts = Counts {
        lines: 1,
        served_stops: 1,
        calls: 1,
        cycle: 15,
    };
    assert_eq!(read_counts(&small), Ok(counts));
    assert_eq!(read_counts(&small[..8]), refusal(1, 8));
    assert_eq!(read_counts(&[small, vec![0x45]].concat()), refusal(14, 9));
    assert_eq!(read_counts(&[]), refusal(1, 0));
}
