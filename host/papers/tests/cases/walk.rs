//! Caps and tries.

use crate::given::{at, file, net, p1, p7, p8, p9};
use papers::sections::caps::{cap, upper_rating};
use papers::sections::walk::most_tries;

#[test]
fn the_most_tries() {
    let sum = |periods: &[u16]| {
        let calls: Vec<(u8, u8, u16)> = (0..periods.len() as u8).map(|line| (line, 0, 0)).collect();
        most_tries(&net(&file(periods, &calls)))
    };
    assert_eq!(sum(&[60]), 1);
    assert_eq!(sum(&[60, 60, 12]), 1 + 60 + 720);
    // The short paper's bound of document 02, A.13.
    assert_eq!(sum(&[60, 60, 60, 60]), 219_661);
    assert_eq!(sum(&[1_440; 16]), u128::MAX);
}

#[test]
fn caps_of_the_cases() {
    assert_eq!(cap(&net(&p1()), 0), Some(2));
    assert_eq!(cap(&net(&p1()), 1), None);
    // g/2 is 5, the cycle divided among three arrivals is 3.
    assert_eq!(cap(&net(&p7()), 0), Some(3));
    assert_eq!(cap(&net(&p8()), 0), Some(30));
    assert_eq!(cap(&net(&p8()), 1), Some(12));
    assert_eq!(upper_rating(&net(&p8()), 0, &[0, 0, 0]), at(12, 42));
    assert_eq!(upper_rating(&net(&p8()), 2, &[0, 7, 0]), at(7, 19));
    // 60 / (60/20 + 60/30) is 12, half of g is 5.
    assert_eq!(cap(&net(&p9()), 0), Some(5));
}
