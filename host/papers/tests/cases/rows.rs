//! Rows of the class call and the search.

use crate::given::{net, p1, p9, refusal};
use papers::sections::classes::{class_call, classes};
use papers::sections::network::STOPS;
use papers::sections::walk::search;

#[test]
fn class_call_fills_both_rows() {
    let mut class_row = [77u8; STOPS];
    let mut weight_row = [777u16; STOPS];
    let count = class_call(&p9(), &mut class_row, &mut weight_row);
    assert_eq!(count, Ok(2));
    assert_eq!(class_row, classes(&net(&p9())).class_row);
    assert_eq!(weight_row, classes(&net(&p9())).weight_row);
}

#[test]
fn rows_of_a_wrong_length_are_refused_and_stay() {
    for (classes, weights) in [(63, 64), (64, 63), (65, 64), (64, 65), (0, 0)] {
        let mut class_row = vec![77u8; classes];
        let mut weight_row = vec![777u16; weights];
        let refused = class_call(&p9(), &mut class_row, &mut weight_row);
        assert_eq!(refused, refusal(17, 0));
        assert_eq!(class_row, vec![77u8; classes]);
        assert_eq!(weight_row, vec![777u16; weights]);
        // The file comes first.
        let refused = class_call(&[], &mut class_row, &mut weight_row);
        assert_eq!(refused, refusal(1, 0));
    }
    for length in [0, 1, 3, 16] {
        let mut row = vec![99; length];
        assert_eq!(search(&p1(), &mut row, 21), refusal(16, 0));
        assert_eq!(search(&[0x4C], &mut row, 21), refusal(3, 0));
        assert_eq!(row, vec![99; length]);
    }
}
