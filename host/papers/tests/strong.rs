//! The quick walk in Rust beside the papers' one: a time says something only of
//! a program that answers rightly.

use papers::files::{dense_file, valid_file, Dice};
use papers::sections::network::read;
use papers::sections::walk::{walk, Answer};
use papers::strong;

/// Answer, starts and tries are the papers', for budgets that end the walk
/// early and late; each kind of answer occurs often enough.
#[test]
fn walks_as_the_papers_do() {
    let mut dice = Dice::new(95);
    let mut kinds = [0; 3];
    for case in 0..3_000 {
        let net = read(&valid_file(&mut dice)).expect("a valid file");
        for budget in [0, 1, 3, 40, 2_000] {
            let expected = walk(&net, budget);
            assert_eq!(strong::walk(&net, budget), expected, "case {case}");
            kinds[match expected.answer {
                Answer::Finished { .. } => 0,
                Answer::Stopped { .. } => 1,
                Answer::StoppedWithNone { .. } => 2,
            }] += 1;
        }
    }
    println!("finished, stopped, stopped with none: {kinds:?}");
    assert!(kinds.iter().all(|&count| count > 500), "{kinds:?}");
}

/// The networks of the benchmark, and of other numbers of lines and stops.
#[test]
fn walks_large_networks() {
    let mut dice = Dice::new(96);
    for lines in 1..=16 {
        for stops in [1, 2, 8, 31, 64] {
            let net = read(&dense_file(&mut dice, lines, stops)).expect("a valid file");
            assert_eq!(strong::walk(&net, 5_000), walk(&net, 5_000));
        }
    }
}
