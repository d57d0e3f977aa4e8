//! Every export on seeded files and sheets, and on empty parts.

use crate::compared::{
    compare_all, compare_archive, compare_better, compare_board, compare_by_key, compare_gaps,
    compare_hundred, compare_mark, compare_rate, compare_search, compare_wanted, small_budget,
    three_lines, AllSeen, Rates, Seen,
};
use crate::{examination_rate, examination_weighted};
use papers::files::{
    any_file, faulty_file, sheet, sheet_bytes, valid_file, Dice, GROUNDS, OUTCOMES,
};
use papers::sections::board::Window;
use papers::sections::sheets::{rate_bytes, weighted_bytes};

const CASES: usize = 6_000;

/// Some thousand files, and each ground that an export can give.
#[test]
fn exports_beside_the_papers() {
    let mut dice = Dice::new(61);
    let mut seen = AllSeen::default();
    for number in 0..CASES {
        let file = match number % 28 {
            0..=13 => any_file(&mut dice),
            14..=20 => valid_file(&mut dice),
            _ => {
                let ground = dice.pick(&GROUNDS);
                faulty_file(&mut dice, ground).bytes
            }
        };
        compare_all(&mut dice, &file, &mut seen);
    }
    println!("{CASES} files, refused by grounds 1 to 14, the sheet's 15, and 19 to 21:");
    println!("{:?}", &seen.rate.grounds[1..]);
    println!("boards, then refusals 1 to 23:");
    println!("{} {:?}", seen.board.answers[0], &seen.board.grounds[1..]);
    assert_grounds(&seen);
    assert!(seen.search.answers.iter().all(|&count| count >= 100));
    assert!(seen.wanted.answers.iter().all(|&count| count >= 100));
    assert!(seen.better.answers.iter().all(|&count| count >= 100));
    assert!(seen.mark.answers[..2].iter().all(|&count| count >= 100));
    assert_eq!(seen.hundred.answers, seen.mark.answers);
    assert!(seen.by_key.answers[0] >= 100);
    assert!(seen.archive.answers[0] >= 100);
    assert!(seen.board.answers[0] >= 100);
    assert_eq!(seen.gaps.answers, seen.rate.answers);
}

/// Each export has refused by the file's grounds and by its own, and by no other.
fn assert_grounds(seen: &AllSeen) {
    let of_file = GROUNDS.map(usize::from);
    let with = |ground: usize| [&of_file[..], &[ground]].concat();
    assert!(seen.read.has_exactly(&of_file));
    assert!(seen.rate.has_exactly(&with(15)));
    assert!(seen.weighted.has_exactly(&with(15)));
    assert!(seen.gaps.has_exactly(&with(15)));
    assert!(seen.classes.has_exactly(&with(17)));
    assert!(seen.search.has_exactly(&with(16)));
    assert!(seen.wanted.has_exactly(&with(16)));
    assert!(seen.mark.has_exactly(&with(15)));
    assert!(seen.hundred.has_exactly(&with(15)));
    assert!(seen.by_key.has_exactly(&with(15)));
    assert!(seen.archive.has_exactly(&with(18)));
    assert!(seen.board.has_exactly(&[&with(15)[..], &[22, 23]].concat()));
    assert!(seen.better.has_exactly(&[]));
}

/// Starts at both ends of 32 bits, in every mix, against periods that divide
/// nothing near them.
#[test]
fn both_ends_of_32_bits() {
    let mut dice = Dice::new(62);
    let mut seen = Seen::default();
    let ends = [i32::MIN, i32::MIN + 1, -1, 0, 1, i32::MAX - 1, i32::MAX];
    for periods in [[15, 20, 12], [1_440, 7, 1], [11, 13, 70], [3, 9, 27]] {
        let file = three_lines(periods);
        for mix in 0..7 * 7 * 7 {
            let starts = [mix % 7, mix / 7 % 7, mix / 49].map(|at| ends[at]);
            let sheet = sheet_bytes(&starts);
            let rate: (Rates, _) = (examination_rate, rate_bytes(&file, &sheet));
            compare_rate(&mut dice, rate, &file, &sheet, &mut seen);
            let weighted: (Rates, _) = (examination_weighted, weighted_bytes(&file, &sheet));
            compare_rate(&mut dice, weighted, &file, &sheet, &mut seen);
            compare_gaps(&mut dice, &file, &sheet, &mut seen);
            let budget = small_budget(&mut dice);
            compare_mark(&mut dice, &file, &sheet, budget, &mut seen);
            compare_hundred(&mut dice, &file, &sheet, budget, &mut seen);
            let other = sheet_bytes(&starts.map(|start| start.wrapping_neg()));
            compare_better(&file, &sheet, &other, &mut seen);
            compare_by_key(&mut dice, &file, &sheet, &other, &mut seen);
        }
    }
    assert_eq!(seen.grounds, [0; OUTCOMES]);
}

/// Empty parts: a file, sheets and rows of no places.
#[test]
fn empty_parts() {
    let mut dice = Dice::new(64);
    let mut seen = AllSeen::default();
    compare_all(&mut dice, &[], &mut seen);
    let file = three_lines([15, 20, 12]);
    let mut one = Seen::default();
    compare_better(&file, &[], &[], &mut one);
    let right = sheet_bytes(&sheet(&mut dice, 3));
    compare_better(&file, &[], &right, &mut one);
    compare_mark(&mut dice, &file, &[], 100, &mut one);
    compare_hundred(&mut dice, &file, &[], 100, &mut one);
    compare_by_key(&mut dice, &file, &[], &right, &mut one);
    compare_by_key(&mut dice, &file, &right, &[], &mut one);
    compare_by_key(&mut dice, &[], &[], &[], &mut one);
    compare_archive(&mut dice, &file, 0, &mut one);
    compare_archive(&mut dice, &[], 0, &mut one);
    compare_search(&mut dice, &file, 0, 100, &mut one);
    compare_wanted(&mut dice, &file, 0, (1, 100), &mut one);
    compare_wanted(&mut dice, &[], 0, (1, 100), &mut one);
    for (file, sheet) in [(&file[..], &right[..]), (&file, &[]), (&[], &[])] {
        // Stop 1 is unserved.
        for stop in [0, 1] {
            let window = Window {
                stop,
                first: 0,
                length: 60,
            };
            compare_board(&mut dice, (file, sheet), window, (0, 0), &mut one);
        }
    }
    compare_gaps(&mut dice, &file, &[], &mut one);
    compare_gaps(&mut dice, &[], &right, &mut one);
    compare_gaps(&mut dice, &[], &[], &mut one);
    assert_eq!(one.answers, [2, 0, 1]);
    let grounds = [1, 15, 16, 18, 23].map(|ground| one.grounds[ground]);
    assert_eq!(grounds, [7, 7, 2, 1, 1]);
}
