//! Marks out of a hundred: with a search and by a key.

use crate::called;
use crate::compared::{compare_by_key, compare_hundred, small_budget, three_lines, Seen};
use crate::lent::answer_row;
use papers::files::{
    any_sheet_bytes, bytes_of, roomy_file, sheet, sheet_bytes, valid_file, Command, Dice,
};
use papers::sections::hundred::{by_key_bytes, Hundred};
use papers::sections::network::read;
use papers::sections::sheets::{mark_bytes, rate_bytes};
use papers::sections::walk::{walk, Answer};

const FILES: usize = 3_000;

/// Files where lines can keep away from each other, and others.
fn file(dice: &mut Dice) -> Vec<u8> {
    match dice.below(4) {
        0 => valid_file(dice),
        _ => roomy_file(dice),
    }
}

/// What a decided mark is, to see that every kind came: 0, a part of the best, one
/// with a remainder, 100.
fn kind(paper: Hundred) -> usize {
    match (paper.mark, paper.remainder) {
        (_, 1..) => 2,
        (0, _) => 0,
        (100, _) => 3,
        _ => 1,
    }
}

/// Sheets of any kind under small budgets; the rows lie where a call must not write
/// beside them.
#[test]
fn marks_of_seeded_sheets() {
    let mut dice = Dice::new(101);
    let (mut seen, mut kinds) = (Seen::default(), [0; 4]);
    for _ in 0..FILES {
        let file = file(&mut dice);
        let lines = read(&file).expect("a valid file").lines();
        for _ in 0..2 {
            let sheet = any_sheet_bytes(&mut dice, lines);
            let budget = small_budget(&mut dice);
            compare_hundred(&mut dice, &file, &sheet, budget, &mut seen);
            let paper = mark_bytes(&file, &sheet, budget).ok();
            if let Some(paper) = paper.and_then(|paper| paper.hundred()) {
                kinds[kind(paper)] += 1;
            }
        }
    }
    println!("0, a part, with a remainder, 100: {kinds:?}");
    assert!(kinds.iter().all(|&count| count >= 100), "{kinds:?}");
    assert!(seen.answers[1] >= 100 && seen.has_exactly(&[15]));
}

/// By any key, better or worse than the sheet: the mark may be above 100. A key whose
/// least gap is 0 comes, too.
#[test]
fn keys_of_any_kind() {
    let mut dice = Dice::new(102);
    let mut seen = Seen::default();
    let (mut above, mut beside_none) = (0, 0);
    for _ in 0..FILES {
        let file = file(&mut dice);
        let lines = read(&file).expect("a valid file").lines();
        let [one, other] = [0, 1].map(|_| any_sheet_bytes(&mut dice, lines));
        for (sheet, key) in [(&one, &other), (&other, &one), (&one, &one)] {
            compare_by_key(&mut dice, &file, sheet, key, &mut seen);
            let Ok(paper) = by_key_bytes(&file, sheet, key) else {
                continue;
            };
            above += usize::from(paper.mark > 100);
            let of_key = rate_bytes(&file, key).expect("a key that fits");
            beside_none += usize::from(of_key.least == 0);
        }
    }
    assert!(above >= 100 && beside_none >= 100, "{above}, {beside_none}");
    assert!(seen.has_exactly(&[15]));
}

/// A mark with its search, its answer beside it and its two numbers.
fn with_search(file: &[u8], sheet: &[u8], budget: u32) -> (u32, [u32; 6], [u32; 2]) {
    let (mut answer, mut hundred) = ([7; 6], [7; 2]);
    let returned = called::hundred(file, sheet, budget, (&mut answer, &mut hundred));
    (returned, answer, hundred)
}

/// The same without the two numbers.
fn without(file: &[u8], sheet: &[u8], budget: u32) -> (u32, [u32; 6]) {
    let mut answer = [7; 6];
    let returned = called::mark(file, sheet, budget, &mut answer);
    (returned, answer)
}

/// A sheet beside a key.
fn by_key(file: &[u8], sheet: &[u8], key: &[u8]) -> (u32, [u32; 2]) {
    let mut hundred = [7; 2];
    let returned = called::by_key(file, sheet, key, &mut hundred);
    (returned, hundred)
}

/// Three exports say one thing: both marks answer alike, and beside the starts of a
/// finished search the two numbers are the mark's.
#[test]
fn by_the_best_key_as_with_the_search() {
    let mut dice = Dice::new(103);
    let (mut decided, mut undecided) = (0, 0);
    for _ in 0..FILES {
        let file = file(&mut dice);
        let net = read(&file).expect("a valid file");
        let budget = small_budget(&mut dice);
        let sheet = sheet_bytes(&sheet(&mut dice, net.lines()));
        let (returned, answer, hundred) = with_search(&file, &sheet, budget);
        assert_eq!(without(&file, &sheet, budget), (returned, answer));
        let walked = walk(&net, budget);
        match (walked.answer, walked.starts) {
            (Answer::Finished { .. }, Some(best)) => {
                let key = sheet_bytes(&best);
                assert_eq!(by_key(&file, &sheet, &key), (returned, hundred));
                assert_eq!(with_search(&file, &key, budget).2, [100, 0]);
                decided += 1;
            }
            _ => {
                assert_eq!((returned, hundred), (1, [0, 0]));
                undecided += 1;
            }
        }
    }
    assert!(decided >= 500 && undecided >= 100, "{decided}, {undecided}");
}

/// Two lines of a day at one stop: the largest marks and remainders that two sheets
/// can have.
#[test]
fn large_marks_and_remainders() {
    let mut dice = Dice::new(104);
    let day = Command::Line { period: 1_440 };
    let calls = [0, 1].map(|line| Command::Call {
        line,
        stop: 0,
        offset: 0,
    });
    let file = bytes_of(&[&[day, day][..], &calls, &[Command::End]].concat());
    let starts = |gap: i32| sheet_bytes(&[0, gap]);
    for (gap, key, expected) in [
        (720, 1, [72_000, 0]),
        (719, 720, [99, 620]),
        (1, 720, [0, 100]),
        (7, 719, [0, 700]),
        (151, 719, [21, 1]),
        (568, 719, [78, 718]),
        (0, 720, [0, 0]),
        (720, 0, [100, 0]),
        (0, 0, [100, 0]),
    ] {
        let (sheet, key) = (starts(gap), starts(key));
        assert_eq!(by_key(&file, &sheet, &key), (0, expected));
        compare_by_key(&mut dice, &file, &sheet, &key, &mut Seen::default());
    }
    // One line alone has its period for a gap, as the key has.
    let alone = [0x4C, 5, 0xA0, 0x43, 0, 0, 0, 0, 0x45];
    assert_eq!(by_key(&alone, &[9; 4], &[0; 4]), (0, [100, 0]));
    assert_eq!(with_search(&alone, &[9; 4], 1).2, [100, 0]);
}

/// What is only read may be one memory, file, sheet and key.
#[test]
fn sheet_and_key_in_one_memory() {
    let file = three_lines([15, 20, 12]);
    let one = &file[..12];
    assert_eq!(by_key(&file, one, one), (0, [100, 0]));
    let key = &file[4..16];
    let apart = [one, key].map(<[u8]>::to_vec);
    assert_eq!(by_key(&file, one, key), by_key(&file, &apart[0], &apart[1]));
    let budget = 1_000;
    assert_eq!(
        with_search(&file, one, budget),
        with_search(&file, &apart[0], budget)
    );
}

/// A refusal leaves both rows as they were, whatever they held.
#[test]
fn rows_of_refused_marks() {
    let mut dice = Dice::new(105);
    let file = three_lines([15, 20, 12]);
    for content in [0, 1, u32::MAX] {
        let mut answer = answer_row::<6>(&mut dice).holding(&[content; 6]);
        let mut hundred = answer_row::<2>(&mut dice).holding(&[content; 2]);
        let before = (answer.clone(), hundred.clone());
        let rows = (answer.pointer().cast(), hundred.pointer().cast());
        let returned = called::hundred(&file, &[0; 8], 1_000, rows);
        assert_eq!(
            (returned, answer, hundred),
            (15 * 65_536, before.0, before.1)
        );
    }
}
