//! Editions: each there is and those there aren't, second ones, and the same network in
//! either.

use crate::compared::{compare_all, compare_read, three_lines, AllSeen, Seen};
use crate::lent::answer_row;
use crate::{called, examination_classes, examination_rate, examination_read, examination_search};
use papers::files::{
    any_file, bytes_of, retyped, sheet, sheet_bytes, valid_commands, Dice, Stated,
};
use papers::sections::board::Window;
use papers::sections::network::{EDITION, LATEST_EDITION};

const UNKNOWN: u32 = 21 * 65_536;

/// What read returns.
fn returned(file: &[u8]) -> u32 {
    let mut answer = [7; 4];
    unsafe { examination_read(file.as_ptr(), file.len(), &mut answer) }
}

/// All 256 before an accepted file, before nothing, and each cut off.
#[test]
fn every_edition() {
    let mut dice = Dice::new(86);
    let file = three_lines([15, 20, 12]);
    let mut seen = AllSeen::default();
    for edition in 0..=255 {
        let opened = [&[EDITION, edition], &file[..]].concat();
        let known = (1..=LATEST_EDITION).contains(&edition);
        assert_eq!(returned(&opened), if known { 0 } else { UNKNOWN });
        compare_all(&mut dice, &opened, &mut seen);
        let alone = if known { 65_536 + 2 } else { UNKNOWN };
        assert_eq!(returned(&opened[..2]), alone);
        assert_eq!(returned(&opened[..1]), 3 * 65_536);
    }
    let unknown = 256 - usize::from(LATEST_EDITION);
    for one in seen.refusing() {
        assert_eq!(one.grounds[21], unknown);
    }
    let [neither, first, second] = seen.better.answers;
    assert!(neither >= unknown && neither + first + second == 256);
}

/// A second `56`, at whichever command and of whichever edition, is ground 20.
#[test]
fn a_second_edition() {
    let file = three_lines([15, 20, 12]);
    let commands = engine::typed::commands(&file);
    for first in 1..=LATEST_EDITION {
        let mut place = 2;
        for (at, command) in commands.iter().enumerate() {
            for second in [0, 1, 2, 3, 7, 255] {
                let (before, behind) = (commands[..at].concat(), commands[at..].concat());
                let pieces = [&[EDITION, first], &before[..], &[EDITION, second], &behind];
                let twice = pieces.concat();
                assert_eq!(returned(&twice), 20 * 65_536 + place, "{twice:02X?}");
                // Cut off it is ground 3, as any other.
                let cut = &twice[..place as usize + 1];
                assert_eq!(returned(cut), 3 * 65_536 + place, "{cut:02X?}");
            }
            place += command.len() as u32;
        }
    }
}

/// What some exports return and write of a file.
#[derive(Debug, PartialEq, Eq)]
struct Answers {
    rated: (u32, [u32; 2]),
    searched: (u32, [u32; 3], Vec<i32>),
    marked: (u32, [u32; 6]),
    classes: (u32, [u32; 1], [u8; 64], [u16; 64]),
    board: (u32, [u32; 1], Vec<i64>, Vec<u8>),
    gaps: (u32, [u32; 2], [u16; 64]),
}

fn answers(file: &[u8], sheet: &[u8], lines: usize, stop: u8) -> Answers {
    let (bytes, length) = (file.as_ptr(), file.len());
    let mut rating = [7; 2];
    let rated =
        unsafe { examination_rate(bytes, length, sheet.as_ptr(), sheet.len(), &mut rating) };
    let (mut best, mut starts) = ([7; 3], vec![7; lines]);
    let row = starts.as_mut_ptr();
    let searched = unsafe { examination_search(bytes, length, row, lines, 500, &mut best) };
    let mut mark = [7; 6];
    let marked = called::mark(file, sheet, 500, &mut mark);
    let (mut count, mut classes, mut weights) = ([7], [7; 64], [7; 64]);
    let rows = (classes.as_mut_ptr(), weights.as_mut_ptr());
    let classed = unsafe { examination_classes(bytes, length, rows.0, 64, rows.1, 64, &mut count) };
    Answers {
        rated: (rated, rating),
        searched: (searched, best, starts),
        marked: (marked, mark),
        classes: (classed, count, classes, weights),
        board: two_hours(file, sheet, stop),
        gaps: gaps(file, sheet),
    }
}

fn gaps(file: &[u8], sheet: &[u8]) -> (u32, [u32; 2], [u16; 64]) {
    let (mut gap_row, mut rating) = ([7; 64], [7; 2]);
    let found = called::gaps(file, sheet, &mut gap_row, &mut rating);
    (found, rating, gap_row)
}

/// The board of a stop, where a line of period 1 may call twice and others, too.
fn two_hours(file: &[u8], sheet: &[u8], stop: u8) -> (u32, [u32; 1], Vec<i64>, Vec<u8>) {
    let window = Window {
        stop: u32::from(stop),
        first: -60,
        length: 120,
    };
    let (mut times, mut lines, mut count) = (vec![7; 32 * 120], vec![7; 32 * 120], [7]);
    let rows = (&mut times[..], &mut lines[..]);
    let listed = called::board(file, sheet, window, rows, &mut count);
    (listed, count, times, lines)
}

/// A network is the same to these in edition 1, typed with rides, and in edition 2.
#[test]
fn editions_are_answered_alike() {
    let mut dice = Dice::new(87);
    for number in 0..3_000 {
        let stated = Stated::by(&valid_commands(&mut dice));
        let lines = stated.periods.len();
        let sheet = sheet_bytes(&sheet(&mut dice, lines));
        let (_, stop, _) = dice.pick(&stated.calls);
        let [first, second] = [1, 2].map(|edition| {
            let stated = Stated {
                edition,
                ..stated.clone()
            };
            let file = bytes_of(&retyped(&mut dice, &stated));
            answers(&file, &sheet, lines, stop)
        });
        assert_eq!((first.rated.0, first.classes.0), (0, 0), "{number}");
        assert_eq!((first.board.0, first.gaps.0), (0, 0), "{number}");
        assert_eq!(first, second, "{number}");
    }
}

/// Any file behind an edition of any kind.
#[test]
fn any_file_behind_an_edition() {
    let mut dice = Dice::new(88);
    let mut seen = Seen::default();
    for _ in 0..6_000 {
        let edition = dice.pick(&[0, 1, 1, 2, 2, 2, LATEST_EDITION + 1, 255]);
        let opened = [&[EDITION, edition], &any_file(&mut dice)[..]].concat();
        compare_read(&mut dice, &opened, &mut seen);
    }
    println!("accepted {}, refused {:?}", seen.answers[0], seen.grounds);
    assert!([1, 2, 3, 5, 7, 13, 14, 19, 20, 21]
        .iter()
        .all(|&ground| seen.grounds[ground] > 20));
    assert!(seen.answers[0] > 500);
    let mut answer = answer_row::<4>(&mut dice);
    let before = answer.clone();
    let next = [EDITION, LATEST_EDITION + 1];
    let found = unsafe { examination_read(next.as_ptr(), 2, answer.pointer().cast()) };
    assert_eq!((found, answer), (UNKNOWN, before));
}
