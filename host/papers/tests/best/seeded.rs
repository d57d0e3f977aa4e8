//! Seeded files.

use crate::given::{agreed, finishes_within};
use papers::files::{
    any_file, bytes_of, damaged_file, faulty_file, valid_commands_of, valid_file, Dice, Size,
    GROUNDS,
};
use std::sync::atomic::{AtomicUsize, Ordering};

/// How many seeded files of each kind there are.
const GOOD: usize = 1_200;

const OF_EACH_GROUND: usize = 40;

const DAMAGED: usize = 400;

const ANY: usize = 800;

/// Searches of more tries than this are long.
const SHORT_SEARCH: u32 = 20_000;

/// Of the files that take a long search, so many are taken and no more: each
/// is a good part of a second for the program.
const LONG_SEARCHES: usize = 24;

/// Some thousand files, accepted and refused, on two threads.
#[test]
fn seeded_files() {
    let files = seeded();
    let next = AtomicUsize::new(0);
    let compare = || {
        let mut lines = Vec::new();
        while let Some(file) = files.get(next.fetch_add(1, Ordering::Relaxed)) {
            lines.push(agreed(file));
        }
        lines
    };
    let lines = std::thread::scope(|scope| {
        let threads = [scope.spawn(compare), scope.spawn(compare)];
        threads.map(|thread| thread.join().expect("the same lines"))
    });
    let lines = lines.concat();
    assert_eq!(lines.len(), files.len());
    assert!(lines.len() >= 2_000);
    let beginning = |text: &str| lines.iter().filter(|line| line.starts_with(text)).count();
    let (finished, stopped) = (beginning("gap "), beginning("stopped gap "));
    println!(
        "{} files: {finished} finished, {stopped} stopped",
        lines.len()
    );
    assert!(finished >= 1_000 && stopped >= 8);
    for ground in GROUNDS {
        assert!(beginning(&format!("refused {ground} at ")) >= OF_EACH_GROUND);
    }
}

/// The files, with few long searches among them.
fn seeded() -> Vec<Vec<u8>> {
    let mut dice = Dice::new(24);
    let mut files = Vec::new();
    for ground in GROUNDS {
        files.extend((0..OF_EACH_GROUND).map(|_| faulty_file(&mut dice, ground).bytes));
    }
    files.extend((0..DAMAGED).map(|_| damaged_file(&mut dice)));
    files.extend((0..ANY).map(|_| any_file(&mut dice)));
    files.extend((0..GOOD).map(|number| good_file(&mut dice, number)));
    let mut long = 0;
    files.retain(|file| {
        let short = finishes_within(file, SHORT_SEARCH);
        long += usize::from(!short);
        short || long <= LONG_SEARCHES
    });
    files
}

/// An accepted file: small ones, ones of any size, and some with many lines or
/// stops whose short periods keep the search short.
fn good_file(dice: &mut Dice, number: usize) -> Vec<u8> {
    let size = match number % 4 {
        0 => return valid_file(dice),
        1 => Size {
            lines: (6, 16),
            stops: (1, 64),
            cycle: 12,
            longest: 4,
        },
        2 => Size {
            lines: (1, 3),
            stops: (1, 64),
            cycle: 10_080,
            longest: 1_440,
        },
        _ => Size {
            lines: (2, 4),
            stops: (1, 6),
            cycle: 60,
            longest: 20,
        },
    };
    bytes_of(&valid_commands_of(dice, &size))
}
