//! Refusals: their words, and the rows of a refused call.

use engine::{Arrival, Ground, NoGround, Rating, Refusal, Sheet, NO_GAP};
use papers::files::{faulty_file, Dice, GROUNDS};

/// Each ground has words of its own, and the README has the same ones.
#[test]
fn words_for_each_ground() {
    let path = concat!(env!("CARGO_MANIFEST_DIR"), "/../../README.md");
    let readme = std::fs::read_to_string(path).expect("the README");
    for ground in Ground::ALL {
        let (number, words) = (ground.number(), ground.words());
        assert_eq!(Ground::try_from(number), Ok(ground));
        let refusal = Refusal { ground, place: 12 };
        assert_eq!(refusal.to_string(), format!("refused {number} at 12"));
        assert_eq!(refusal.words(), words);
        let same = Ground::ALL.iter().filter(|other| other.words() == words);
        assert_eq!(same.count(), 1);
        let row = format!("| {number} | {words}");
        assert!(readme.contains(&row), "the README has no '{row}'");
    }
    let numbers: Vec<u32> = (1..=23).collect();
    assert_eq!(Ground::ALL.map(Ground::number), numbers[..]);
    for number in [0, 24, u32::MAX] {
        assert_eq!(Ground::try_from(number), Err(NoGround(number)));
    }
}

/// Which grounds are those of a file's author.
#[test]
fn grounds_of_the_file() {
    for ground in Ground::ALL {
        let of_file = GROUNDS.map(u32::from).contains(&ground.number());
        assert_eq!(ground.is_of_file(), of_file, "{ground:?}");
    }
}

/// A refusal of the file is told from those of a sheet, of a row and of what is asked
/// for.
#[test]
fn refusals_of_the_file() {
    let mut dice = Dice::new(117);
    for ground in GROUNDS {
        for _ in 0..50 {
            let faulty = faulty_file(&mut dice, ground).bytes;
            let refusal = engine::read(&faulty).expect_err("a faulty file");
            assert!(refusal.is_of_file(), "{refusal}");
        }
    }
}

/// The refusal of a row, or of what is asked for.
fn at_place_0(ground: Ground) -> Refusal {
    Refusal { ground, place: 0 }
}

/// Rows of the caller: grounds 16 to 18 come through the wrapper, and the rows
/// stay as they were. Those of gaps and of a board stand below.
#[test]
fn rows_of_the_caller() {
    let file = [0x4C, 0, 15, 0x43, 0, 0, 0, 8, 0x45];
    let mut starts = [7, 8];
    let refused = engine::search_into(&file, &mut starts, 100);
    assert_eq!(refused.map(drop), Err(at_place_0(Ground::StartRowLength)));
    assert_eq!(starts, [7, 8]);
    let refused = engine::wanted_into(&file, &mut starts, 0, 100);
    assert_eq!(refused.map(drop), Err(at_place_0(Ground::StartRowLength)));
    assert_eq!(starts, [7, 8]);
    let (mut class_row, mut weight_row) = ([9; 64], [9; 63]);
    let refused = engine::classes_into(&file, &mut class_row, &mut weight_row);
    assert_eq!(refused.map(drop), Err(at_place_0(Ground::ClassRowLength)));
    assert_eq!((class_row, weight_row), ([9; 64], [9; 63]));
    let mut row = [9; 8];
    let refused = engine::archive_into(&file, &mut row);
    assert_eq!(refused.map(drop), Err(at_place_0(Ground::ArchiveRowLength)));
    assert_eq!(row, [9; 8]);
    let mut row = [9; 10];
    assert_eq!(engine::archive_into(&file, &mut row), Ok(9));
    assert_eq!((&row[..9], row[9]), (&file[..], 9));
}

/// The row of gaps: the file's ground and 15 come through the wrapper.
#[test]
fn rows_of_gaps() {
    let file = [0x4C, 0, 15, 0x43, 0, 1, 0, 8, 0x45];
    let mut row = [9; 64];
    let unfit = engine::gaps_into(&file, &Sheet::of_starts(&[0, 0]), &mut row);
    assert_eq!(
        (unfit, row),
        (Err(at_place_0(Ground::SheetLength)), [9; 64])
    );
    let cut = engine::gaps_into(&file[..8], &Sheet::of_starts(&[0, 0]), &mut row);
    let refusal = Refusal {
        ground: Ground::NoCommand,
        place: 8,
    };
    assert_eq!((cut, row), (Err(refusal), [9; 64]));
    let rated = engine::gaps_into(&file, &Sheet::of_starts(&[0]), &mut row);
    let fifteen = Rating { least: 15, sum: 15 };
    assert_eq!((rated, row[1]), (Ok(fifteen), 15));
    assert!((0..64).all(|stop| stop == 1 || row[stop] == NO_GAP));
}

/// The rows of a board: grounds 8, 22 and 23, each before the next.
#[test]
fn rows_of_a_board() {
    let file = [0x4C, 0, 15, 0x43, 0, 0, 0, 8, 0x45];
    let sheet = Sheet::of_starts(&[0]);
    let (mut times, mut lines) = ([9; 3], [9; 2]);
    for (stop, length, ground) in [
        (64, 10_081, Ground::Stop),
        (u32::MAX, 60, Ground::Stop),
        (0, 10_081, Ground::BoardLength),
        (1, u32::MAX, Ground::BoardLength),
        (0, 60, Ground::BoardRowLength),
    ] {
        let refused = engine::board_into(&file, &sheet, stop, 0, length, &mut times, &mut lines);
        assert_eq!(refused, Err(at_place_0(ground)));
        assert!(!at_place_0(ground).is_of_file());
        assert_eq!((times, lines), ([9; 3], [9; 2]));
    }
    let listed = engine::board_into(&file, &sheet, 0, 0, 30, &mut times, &mut lines);
    assert_eq!((listed, times, lines), (Ok(2), [8, 23, 9], [0, 0]));
    let unfit = engine::board(&file, &Sheet::of_starts(&[]), 64, 0, 10_081);
    assert_eq!(unfit, Err(at_place_0(Ground::SheetLength)));
    let arrival = Arrival { time: 8, line: 0 };
    assert_eq!(engine::board(&file, &sheet, 0, 0, 10), Ok(vec![arrival]));
}
