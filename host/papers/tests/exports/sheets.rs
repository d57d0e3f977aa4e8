//! Sheets of every byte count up to 64 KB: ground 15 at 0, after the file's own
//! grounds.

use crate::compared::{
    compare_better, compare_board, compare_by_key, compare_gaps, compare_hundred, compare_mark,
    compare_rate, three_lines, Rates, Seen,
};
use crate::{examination_rate, examination_weighted};
use papers::files::{bytes_of, faulty_file, longest_file, random_bytes, Command, Dice, GROUNDS};
use papers::sections::board::Window;
use papers::sections::sheets::{rate_bytes, weighted_bytes};
use std::collections::BTreeSet;

/// 64 KB, and a sheet that fits above it.
const MOST: usize = 65_536 + 64;

/// An hour of stop 0, where none of the files has a hundred arrivals.
const HOUR: Window = Window {
    stop: 0,
    first: 0,
    length: 60,
};

/// All counts up to 200, those about powers of two, alone and above the right
/// one, and whole numbers of starts all the way.
fn counts(right: usize) -> BTreeSet<usize> {
    let powers = (2..=16).map(|power| 1usize << power);
    let about = powers.flat_map(|power| [power - 5..=power + 5, power + right..=power + right]);
    let whole = (0..=MOST).step_by(4 * 37);
    let all = (0..=200).chain(about.flatten()).chain(whole);
    all.filter(|&count| count <= MOST).collect()
}

/// The calls that take a sheet, on one of so many bytes; of better-of-two it is
/// the first one, the second one and both, and beside a key the sheet, the key and
/// both.
fn compare_sheet(dice: &mut Dice, file: &[u8], sheet: &[u8], right: &[u8], seen: &mut [Seen; 8]) {
    let [rate_seen, weighted_seen, mark, hundred, board, gaps, better, by_key] = seen;
    let rate: (Rates, _) = (examination_rate, rate_bytes(file, sheet));
    compare_rate(dice, rate, file, sheet, rate_seen);
    let weighted: (Rates, _) = (examination_weighted, weighted_bytes(file, sheet));
    compare_rate(dice, weighted, file, sheet, weighted_seen);
    compare_mark(dice, file, sheet, 10, mark);
    compare_hundred(dice, file, sheet, 10, hundred);
    compare_board(dice, (file, sheet), HOUR, (100, 100), board);
    compare_gaps(dice, file, sheet, gaps);
    for (first, second) in [(sheet, right), (right, sheet), (sheet, sheet)] {
        compare_better(file, first, second, better);
        compare_by_key(dice, file, first, second, by_key);
    }
}

/// One line, three and sixteen: only a sheet of 4 bytes for each is taken.
#[test]
fn sheets_of_every_byte_count() {
    let mut dice = Dice::new(73);
    let bytes = random_bytes(&mut dice, MOST);
    let one_line = [Command::Line { period: 60 }, call(0), Command::End];
    let files = [
        (bytes_of(&one_line), 4),
        (three_lines([15, 20, 12]), 12),
        (longest_file(&mut dice, Some(2)), 64),
    ];
    for (file, right) in files {
        let counts = counts(right);
        assert!(counts.contains(&right) && counts.len() > 700);
        let others = counts.len() - 1;
        let mut seen = <[Seen; 8]>::default();
        for count in counts {
            compare_sheet(
                &mut dice,
                &file,
                &bytes[..count],
                &bytes[..right],
                &mut seen,
            );
        }
        for one in &seen[..6] {
            assert_eq!(
                (one.grounds[15], one.answers.iter().sum()),
                (others, 1usize)
            );
        }
        // Beside one that fits, a sheet of another length loses; with the fitting
        // one on both sides the first is taken.
        assert_eq!(seen[6].answers, [others, others + 3, others]);
        // A key of another length is refused as a sheet is.
        assert_eq!((seen[7].grounds[15], seen[7].answers[0]), (3 * others, 3));
    }
}

fn call(stop: u8) -> Command {
    Command::Call {
        line: 0,
        stop,
        offset: 0,
    }
}

/// A refused file is refused on its own ground, whatever the sheet's length is.
#[test]
fn the_files_ground_comes_before_the_sheet() {
    let mut dice = Dice::new(74);
    let bytes = random_bytes(&mut dice, MOST);
    for ground in GROUNDS {
        let file = faulty_file(&mut dice, ground).bytes;
        let counts = [0, 1, 3, 4, 8, 63, 64, 65, 68, 4_095, 4_096, 4_100, MOST];
        let mut seen = <[Seen; 8]>::default();
        for count in counts {
            compare_sheet(&mut dice, &file, &bytes[..count], &bytes[..4], &mut seen);
        }
        let ground = usize::from(ground);
        for one in &seen[..6] {
            assert_eq!(one.grounds[ground], counts.len());
        }
        assert_eq!(seen[6].answers, [3 * counts.len(), 0, 0]);
        assert_eq!(seen[7].grounds[ground], 3 * counts.len());
    }
}
