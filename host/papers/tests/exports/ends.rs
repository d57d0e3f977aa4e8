//! The ends of what is allowed: the longest file and what stands behind it, and
//! the largest numbers.

use crate::compared::{
    board_length, compare_archive, compare_better, compare_board, compare_by_key, compare_classes,
    compare_gaps, compare_hundred, compare_mark, compare_rate, compare_read, compare_search,
    compare_wanted, AllSeen, Rates,
};
use crate::{examination_rate, examination_wanted, examination_weighted};
use papers::files::{bytes_of, longest_file, openings, sheet, sheet_bytes, window, Command, Dice};
use papers::sections::sheets::{rate_bytes, weighted_bytes};

/// Every export on a file, with rows and sheets that are right for so many lines.
fn compare_with_right_rows(dice: &mut Dice, file: &[u8], lines: usize) -> AllSeen {
    let mut seen = AllSeen::default();
    let [one, other] = [0, 1].map(|_| sheet_bytes(&sheet(dice, lines)));
    compare_read(dice, file, &mut seen.read);
    let rate: (Rates, _) = (examination_rate, rate_bytes(file, &one));
    compare_rate(dice, rate, file, &one, &mut seen.rate);
    let weighted: (Rates, _) = (examination_weighted, weighted_bytes(file, &one));
    compare_rate(dice, weighted, file, &one, &mut seen.weighted);
    // Half of the rows are of another length, which comes after the file.
    for _ in 0..24 {
        compare_classes(dice, file, &mut seen.classes);
    }
    compare_search(dice, file, lines, 3_000, &mut seen.search);
    for gap in [0, 1, 1_440, 1_441, u16::MAX] {
        compare_wanted(dice, file, lines, (gap, 3_000), &mut seen.wanted);
    }
    compare_better(file, &one, &other, &mut seen.better);
    compare_mark(dice, file, &one, 3_000, &mut seen.mark);
    compare_hundred(dice, file, &one, 3_000, &mut seen.hundred);
    compare_by_key(dice, file, &one, &other, &mut seen.by_key);
    compare_archive(dice, file, 1_331, &mut seen.archive);
    let window = window(dice, file);
    let right = board_length(dice, file, &one, window);
    compare_board(dice, (file, &one), window, (right, right), &mut seen.board);
    compare_gaps(dice, file, &one, &mut seen.gaps);
    seen
}

#[test]
fn the_longest_file_is_accepted() {
    let mut dice = Dice::new(76);
    for edition in openings() {
        let longest = longest_file(&mut dice, edition);
        assert_eq!(longest.len(), edition.map_or(1_329, |_| 1_331));
        let seen = compare_with_right_rows(&mut dice, &longest, 16);
        for one in seen.refusing() {
            assert!(one.answers != [0; 3] && one.grounds[14] == 0, "{seen:?}");
        }
    }
}

/// A wanted gap is a number of 16 bits: what stands above them in its register
/// plays no part. A caller in C extends it; another may leave there what was.
#[test]
fn a_wanted_gap_has_16_bits() {
    type Wider =
        unsafe extern "C" fn(*const u8, usize, *mut i32, usize, u64, u32, *mut [u32; 1]) -> u32;
    let wider: Wider = unsafe { std::mem::transmute(examination_wanted as *const ()) };
    let file = [0x4C, 0, 15, 0x43, 0, 0, 0, 8, 0x45];
    for (gap, expected) in [(0, 0), (15, 0), (16, 1), (65_535, 1)] {
        for above in [0, 1, 0xFFFF, 0x8000_0000_0000, 0xFFFF_FFFF_FFFF] {
            let (mut row, mut answer) = ([7], [7]);
            let register = above << 16 | gap;
            let row_pointer = row.as_mut_ptr();
            let found = unsafe {
                wider(
                    file.as_ptr(),
                    file.len(),
                    row_pointer,
                    1,
                    register,
                    1,
                    &mut answer,
                )
            };
            let starts = if expected == 0 { [0] } else { [7] };
            assert_eq!(
                (found, row, answer),
                (expected, starts, [1]),
                "{register:#x}"
            );
        }
    }
}

/// The longest file lengthened by any bytes to so many: ground 14 behind its end.
fn compare_longer(dice: &mut Dice, longest: &[u8], length: usize) {
    for tail in [0, 0x43, 0x45, 0x4C, 0x56, 0xFF] {
        let mut longer = longest.to_vec();
        longer.resize(length, tail);
        let seen = compare_with_right_rows(dice, &longer, 16);
        let behind = 14 * 65_536 + longest.len() as u32;
        for one in seen.refusing() {
            assert_eq!((one.answers, one.last), ([0; 3], behind));
        }
        assert_eq!(seen.better.answers, [1, 0, 0]);
    }
}

/// A byte more than the longest file, whatever it is, is ground 14 at 1,329, or with an
/// edition at 1,331, the last place of all, however many come behind it.
#[test]
fn a_byte_behind_the_longest_file() {
    let mut dice = Dice::new(68);
    for edition in openings() {
        let longest = longest_file(&mut dice, edition);
        let few = [1, 2, 5].map(|more| longest.len() + more);
        for length in [&few[..], &[4_095, 4_096, 4_097, 5_000, 65_536]].concat() {
            compare_longer(&mut dice, &longest, length);
        }
    }
}

/// Numbers above 16 bits: one line of 1,440 minutes at 64 stops, all alike, has
/// the largest sum, 92,160.
#[test]
fn the_largest_sum() {
    let mut dice = Dice::new(69);
    let calls = (0..64).map(|stop| Command::Call {
        line: 0,
        stop,
        offset: 65_535 - u16::from(stop),
    });
    let line = [Command::Line { period: 1_440 }];
    let commands: Vec<Command> = line
        .into_iter()
        .chain(calls)
        .chain([Command::End])
        .collect();
    let file = bytes_of(&commands);
    let rating = rate_bytes(&file, &[0; 4]).expect("an accepted file");
    assert_eq!((rating.least, rating.sum), (1_440, 92_160));
    let seen = compare_with_right_rows(&mut dice, &file, 1);
    assert_eq!((seen.rate.answers[0], seen.weighted.answers[0]), (1, 1));
    assert_eq!((seen.search.answers[0], seen.mark.answers[0]), (1, 1));
    assert_eq!((seen.hundred.answers[0], seen.by_key.answers[0]), (1, 1));
    assert_eq!(seen.gaps.answers[0], 1);
    // Its period is its gap, and no more can be had.
    assert_eq!(seen.wanted.answers, [3, 2, 0]);
    assert!(seen.classes.answers[0] > 0);
}
