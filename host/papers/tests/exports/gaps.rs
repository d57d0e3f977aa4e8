//! The gap of each stop: seeded sheets, both ends of 32 bits, every stop, every lone
//! period and every distance, the fullest stop and 64 stops; and the rows of a refusal.

use crate::called;
use crate::compared::{compare_gaps, three_lines, Seen};
use crate::lent::{answer_row, Lent};
use papers::files::{
    any_sheet_bytes, faulty_file, file_of, fullest_file, longest_file, openings, random_bytes,
    sheet, sheet_bytes, valid_file, Dice, GROUNDS,
};
use papers::sections::gaps::{row_by_counting, NO_GAP};
use papers::sections::network::{read, Network};
use papers::sections::rating::whole;

const FILES: usize = 4_000;

/// The row and the answer of a call that isn't refused, each place of them 7 before it.
fn filled(file: &[u8], sheet: &[u8]) -> ([u16; 64], [u32; 2]) {
    let (mut gap_row, mut answer) = ([7; 64], [7; 2]);
    let returned = called::gaps(file, sheet, &mut gap_row, &mut answer);
    assert_eq!(returned, 0);
    (gap_row, answer)
}

/// A row with these gaps, and no other stop served.
fn row_of(gaps: &[(usize, u16)]) -> [u16; 64] {
    let mut row = [NO_GAP; 64];
    for &(stop, gap) in gaps {
        row[stop] = gap;
    }
    row
}

/// Sheets of any kind on valid files.
#[test]
fn gaps_of_seeded_sheets() {
    let mut dice = Dice::new(121);
    let mut seen = Seen::default();
    for _ in 0..FILES {
        let file = valid_file(&mut dice);
        let lines = read(&file).expect("a valid file").lines();
        for _ in 0..3 {
            let sheet = any_sheet_bytes(&mut dice, lines);
            compare_gaps(&mut dice, &file, &sheet, &mut seen);
        }
    }
    println!("{} rows, refused {:?}", seen.answers[0], seen.grounds);
    assert!(seen.answers[0] > FILES && seen.has_exactly(&[15]));
}

/// What the rows hold, to see that every kind came: an unserved stop, a lone one, one where
/// a line calls twice, stop 0, stop 63, a gap of 0, one above 8 bits.
fn kinds(net: &Network, row: &[u16; 64]) -> [bool; 7] {
    let calls = || (0..64).map(|stop| net.calls_at(stop));
    let gaps = || row.iter().filter(|&&gap| gap != NO_GAP);
    [
        row.contains(&NO_GAP),
        calls().any(|calls| calls.len() == 1),
        calls().any(|calls| calls.windows(2).any(|two| two[0].line == two[1].line)),
        row[0] != NO_GAP,
        row[63] != NO_GAP,
        row.contains(&0),
        gaps().any(|&gap| gap > 255),
    ]
}

/// Sheets that fit.
#[test]
fn gaps_of_every_kind() {
    let mut dice = Dice::new(122);
    let (mut seen, mut met) = (Seen::default(), [0; 7]);
    for _ in 0..FILES {
        let file = valid_file(&mut dice);
        let net = read(&file).expect("a valid file");
        let starts = sheet(&mut dice, net.lines());
        let row = row_by_counting(&net, &whole(&starts));
        for (count, is) in met.iter_mut().zip(kinds(&net, &row)) {
            *count += usize::from(is);
        }
        compare_gaps(&mut dice, &file, &sheet_bytes(&starts), &mut seen);
    }
    println!("unserved, lone, a line twice, stop 0, stop 63, 0, above 255: {met:?}");
    assert!(met.iter().all(|&count| count >= 30), "{met:?}");
    assert_eq!(seen.answers, [FILES, 0, 0]);
}

/// Starts at both ends of 32 bits, in every mix, on one file after another of one length.
#[test]
fn both_ends_of_32_bits() {
    let mut dice = Dice::new(123);
    let mut seen = Seen::default();
    let ends = [i32::MIN, i32::MIN + 1, -1, 0, 1, i32::MAX - 1, i32::MAX];
    for mix in 0..7 * 7 * 7 {
        let sheet = sheet_bytes(&[mix % 7, mix / 7 % 7, mix / 49].map(|at| ends[at]));
        for periods in [[15, 20, 12], [1_440, 7, 1], [11, 13, 70], [3, 9, 27]] {
            compare_gaps(&mut dice, &three_lines(periods), &sheet, &mut seen);
        }
    }
    assert_eq!(seen.answers, [4 * 343, 0, 0]);
}

/// Each stop served alone, with the longest period and with the shortest one.
#[test]
fn one_served_stop() {
    for stop in 0..64 {
        for period in [1, 255, 256, 1_440] {
            let file = file_of(&[period], &[(0, stop, 65_535)]);
            let (row, answer) = filled(&file, &[0xFF; 4]);
            assert_eq!(row, row_of(&[(usize::from(stop), period)]));
            assert_eq!(answer, [u32::from(period); 2]);
        }
    }
}

/// A lone stop has its line's period, whichever it is.
#[test]
fn every_lone_period() {
    for period in 1..=1_440 {
        let file = file_of(&[period], &[(0, 63, 8)]);
        let (row, answer) = filled(&file, &[0x80, 0, 0, 0]);
        assert_eq!(row, row_of(&[(63, period)]));
        assert_eq!(answer, [u32::from(period); 2]);
    }
}

/// Two lines at every distance within the common divisor of their periods: the lesser of
/// d and g-d, at stop 0; the first of them alone at stop 63.
#[test]
fn every_distance_of_two_lines() {
    for (one, other, g) in [(1_440, 1_440, 1_440), (60, 90, 30), (96, 1_440, 96)] {
        let two = file_of(&[one, other], &[(0, 0, 0), (1, 0, 0), (0, 63, 9)]);
        for d in 0..=g {
            let (row, answer) = filled(&two, &sheet_bytes(&[0, i32::from(d)]));
            let gap = d.min(g - d);
            assert_eq!(row, row_of(&[(0, gap), (63, one)]), "{one}, {other}, {d}");
            assert_eq!(answer, [u32::from(gap), u32::from(gap + one)]);
        }
    }
}

/// A line that calls twice, at every distance up to two periods.
#[test]
fn every_distance_of_one_line() {
    for offset in 0..=2_881 {
        let twice = file_of(&[1_440], &[(0, 63, offset), (0, 63, 0)]);
        let d = offset % 1_440;
        let gap = d.min(1_440 - d);
        let found = filled(&twice, &[0; 4]);
        assert_eq!(found, (row_of(&[(63, gap)]), [u32::from(gap); 2]));
    }
}

/// 64 served stops, each with a gap of its own: a line calls twice at each, 11 minutes
/// further apart from stop to stop. Then with another line at every second one.
#[test]
fn sixty_four_gaps() {
    let twice = |stop: u8| [(0, stop, 0), (0, stop, 11 * u16::from(stop))];
    let calls: Vec<(u8, u8, u16)> = (0..64).flat_map(twice).collect();
    let (row, answer) = filled(&file_of(&[1_440], &calls), &[9; 4]);
    assert_eq!(row, std::array::from_fn(|stop| 11 * stop as u16));
    assert_eq!(answer, [0, 11 * 63 * 64 / 2]);
    let other = (0..64).step_by(2).map(|stop| (1, stop, 1_437));
    let calls: Vec<(u8, u8, u16)> = calls.into_iter().chain(other).collect();
    let (row, _) = filled(&file_of(&[1_440, 720], &calls), &[9; 8]);
    // The other line is 3 minutes before the first call.
    let gap = |stop: usize| match stop % 2 {
        0 => 3.min(11 * stop as u16),
        _ => 11 * stop as u16,
    };
    assert_eq!(row, std::array::from_fn(gap));
}

/// A stop where each of 16 lines calls twice: every minute, and 45 minutes apart, from
/// which every line in turn is moved.
#[test]
fn the_fullest_stop() {
    let mut dice = Dice::new(124);
    let mut seen = Seen::default();
    for _ in 0..20 {
        let sheet = sheet_bytes(&sheet(&mut dice, 16));
        compare_gaps(&mut dice, &fullest_file(), &sheet, &mut seen);
    }
    assert_eq!(seen.answers[0], 20);
    let calls: Vec<(u8, u8, u16)> = (0..32)
        .map(|call| (call % 16, 63, 45 * u16::from(call)))
        .collect();
    let file = file_of(&[1_440; 16], &calls);
    assert_eq!(filled(&file, &[0; 64]), (row_of(&[(63, 45)]), [45; 2]));
    for line in 0..16 {
        let mut starts = [0; 16];
        starts[line] = 20;
        let (row, answer) = filled(&file, &sheet_bytes(&starts));
        assert_eq!((row, answer), (row_of(&[(63, 25)]), [25; 2]));
    }
}

/// The longest files, with any starts.
#[test]
fn gaps_of_the_longest_files() {
    let mut dice = Dice::new(125);
    let mut seen = Seen::default();
    for edition in openings() {
        for _ in 0..20 {
            let longest = longest_file(&mut dice, edition);
            let sheet = random_bytes(&mut dice, 64);
            compare_gaps(&mut dice, &longest, &sheet, &mut seen);
        }
    }
    assert_eq!(seen.answers[0], 60);
}

/// A refusal leaves both rows as they were, whatever they held: of the file, whatever the
/// sheet's length is, and behind it 15.
#[test]
fn rows_of_refused_gaps() {
    let mut dice = Dice::new(126);
    let unfit = (three_lines([15, 20, 12]), 15 * 65_536);
    let faulty = GROUNDS.map(|ground| {
        let faulty = faulty_file(&mut dice, ground);
        let returned = u32::from(ground) * 65_536 + faulty.place as u32;
        (faulty.bytes, returned)
    });
    for (file, expected) in [&[unfit][..], &faulty].concat() {
        for content in [0, 1, 1_440, NO_GAP] {
            for length in [0, 1, 4, 8, 11, 13, 16, 64] {
                let mut gap_row = Lent::of(64, || content);
                let mut answer = answer_row::<2>(&mut dice);
                let before = (gap_row.clone(), answer.clone());
                let rows = (gap_row.pointer().cast(), answer.pointer().cast());
                let returned = called::gaps(&file, &[0; 64][..length], rows.0, rows.1);
                assert_eq!(returned, expected, "{length}");
                assert_eq!((gap_row, answer), before, "{length}");
            }
        }
    }
}

/// What is only read may be one memory, file and sheet.
#[test]
fn file_and_sheet_in_one_memory() {
    let mut dice = Dice::new(127);
    let file = three_lines([15, 20, 12]);
    let mut seen = Seen::default();
    for from in [0, 4, 9] {
        compare_gaps(&mut dice, &file, &file[from..from + 12], &mut seen);
    }
    assert_eq!(seen.answers[0], 3);
}
