//! Boards: seeded ones, at both ends of 32 bits, in rows of every length, of every
//! length, the fullest; and their grounds in order: 15, 8, 22, 23.

use crate::called;
use crate::compared::{board_length, compare_board, three_lines, Seen};
use crate::examination_board;
use crate::lent::{answer_row, row_length, Lent};
use papers::files::{
    any_sheet_bytes, any_window, bytes_of, faulty_file, fullest_file, sheet, sheet_bytes,
    valid_file, window, Command, Dice, GROUNDS,
};
use papers::sections::board::{by_minutes, Arrival, Window};
use papers::sections::network::read;
use papers::sections::rating::whole;

const FILES: usize = 4_000;

fn at(stop: u32, first: i32, length: u32) -> Window {
    Window {
        stop,
        first,
        length,
    }
}

/// Sheets, windows and rows of any kind.
#[test]
fn boards_of_seeded_sheets() {
    let mut dice = Dice::new(106);
    let mut seen = Seen::default();
    for _ in 0..FILES {
        let file = valid_file(&mut dice);
        let lines = read(&file).expect("a valid file").lines();
        for _ in 0..3 {
            let sheet = any_sheet_bytes(&mut dice, lines);
            let window = any_window(&mut dice, &file);
            let right = board_length(&mut dice, &file, &sheet, window);
            let rows = [0, 1].map(|_| row_length(&mut dice, right));
            let (asked, rows) = ((&file[..], &sheet[..]), rows.into());
            compare_board(&mut dice, asked, window, rows, &mut seen);
        }
    }
    println!("{} boards, refused {:?}", seen.answers[0], seen.grounds);
    assert!(seen.answers[0] > FILES && seen.has_exactly(&[8, 15, 22, 23]));
}

/// What the lists are, to see that every kind came: empty, with a line twice at one
/// minute, with two lines at one minute, with times beyond 32 bits.
fn kinds(list: &[Arrival]) -> [bool; 4] {
    let neighbours = || list.windows(2).filter(|two| two[0].time == two[1].time);
    let beyond = |arrival: &Arrival| i32::try_from(arrival.time).is_err();
    [
        list.is_empty(),
        neighbours().any(|two| two[0].line == two[1].line),
        neighbours().any(|two| two[0].line != two[1].line),
        list.iter().any(beyond),
    ]
}

/// Windows that aren't refused, in rows that are as long as the list and longer.
#[test]
fn boards_of_every_kind() {
    let mut dice = Dice::new(107);
    let (mut seen, mut met) = (Seen::default(), [0; 4]);
    for _ in 0..FILES {
        let file = valid_file(&mut dice);
        let net = read(&file).expect("a valid file");
        let (starts, window) = (sheet(&mut dice, net.lines()), window(&mut dice, &file));
        let list = by_minutes(&net, &whole(&starts), window);
        for (count, is) in met.iter_mut().zip(kinds(&list)) {
            *count += usize::from(is);
        }
        let sheet = sheet_bytes(&starts);
        for more in [0, 5] {
            let rows = (list.len() + more, list.len() + more);
            compare_board(&mut dice, (&file, &sheet), window, rows, &mut seen);
        }
    }
    println!("empty, a line twice at once, lines at once, beyond 32 bits: {met:?}");
    assert!(met.iter().all(|&count| count >= 100), "{met:?}");
    assert_eq!(seen.answers, [2 * FILES, 0, 0]);
}

/// Starts and first minutes at both ends of 32 bits, in every mix.
#[test]
fn both_ends_of_32_bits() {
    let mut dice = Dice::new(108);
    let mut seen = Seen::default();
    let ends = [i32::MIN, i32::MIN + 1, -1, 0, 1, i32::MAX - 1, i32::MAX];
    for periods in [[15, 20, 12], [1_440, 7, 1], [11, 13, 70], [3, 9, 27]] {
        let file = three_lines(periods);
        for mix in 0..7 * 7 * 7 {
            let [one, other, first] = [mix % 7, mix / 7 % 7, mix / 49].map(|at| ends[at]);
            let sheet = sheet_bytes(&[one, other, one]);
            for (stop, length) in [(0, 5), (63, 4), (63, 1_441), (0, 10_080), (1, 10_080)] {
                let window = at(stop, first, length);
                let right = board_length(&mut dice, &file, &sheet, window);
                let asked = (&file[..], &sheet[..]);
                compare_board(&mut dice, asked, window, (right, right), &mut seen);
            }
        }
    }
    assert_eq!(seen.answers, [4 * 343 * 5, 0, 0]);
}

/// Ground 23 asks for the list's length of either row, and not for more: rows of every
/// length about it, and long ones.
#[test]
fn rows_of_every_length() {
    let mut dice = Dice::new(109);
    let (file, sheet) = (three_lines([15, 20, 12]), sheet_bytes(&[0, -17, 5]));
    let window = at(0, -60, 150);
    let right = board_length(&mut dice, &file, &sheet, window);
    let long = [255, 256, 4_096, 65_535, 65_536, 65_536 + right];
    let lengths = || (0..right + 4).chain(long);
    let mut seen = Seen::default();
    for times in lengths() {
        for lines in lengths() {
            compare_board(
                &mut dice,
                (&file, &sheet),
                window,
                (times, lines),
                &mut seen,
            );
        }
    }
    let (all, enough) = (right + 10, 10);
    assert_eq!(seen.answers[0], enough * enough);
    assert_eq!(seen.grounds[23], all * all - enough * enough);
    // An empty list asks for none.
    let mut seen = Seen::default();
    for window in [at(1, -60, 150), at(0, 8, 0), at(62, i32::MIN, 10_080)] {
        for rows in [(0, 0), (0, 3), (3, 0)] {
            compare_board(&mut dice, (&file, &sheet), window, rows, &mut seen);
        }
    }
    assert_eq!(seen.answers[0], 9);
}

/// A line of period 1 has as many arrivals as the window has minutes: all lengths up to
/// 200, those about powers of two and about 10,080, and none above.
#[test]
fn boards_of_every_length() {
    let mut dice = Dice::new(110);
    let minutes = [0x4C, 0, 1, 0x43, 0, 0, 0xFF, 0xFF, 0x45];
    let about = (8..=31).flat_map(|power| [(1 << power) - 1, 1 << power, (1 << power) + 60]);
    let ends = [10_079, 10_080, 10_081, u32::MAX];
    let (mut listed, mut refused) = (Seen::default(), Seen::default());
    let mut counts = [0; 2];
    for length in (0..=200).chain(about).chain(ends) {
        let (seen, at_most) = match length <= 10_080 {
            true => (&mut listed, length as usize),
            false => (&mut refused, 20_000),
        };
        // Stop 1 is unserved.
        for stop in [0, 1] {
            let window = at(stop, -77, length);
            compare_board(
                &mut dice,
                (&minutes, &[9; 4]),
                window,
                (at_most, at_most),
                seen,
            );
        }
        counts[usize::from(length > 10_080)] += 2;
    }
    assert_eq!([listed.answers[0], refused.grounds[22]], counts);
}

/// Every stop up to 63 and no other, however many bits it has.
#[test]
fn boards_of_every_stop() {
    let mut dice = Dice::new(111);
    let calls = (0..=63).map(|stop| Command::Call {
        line: 0,
        stop,
        offset: u16::from(stop),
    });
    let line = [Command::Line { period: 64 }];
    let commands: Vec<Command> = line.into_iter().chain(calls).collect();
    let file = [bytes_of(&commands), vec![0x45]].concat();
    let powers = (6..32).flat_map(|power| [1 << power, (1 << power) + 5]);
    let (mut below, mut above) = (Seen::default(), Seen::default());
    for stop in (0..=320).chain(powers).chain([u32::MAX]) {
        let seen = if stop < 64 { &mut below } else { &mut above };
        compare_board(&mut dice, (&file, &[0; 4]), at(stop, 0, 64), (1, 1), seen);
    }
    assert_eq!(below.answers[0], 64);
    assert_eq!((above.answers[0], above.grounds[8]), (0, 257 + 52 + 1));
}

/// Of every mix of a sheet, a stop, a length and rows that are refused the first has its
/// ground.
#[test]
fn grounds_in_their_order() {
    let mut dice = Dice::new(112);
    let file = three_lines([15, 20, 12]);
    for (mix, stop) in (1..16).flat_map(|mix| [64, 256, u32::MAX].map(|stop| (mix, stop))) {
        let has = |ground: usize| mix >> ground & 1 == 1;
        let sheet = if has(0) { &[0; 8][..] } else { &[0; 12] };
        let stop = if has(1) { stop } else { 63 };
        let length = if has(2) { 10_081 } else { 150 };
        let places = if has(3) { 1 } else { 200 };
        let mut seen = Seen::default();
        let window = at(stop, 0, length);
        compare_board(
            &mut dice,
            (&file, sheet),
            window,
            (places, places),
            &mut seen,
        );
        let first = (0..4).find(|&ground| has(ground)).expect("a ground");
        assert_eq!(seen.last, [15, 8, 22, 23][first] * 65_536, "{mix}, {stop}");
    }
}

/// A refused file gives its own ground, also where all else would be refused.
#[test]
fn the_files_ground_comes_before_a_boards() {
    let mut dice = Dice::new(113);
    for ground in GROUNDS {
        let faulty = faulty_file(&mut dice, ground);
        let mut seen = Seen::default();
        for (sheet, stop, length, places) in [
            (0, 0, 60, 2_000),
            (4, 64, 60, 2_000),
            (4, 0, 10_081, 2_000),
            (4, 0, 60, 0),
            (5, u32::MAX, u32::MAX, 0),
        ] {
            let asked = (&faulty.bytes[..], &[0; 8][..sheet]);
            let rows = (places, places);
            compare_board(&mut dice, asked, at(stop, 0, length), rows, &mut seen);
        }
        assert_eq!(seen.grounds[usize::from(ground)], 5);
        let expected = u32::from(ground) * 65_536 + faulty.place as u32;
        assert_eq!(seen.last, expected);
    }
}

/// A refusal leaves the three rows as they were, whatever they held.
#[test]
fn rows_of_refused_boards() {
    let mut dice = Dice::new(114);
    let file = three_lines([15, 20, 12]);
    let grounds = [
        (&[0; 8][..], at(0, 0, 60), 15),
        (&[0; 12], at(64, 0, 60), 8),
        (&[0; 12], at(0, 0, 10_081), 22),
        (&[0; 12], at(0, 0, 60), 23),
    ];
    for content in [0, 1, -1] {
        for (sheet, window, ground) in grounds {
            let mut times = Lent::of(3, || i64::from(content));
            let mut lines = Lent::of(3, || content as u8);
            let mut answer = answer_row::<1>(&mut dice).holding(&[content as u32]);
            let before = (times.clone(), lines.clone(), answer.clone());
            let rows = (times.row(), lines.row());
            let returned = called::board(&file, sheet, window, rows, answer.pointer().cast());
            assert_eq!(returned, ground * 65_536);
            assert_eq!((times, lines, answer), before);
        }
    }
}

/// The fullest board in rows that are as long as it is, and in rows of a place less.
#[test]
fn the_fullest_board() {
    let mut dice = Dice::new(115);
    let (file, mut seen) = (fullest_file(), Seen::default());
    let sheet = sheet_bytes(&sheet(&mut dice, 16));
    for first in [i32::MIN, -5_040, i32::MAX] {
        let window = at(63, first, 10_080);
        assert_eq!(board_length(&mut dice, &file, &sheet, window), 322_560);
        for rows in [(322_560, 322_560), (322_559, 322_560), (322_560, 322_559)] {
            compare_board(&mut dice, (&file, &sheet), window, rows, &mut seen);
        }
    }
    assert_eq!((seen.answers[0], seen.grounds[23]), (3, 6));
}

/// What is only read may be one memory, file and sheet.
#[test]
fn file_and_sheet_in_one_memory() {
    let mut dice = Dice::new(116);
    let file = three_lines([15, 20, 12]);
    let mut seen = Seen::default();
    for from in [0, 4, 9] {
        let sheet = &file[from..from + 12];
        compare_board(
            &mut dice,
            (&file, sheet),
            at(63, -9, 60),
            (60, 60),
            &mut seen,
        );
    }
    assert_eq!(seen.answers[0], 3);
}

type Wider = unsafe extern "C" fn(
    *const u8,
    usize,
    *const u8,
    usize,
    u64,
    u64,
    u64,
    *mut i64,
    usize,
    *mut u8,
    usize,
    *mut [u32; 1],
) -> u32;

/// Stop, first minute and length have 32 bits: what stands above them where they are
/// handed over plays no part.
#[test]
fn what_stands_above_32_bits() {
    let wider: Wider = unsafe { std::mem::transmute(examination_board as *const ()) };
    let (file, sheet) = ([0x4C, 0, 15, 0x43, 0, 0, 0, 8, 0x45], [0; 4]);
    for above in [0, 1, 0xFFFF, 0x8000_0000, 0xFFFF_FFFF] {
        let number = |bits: u32| above << 32 | u64::from(bits);
        let (mut times, mut lines, mut answer) = ([7; 2], [7; 2], [7]);
        let (time_row, line_row) = (times.as_mut_ptr(), lines.as_mut_ptr());
        let first = number(-8i32 as u32);
        let found = unsafe {
            wider(
                file.as_ptr(),
                file.len(),
                sheet.as_ptr(),
                sheet.len(),
                number(0),
                first,
                number(17),
                time_row,
                2,
                line_row,
                2,
                &mut answer,
            )
        };
        assert_eq!((found, answer), (0, [2]), "{above:#x}");
        assert_eq!((times, lines), ([-7, 8], [0, 0]), "{above:#x}");
    }
}
