//! Rows of every length: grounds 16 to 18.

use crate::compared::{compare_archive, compare_wanted, three_lines, Seen};
use crate::lent::{answer_row, Lent};
use crate::{examination_classes, examination_search};
use papers::files::{bytes_of, faulty_file, Command, Dice, GROUNDS};
use papers::sections::classes::classes;
use papers::sections::network::read;
use papers::sections::walk::walk;

/// A refused call leaves rows of every length about the right ones as they
/// were: grounds 16 and 17.
#[test]
fn rows_of_other_lengths() {
    let mut dice = Dice::new(63);
    let file = three_lines([15, 20, 12]);
    let net = read(&file).expect("an accepted file");
    let best = walk(&net, 1_000).starts.expect("a best");
    let long = [259, 4_096, 4_099, 65_536, 65_539];
    for length in (0..=40).filter(|&length| length != 3).chain(long) {
        let mut row = Lent::of(length, || dice.bits() as i32);
        let mut answer = answer_row::<3>(&mut dice);
        let before = (row.clone(), answer.clone());
        let places = answer.row().try_into().expect("3 places");
        let found = searched(&file, row.row(), places);
        assert_eq!((found, row, answer), (16 * 65_536, before.0, before.1));
    }
    let mut row = vec![7; 3];
    let found = searched(&file, &mut row, &mut [0; 3]);
    assert_eq!((found, row), (0, best));
    for other in [0, 1, 63, 65, 320, 4_096, 4_160, 65_536, 65_600] {
        for (class, weight) in [(64, other), (other, 64), (other, other)] {
            assert_eq!(filled(&mut dice, &file, class, weight), 17 * 65_536);
        }
    }
    assert_eq!(filled(&mut dice, &file, 64, 64), 0);
}

/// The same of a wanted gap: no row of another length is written, whatever is
/// wanted; and none and stopped leave one of the right length as it was.
#[test]
fn start_rows_of_a_wanted_gap() {
    let mut dice = Dice::new(78);
    let file = three_lines([15, 20, 12]);
    let long = [259, 4_096, 4_099, 65_536, 65_539];
    for asked in [(0, 0), (0, 1_000), (1, 1_000), (u16::MAX, 1_000)] {
        let mut seen = Seen::default();
        for length in (0..=40).filter(|&length| length != 3).chain(long) {
            compare_wanted(&mut dice, &file, length, asked, &mut seen);
        }
        assert_eq!((seen.answers, seen.grounds[16]), ([0; 3], 45));
    }
    let mut seen = Seen::default();
    for asked in [(0, 3), (u16::MAX, 1), (0, 2), (u16::MAX, 0)] {
        compare_wanted(&mut dice, &file, 3, asked, &mut seen);
    }
    assert_eq!(seen.answers, [1, 1, 2]);
}

/// A refused file gives its own ground, also where the start row would be refused.
#[test]
fn the_files_ground_comes_before_a_wanted_gaps_row() {
    let mut dice = Dice::new(79);
    for ground in GROUNDS {
        let faulty = faulty_file(&mut dice, ground);
        let mut seen = Seen::default();
        for length in [0, 1, 16, 17, 5_000] {
            compare_wanted(&mut dice, &faulty.bytes, length, (0, 100), &mut seen);
        }
        assert_eq!(seen.grounds[usize::from(ground)], 5);
    }
}

/// Searches with this start row.
fn searched(file: &[u8], row: &mut [i32], answer: &mut [u32; 3]) -> u32 {
    let (length, row) = (row.len(), row.as_mut_ptr());
    unsafe { examination_search(file.as_ptr(), file.len(), row, length, 1_000, answer) }
}

/// Calls for the classes with rows of these lengths and compares the rows.
fn filled(dice: &mut Dice, file: &[u8], class: usize, weight: usize) -> u32 {
    let mut class_row = Lent::of(class, || dice.byte());
    let mut weight_row = Lent::of(weight, || dice.bits() as u16);
    let mut answer = answer_row::<1>(dice);
    let mut expected = (class_row.clone(), weight_row.clone(), answer.clone());
    if (class, weight) == (64, 64) {
        let found = classes(&read(file).expect("an accepted file"));
        expected.0 = class_row.holding(&found.class_row);
        expected.1 = weight_row.holding(&found.weight_row);
        expected.2 = answer.holding(&[found.count as u32]);
    }
    let returned = unsafe {
        examination_classes(
            file.as_ptr(),
            file.len(),
            class_row.pointer(),
            class,
            weight_row.pointer(),
            weight,
            answer.pointer().cast(),
        )
    };
    assert_eq!((class_row, weight_row, answer), expected);
    returned
}

/// Ground 18 asks for the archive form's length and not for more, on the shortest
/// file, a middling one and the longest, each without an edition, which its archive
/// form hasn't either, with the first, and with the second, which it has.
#[test]
fn archive_rows_of_every_length() {
    let mut dice = Dice::new(65);
    let shortest = vec![0x4C, 0, 15, 0x43, 0, 0, 0, 8, 0x45];
    let mut longest = vec![Command::Line { period: 60 }; 16];
    // By stop and then by line, so that hardly a call stays in its place.
    for call in 0..256u16 {
        let (line, stop) = (call as u8 % 16, call as u8 / 16);
        let offset = 65_535 - call;
        longest.push(Command::Call { line, stop, offset });
    }
    longest.push(Command::End);
    let files = [
        (shortest, 9),
        (three_lines([15, 20, 12]), 35),
        (bytes_of(&longest), 1_329),
    ];
    for (file, without) in files {
        for (opening, more) in [(&[][..], 0), (&[0x56, 1], 0), (&[0x56, 2], 2)] {
            let (file, right) = ([opening, &file].concat(), without + more);
            let mut seen = Seen::default();
            for length in (0..=right + 40).chain([4_096, 4_097, 65_536, 65_537]) {
                compare_archive(&mut dice, &file, length, &mut seen);
            }
            assert_eq!((seen.answers[0], seen.grounds[18]), (45, right));
        }
    }
}

/// A refused file gives its own ground, also where the row is too short for
/// every archive form.
#[test]
fn the_files_ground_comes_before_the_archive_rows() {
    let mut dice = Dice::new(66);
    for ground in GROUNDS {
        let faulty = faulty_file(&mut dice, ground);
        let mut seen = Seen::default();
        for length in [0, 1, 8, 1_331, 5_000] {
            compare_archive(&mut dice, &faulty.bytes, length, &mut seen);
        }
        assert_eq!(seen.grounds[usize::from(ground)], 5);
    }
}
