//! Document 02, A.6: "Files without the command `56` are read as ever." Papers and
//! engine beside the reading as it stood before, and the same file opened with its
//! edition: places are two bytes further on, and nothing else moves.

use engine::typed::commands;
use papers::answers;
use papers::before_editions::{self, is_of_before};
use papers::files::{
    any_file, damaged_file, faulty_file, likely_bytes, limit_file, roomy_file, valid_file,
    very_long_file, Dice, OUTCOMES,
};
use papers::sections::network::{read, Network, Refusal, EDITION, END, FOLLOW};

/// Reads a file by the papers; the engine reads the same.
fn read_by_both(file: &[u8]) -> Result<Network, Refusal> {
    let paper = read(file);
    let expected = paper.as_ref().map(answers::counts);
    let expected = expected.map_err(|&why| answers::refusal(why));
    assert_eq!(engine::read(file), expected);
    paper
}

/// A file of one of the kinds that the other tests have.
fn file_of_any_kind(dice: &mut Dice) -> Vec<u8> {
    match dice.below(16) {
        0 => damaged_file(dice),
        1 => limit_file(dice),
        2 => roomy_file(dice),
        3 => {
            let length = dice.below(30);
            likely_bytes(dice, length)
        }
        4 => {
            let ground = dice.within(1, 14) as u8;
            faulty_file(dice, ground).bytes
        }
        5 if dice.once_in(40) => very_long_file(dice),
        6..=9 => valid_file(dice),
        _ => any_file(dice),
    }
}

/// How often each outcome was met: accepted, or refused by a ground.
type Met = [usize; OUTCOMES];

fn count<T>(met: &mut Met, answer: &Result<T, Refusal>) {
    let ground = answer.as_ref().map_or_else(|why| why.number, |_| 0);
    met[usize::from(ground)] += 1;
}

/// Without the command there is the same refusal, or the same lines and calls in
/// edition 1. With it, behind another command, it is refused there, as it was.
#[test]
fn files_without_the_command_are_read_as_ever() {
    let mut dice = Dice::new(83);
    let mut met = Met::default();
    for number in 0..30_000 {
        let file = file_of_any_kind(&mut dice);
        let (before, now) = (before_editions::read(&file), read_by_both(&file));
        if is_of_before(&file) {
            count(&mut met, &now);
            if let Ok(net) = &now {
                assert_eq!(net.edition, 1, "file {number}");
            }
            let now = now.map(|net| (net.periods, net.calls, net.cycle));
            let before = before.map(|net| (net.periods, net.calls, net.cycle));
            assert_eq!(now, before, "file {number}");
        } else if file[0] != EDITION {
            let why = now.expect_err("an edition that isn't first");
            assert!([3, 20].contains(&why.number), "file {number}");
            assert_eq!(before.map_err(|why| why.place), Err(why.place));
        }
    }
    println!("accepted, then refusals 1 to 14: {:?}", &met[..15]);
    assert!(met[0] > 5_000 && met[1..15].iter().all(|&count| count > 20));
}

/// A few by hand, among them those of document 01.
#[test]
fn files_by_hand_are_read_as_ever() {
    let files: [&[u8]; 9] = [
        &[],
        &[0x4C, 0, 15, 0x43, 0, 0, 0, 8, 0x45],
        &[0x4C, 0, 15, 0x43, 0, 0, 0, 8],
        &[0x4C, 0, 15, 0x43, 0, 0, 0, 8, 0x45, 0x56],
        &[0x4C, 0, 0x56, 0x43, 0, 5, 0x46, 0x56, 0x45],
        &[0x4C, 0, 15, 0x43, 0, 0, 0, 8, 0x46, 0, 1, 0, 3, 0x45],
        &[0x4C, 0, 15, 0x46, 0x56, 0x56, 0, 3, 0x45],
        &[0x4C, 0x56],
        &[0x55, 0x56],
    ];
    for file in files {
        assert!(is_of_before(file), "{file:02X?}");
        let now = read_by_both(file).map(|net| (net.periods, net.calls, net.cycle));
        let before = before_editions::read(file).map(|net| (net.periods, net.calls, net.cycle));
        assert_eq!(now, before, "{file:02X?}");
    }
}

/// The place of the first `46` with all its operands before the end.
fn first_ride(file: &[u8]) -> Option<usize> {
    let mut place = 0;
    for command in commands(file) {
        match *command {
            [FOLLOW, _, _, _, _] => return Some(place),
            [END] => return None,
            _ => place += command.len(),
        }
    }
    None
}

/// What a file is read as behind its edition.
fn behind(edition: u8, answer: Result<Network, Refusal>) -> Result<Network, Refusal> {
    let moved = |why: Refusal| Refusal {
        place: why.place + 2,
        ..why
    };
    answer.map(|net| Network { edition, ..net }).map_err(moved)
}

/// Seeded files that don't begin with an edition.
fn unopened_files(seed: u64) -> impl Iterator<Item = Vec<u8>> {
    let mut dice = Dice::new(seed);
    let files = (0..20_000).map(move |_| file_of_any_kind(&mut dice));
    files.filter(|file| file.first() != Some(&EDITION))
}

/// What papers and engine read where a file is opened with an edition, counted.
fn read_opened(edition: u8, file: &[u8], met: &mut Met) -> Result<Network, Refusal> {
    let opened = read_by_both(&[&[EDITION, edition], file].concat());
    count(met, &opened);
    opened
}

/// A file that begins with no edition, opened with the first one.
#[test]
fn the_first_edition_says_what_a_file_without_it_says() {
    let mut met = Met::default();
    for (number, file) in unopened_files(84).enumerate() {
        let opened = read_opened(1, &file, &mut met);
        assert_eq!(opened, behind(1, read(&file)), "file {number}");
    }
    println!("accepted, then refusals 1 to 23: {met:?}");
    assert!(met[0] > 3_000 && met[1..15].iter().all(|&count| count > 20) && met[20] > 20);
}

/// The same with the second one: up to its first `46`, which is refused unless
/// something before it is.
#[test]
fn the_second_edition_says_the_same_without_rides() {
    let mut met = Met::default();
    let (mut with, mut without) = (0, 0);
    for (number, file) in unopened_files(85).enumerate() {
        let opened = read_opened(2, &file, &mut met);
        let first = read(&file);
        let before = |ride: usize| first.as_ref().is_err_and(|why| why.place < ride);
        match first_ride(&file).filter(|&ride| !before(ride)) {
            Some(ride) => {
                with += 1;
                let retired = Refusal {
                    number: 19,
                    place: ride + 2,
                };
                assert_eq!(opened, Err(retired), "file {number}");
            }
            None => {
                without += 1;
                assert_eq!(opened, behind(2, first), "file {number}");
            }
        }
    }
    println!("with rides {with}, without {without}; accepted, then refusals: {met:?}");
    assert!(with > 2_000 && without > 5_000 && met[0] > 1_000);
}
