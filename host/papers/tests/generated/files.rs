//! The files themselves, and how they are read.

use papers::files::{
    any_file, bytes_of, damaged_file, likely_bytes, limit_file, random_bytes, valid_commands,
    valid_file, very_long_file, Command, Dice, Stated, GROUNDS, OUTCOMES,
};
use papers::sections::network::{read, read_counts, Call, Refusal, LATEST_EDITION, MAX_CYCLE};

#[test]
fn the_same_seed_gives_the_same_files() {
    let (mut one, mut other) = (Dice::new(7), Dice::new(7));
    for _ in 0..100 {
        assert_eq!(any_file(&mut one), any_file(&mut other));
    }
    // The first numbers of splitmix64 from seed 1234567.
    let mut dice = Dice::new(1_234_567);
    assert_eq!(dice.bits(), 6_457_827_717_110_365_317);
    assert_eq!(dice.bits(), 3_203_168_211_198_807_973);
}

/// A valid file is read as what it was written from.
#[test]
fn valid_files_are_read_as_written() {
    let mut dice = Dice::new(8);
    let (mut follows, mut loops) = (0, 0);
    let mut editions = [0; LATEST_EDITION as usize + 1];
    for _ in 0..3_000 {
        let commands = valid_commands(&mut dice);
        let file = bytes_of(&commands);
        let follow = |command: &&Command| matches!(command, Command::Follow { .. });
        follows += commands.iter().filter(follow).count();
        let stated = Stated::by(&commands);
        let net = read(&file).expect("a valid file");
        assert_eq!(net.edition, stated.edition);
        editions[usize::from(net.edition)] += 1;
        let periods: Vec<u32> = stated.periods.iter().map(|&period| period.into()).collect();
        assert_eq!(net.periods, periods);
        let calls = stated.calls.iter().map(|&(line, stop, offset)| Call {
            line: line.into(),
            stop: stop.into(),
            offset: offset.into(),
        });
        let mut calls: Vec<Call> = calls.collect();
        calls.sort();
        assert_eq!(net.calls, calls);
        loops += usize::from(stated.has_loop());
        // The least number that every period divides.
        let cycle = (1..=MAX_CYCLE)
            .find(|cycle| periods.iter().all(|period| cycle % period == 0))
            .expect("a cycle in range");
        assert_eq!(net.cycle, cycle);
        assert_eq!(read_counts(&file), Ok(net.counts()));
    }
    assert!(follows > 3_000, "{follows}");
    let each = editions[1..].iter().all(|&count| count > 200);
    assert!(each && editions[1] > 2_000, "{editions:?}");
    assert!((300..2_000).contains(&loops), "{loops}");
}

/// Every shorter part of an accepted file is refused on ground 1 or 3, with the
/// place where the cut command begins; every longer file on ground 14.
#[test]
fn accepted_files_cut_and_lengthened() {
    let mut dice = Dice::new(9);
    for _ in 0..300 {
        let commands = valid_commands(&mut dice);
        let file = bytes_of(&commands);
        let mut begins = vec![0];
        for command in &commands {
            begins.push(begins[begins.len() - 1] + command.bytes().len());
        }
        for length in 0..file.len() {
            let begin = *begins
                .iter()
                .filter(|&&begin| begin <= length)
                .max()
                .expect("0 is a beginning");
            let number = if begin == length { 1 } else { 3 };
            let expected = Refusal {
                number,
                place: begin,
            };
            assert_eq!(read(&file[..length]), Err(expected));
        }
        let behind = [file.clone(), vec![dice.byte()]].concat();
        let expected = Refusal {
            number: 14,
            place: file.len(),
        };
        assert_eq!(read(&behind), Err(expected));
    }
}

/// How many of the files are accepted, and on which grounds others are refused.
fn outcomes(files: impl Iterator<Item = Vec<u8>>) -> [usize; OUTCOMES] {
    let mut counts = [0; OUTCOMES];
    for file in files {
        match read(&file) {
            Ok(_) => counts[0] += 1,
            Err(Refusal { number, place }) => {
                assert!(GROUNDS.contains(&number) && place <= file.len());
                assert_eq!(number == 1, place == file.len());
                counts[usize::from(number)] += 1;
            }
        }
    }
    counts
}

/// Every file gets an answer, and the generator reaches every ground and
/// acceptance often enough.
#[test]
fn files_of_any_content() {
    let mut dice = Dice::new(10);
    let any = outcomes((0..20_000).map(|_| any_file(&mut dice)));
    assert!(any[0] > 8_000 && any[0] < 14_000, "{any:?}");
    let often = |&ground: &u8| any[usize::from(ground)] > 20;
    assert!(GROUNDS.iter().all(often), "{any:?}");
    let damaged = outcomes((0..5_000).map(|_| damaged_file(&mut dice)));
    assert!(damaged[0] > 500 && damaged[0] < 4_000, "{damaged:?}");
    let limits = outcomes((0..1_000).map(|_| limit_file(&mut dice)));
    assert!(
        limits[0] > 20 && limits[4] > 20 && limits[10] > 5,
        "{limits:?}"
    );
    outcomes((0..50).map(|_| very_long_file(&mut dice)));
    outcomes((0..5_000).map(|number| random_bytes(&mut dice, number % 300)));
    outcomes((0..5_000).map(|number| likely_bytes(&mut dice, number % 300)));
    let valid = outcomes((0..5_000).map(|_| valid_file(&mut dice)));
    assert_eq!(valid[0], 5_000);
}

/// An edition, 16 lines and 256 calls are 1,330 bytes, and one more command is 5 at
/// most: a long file is refused by its first 1,335 bytes, whatever follows.
#[test]
fn long_files_are_decided_by_their_first_bytes() {
    let mut dice = Dice::new(18);
    for _ in 0..200 {
        let file = very_long_file(&mut dice);
        let answer = read(&file);
        assert!(matches!(answer, Err(why) if why.place <= 1_331));
        assert_eq!(answer, read(&file[..1_335]));
    }
}
