//! The archive form.

use papers::files::{
    any_file, bytes_of, random_bytes, retyped, valid_commands, Command, Dice, Stated,
};
use papers::sections::archive::{archive, archive_form};
use papers::sections::network::read;

/// The archive form, from what the file was written from.
fn tidied(stated: &Stated) -> Vec<u8> {
    let mut calls = stated.calls.clone();
    calls.sort();
    let opening = match stated.edition {
        1 => None,
        edition => Some(Command::Edition { edition }),
    };
    let lines = stated
        .periods
        .iter()
        .map(|&period| Command::Line { period });
    let calls = calls
        .into_iter()
        .map(|(line, stop, offset)| Command::Call { line, stop, offset });
    let stated = opening.into_iter().chain(lines).chain(calls);
    let commands: Vec<Command> = stated.chain([Command::End]).collect();
    bytes_of(&commands)
}

/// Document 02, A.1: the archive form says what the file says, it is its own
/// archive form, and every way of typing the network has it; A.6: in edition 2 too.
#[test]
fn archive_forms_of_valid_files() {
    let mut dice = Dice::new(19);
    let (mut untidy, mut others, mut second) = (0, 0, 0);
    for _ in 0..3_000 {
        let commands = valid_commands(&mut dice);
        let file = bytes_of(&commands);
        let stated = Stated::by(&commands);
        let net = read(&file).expect("a valid file");
        let form = archive_form(&net);
        assert_eq!(form, tidied(&stated));
        second += usize::from(net.edition == 2);
        assert_eq!(read(&form), Ok(net));
        let again = bytes_of(&retyped(&mut dice, &stated));
        let read_again = read(&again).expect("a valid file");
        assert_eq!(archive_form(&read_again), form);
        untidy += usize::from(form != file);
        others += usize::from(again != file);
    }
    assert!(untidy > 2_000 && others > 2_000, "{untidy}, {others}");
    assert!(second > 250, "{second}");
}

/// The archive call over any file and row.
#[test]
fn archive_rows_of_any_length() {
    let mut dice = Dice::new(20);
    let (mut written, mut short) = (0, 0);
    for _ in 0..4_000 {
        let file = any_file(&mut dice);
        let length = match read(&file) {
            Ok(net) => archive_form(&net).len() + dice.below(5) - 2,
            Err(_) => dice.below(40),
        };
        let before = random_bytes(&mut dice, length);
        let mut row = before.clone();
        match (archive(&file, &mut row), read(&file)) {
            (Ok(length), Ok(net)) => {
                written += 1;
                assert_eq!(row[..length], archive_form(&net));
                assert_eq!(row[length..], before[length..]);
            }
            (Err(why), Ok(net)) => {
                short += 1;
                assert_eq!((why.number, why.place), (18, 0));
                assert!(before.len() < archive_form(&net).len());
                assert_eq!(row, before);
            }
            (answer, Err(why)) => assert_eq!((answer, row), (Err(why), before)),
        }
    }
    assert!(written > 500 && short > 500, "{written}, {short}");
}
