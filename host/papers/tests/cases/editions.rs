//! Document 02, A.6, "Following calls retired". Papers and engine are both asked.

use crate::given::{file, hex, p1, p7, p8, p9, refusal};
use engine::Sheet;
use papers::answers;
use papers::files::{longest_file, openings, sheet_bytes, Dice};
use papers::sections::archive::archive;
use papers::sections::board::{by_minutes, Window};
use papers::sections::classes::classes as classes_of;
use papers::sections::gaps::gaps;
use papers::sections::hundred;
use papers::sections::network::{read, read_counts, Counts, Refusal};
use papers::sections::rating::whole;
use papers::sections::sheets::{better_bytes, mark, rate, weighted_rate};
use papers::sections::walk::walk;
use papers::sections::wanted::seek;
use std::fmt::Debug;

/// What papers and engine read, or the refusal.
fn counts(file: &[u8]) -> Result<Counts, Refusal> {
    let paper = read_counts(file);
    let expected = paper.map(answers::counted).map_err(answers::refusal);
    assert_eq!(engine::read(file), expected, "{file:02X?}");
    paper
}

/// The archive call of papers and engine with a row of this length, which held EE: the
/// answer, and the row.
fn archived(file: &[u8], length: usize) -> (Result<usize, Refusal>, Vec<u8>) {
    let [mut paper, mut row] = [0, 1].map(|_| vec![0xEE; length]);
    let answer = archive(file, &mut paper);
    let found = engine::archive_into(file, &mut row);
    assert_eq!(found, answer.map_err(answers::refusal), "{file:02X?}");
    assert_eq!(row, paper, "{file:02X?}");
    (answer, row)
}

/// The archive form of papers and engine.
fn form(file: &[u8]) -> Vec<u8> {
    let (answer, mut row) = archived(file, 1_331);
    row.truncate(answer.expect("an accepted file"));
    row
}

/// The smallest network, and what is read of it in either edition.
const SMALL: &str = "4C000F 4300000008 45";
const OF_SMALL: Counts = Counts {
    lines: 1,
    served_stops: 1,
    calls: 1,
    cycle: 15,
};

#[test]
fn files_that_are_accepted() {
    let small = hex(SMALL);
    for opening in ["", "5601", "5602"] {
        let file = [hex(opening), small.clone()].concat();
        assert_eq!(counts(&file), Ok(OF_SMALL), "{opening}");
    }
    // Operands with the bytes of the commands.
    let operands = Counts {
        cycle: 0x56,
        ..OF_SMALL
    };
    assert_eq!(counts(&hex("5602 4C0056 4300054656 45")), Ok(operands));
}

/// Files with the number and the place of their refusal.
const REFUSED: [(&str, u8, usize); 26] = [
    // The edition is unknown.
    ("5600", 21, 0),
    ("5603", 21, 0),
    ("56FF", 21, 0),
    ("5600 4C000F 4300000008 45", 21, 0),
    ("5603 4C000F 4300000008 45", 21, 0),
    ("56FF 4C000F 4300000008 45", 21, 0),
    // It isn't first; then it doesn't matter which it is.
    ("4C000F 5602 4300000008 45", 20, 3),
    ("4C000F 4300000008 5601 45", 20, 8),
    ("5602 5602", 20, 2),
    ("5602 5607", 20, 2),
    ("5601 5600 4C000F 4300000008 45", 20, 2),
    // It is cut off.
    ("56", 3, 0),
    ("4C000F 56", 3, 3),
    ("5602 56", 3, 2),
    // `46` in edition 2, with whole operands: before 7, behind 3.
    ("5602 4609090000 45", 19, 2),
    ("5602 46090900", 3, 2),
    ("5601 4609090000 45", 7, 2),
    ("5602 4C000F 4300000008 4600010003 45", 19, 10),
    ("5602 4C000F 4600400003 45", 19, 5),
    // The grounds of edition 1 are those of edition 2.
    ("5602", 1, 2),
    ("5602 45", 13, 2),
    ("5602 4C05A1", 5, 2),
    ("5602 4C000F 99", 2, 5),
    ("5602 4C000F 4300000008 45 45", 14, 11),
    // Behind the end nothing is a command.
    ("4C000F 4300000008 45 5602", 14, 9),
    ("4C000F 4300000008 45 56", 14, 9),
];

#[test]
fn files_that_are_refused() {
    for (typed, number, place) in REFUSED {
        let file = hex(typed);
        assert_eq!(counts(&file), refusal(number, place), "{typed}");
        let refused = (refusal(number, place), vec![0xEE; 20]);
        assert_eq!(archived(&file, 20), refused, "{typed}");
    }
}

#[test]
fn archive_forms() {
    let cases = [
        ("5602 4C000F 4300000008 45", "5602 4C000F 4300000008 45"),
        ("5601 4C000F 4300000008 45", SMALL),
        (SMALL, SMALL),
        (
            "5601 4C000F 4300000008 4600010003 45",
            "4C000F 4300000008 430001000B 45",
        ),
        (
            "5602 4C000F 4300050001 4C0056 4301004656 4300000008 45",
            "5602 4C000F 4C0056 4300000008 4300050001 4301004656 45",
        ),
    ];
    for (typed, archive) in cases {
        assert_eq!(form(&hex(typed)), hex(archive), "{typed}");
        assert_eq!(form(&hex(archive)), hex(archive), "{typed}");
    }
    let [first, second] = ["5601", "5602"].map(|opening| form(&[hex(opening), p1()].concat()));
    assert_ne!(first, second);
}

/// Ground 18 asks for two bytes more in edition 2, and in no other.
#[test]
fn archive_rows() {
    let second = format!("5602 {SMALL}");
    let cases = [("", SMALL), ("5601", SMALL), ("5602", &second)];
    for (opening, archive) in cases {
        let (file, form) = ([hex(opening), hex(SMALL)].concat(), hex(archive));
        for length in 0..=13 {
            let mut row = vec![0xEE; length];
            let answer = match length < form.len() {
                true => refusal(18, 0),
                false => Ok(form.len()),
            };
            if answer.is_ok() {
                row[..form.len()].copy_from_slice(&form);
            }
            assert_eq!(
                archived(&file, length),
                (answer, row),
                "{opening}, {length}"
            );
        }
        let right = if opening == "5602" { 11 } else { 9 };
        assert_eq!(form.len(), right);
    }
}

/// An edition, 16 lines, 256 calls and the end are the longest file, and a byte more is
/// at the last place of all; without the edition all is two bytes before.
#[test]
fn the_longest_file() {
    let mut dice = Dice::new(77);
    for edition in openings() {
        let longest = longest_file(&mut dice, edition);
        let end = edition.map_or(1_328, |_| 1_330);
        assert_eq!(longest.len(), end + 1);
        assert_eq!(counts(&longest).map(|counts| counts.calls), Ok(256));
        let length = match edition {
            None | Some(1) => 1_329,
            _ => 1_331,
        };
        assert_eq!(form(&longest).len(), length);
        assert_eq!(archived(&longest, length - 1).0, refusal(18, 0));
        for byte in [0, 0x45, 0x56] {
            let longer = [&longest[..], &[byte]].concat();
            assert_eq!(counts(&longer), refusal(14, end + 1));
        }
        // A 257th call in its stead.
        let longer = [&longest[..end], &hex("4300000000 45")].concat();
        assert_eq!(counts(&longer), refusal(10, end));
    }
}

/// What the engine answers of a sheet, beside the papers: the gap of each stop.
fn compare_gaps(file: &[u8], starts: &[i32]) -> impl PartialEq + Debug {
    let mut row = [0; 64];
    let rating = gaps(file, starts, &mut row).expect("an accepted file");
    let found = engine::gaps(file, &Sheet::of_starts(starts));
    assert_eq!(found, Ok(answers::gaps(row, rating)));
    found
}

/// What the engine answers of two sheets, beside the papers: ratings, marks, also out of
/// a hundred and by a key, and the better.
fn compare_sheets(file: &[u8], starts: &[i32]) -> impl PartialEq + Debug {
    let other = &vec![0; starts.len()][..];
    let [sheet, key] = [starts, other].map(Sheet::of_starts);
    let rating = engine::rate(file, &sheet);
    assert_eq!(rating, answers::rating_or_refusal(rate(file, starts)));
    let weighted = engine::weighted(file, &sheet);
    let paper = weighted_rate(file, starts);
    assert_eq!(weighted, answers::rating_or_refusal(paper));
    let marked = engine::mark(file, &sheet, 500);
    let paper = mark(file, starts, 500);
    assert_eq!(marked, paper.map(answers::marked).map_err(answers::refusal));
    let by_key = engine::mark_by_key(file, &sheet, &key);
    let paper = hundred::by_key(file, starts, other).map(answers::out_of_hundred);
    assert_eq!(by_key, paper.map_err(answers::refusal));
    let better = engine::better(file, &sheet, &key);
    let [first, second] = [starts, other].map(sheet_bytes);
    let paper = better_bytes(file, &first, &second);
    assert_eq!(better, answers::better(paper));
    (rating, weighted, marked, by_key, better)
}

/// The board of stop 0 about minute 0, beside the papers.
fn compare_board(file: &[u8], starts: &[i32]) -> impl PartialEq + Debug {
    let (first, length) = (-30, 90);
    let board = engine::board(file, &Sheet::of_starts(starts), 0, first, length);
    let window = Window {
        stop: 0,
        first,
        length,
    };
    let net = read(file).expect("an accepted file");
    let paper = by_minutes(&net, &whole(starts), window);
    assert_eq!(board, Ok(answers::arrivals(&paper)));
    board
}

/// What it answers without a sheet: searches and classes.
fn compare_searches(file: &[u8]) -> impl PartialEq + Debug {
    let net = read(file).expect("an accepted file");
    let searched = engine::search(file, 500).map(answers::walked);
    assert_eq!(searched, Ok(walk(&net, 500)));
    let sought = engine::wanted(file, 2, 500).map(answers::sought);
    assert_eq!(sought, Ok(seek(&net, 2, 500)));
    let classes = engine::classes(file);
    assert_eq!(classes, Ok(answers::classed(classes_of(&net))));
    (counts(file), searched, sought, classes)
}

/// They go by lines and calls alone.
#[test]
fn either_edition_is_answered_alike() {
    let loops = file(&[15, 20], &[(0, 0, 8), (0, 0, 12), (1, 0, 17), (1, 3, 0)]);
    for typed in [p1(), p7(), p8(), p9(), loops] {
        let lines = read(&typed).expect("an accepted file").lines();
        let starts = &[0, -17, 5][..lines];
        let of_sheets = compare_sheets(&typed, starts);
        let of_searches = compare_searches(&typed);
        let of_board = compare_board(&typed, starts);
        let of_gaps = compare_gaps(&typed, starts);
        for edition in [1, 2] {
            let opened = [&[0x56, edition], &typed[..]].concat();
            assert_eq!(compare_sheets(&opened, starts), of_sheets);
            assert_eq!(compare_searches(&opened), of_searches);
            assert_eq!(compare_board(&opened, starts), of_board);
            assert_eq!(compare_gaps(&opened, starts), of_gaps);
        }
    }
}
