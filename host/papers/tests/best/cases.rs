//! The cases of the paper, each ground, stopped and deep searches.

use crate::given::{agreed, long_search, printed, PAPER, PAPER_LINE, SHORT};
use papers::files::{faulty_file, file_of, Dice, GROUNDS};
use papers::program;
use papers::sections::best::best;
use papers::sections::network::read;

#[test]
fn the_line_of_the_paper() {
    assert_eq!(printed(&PAPER), PAPER_LINE);
    assert_eq!(best(&PAPER), PAPER_LINE);
}

#[test]
fn the_cases_of_the_paper() {
    assert_eq!(agreed(&SHORT), "gap 15 sum 15 tries 1 starts 0\n");
    // P7, P8 and P9.
    let p7 = file_of(&[10, 10, 10], &[(0, 0, 0), (1, 0, 0), (2, 0, 0)]);
    assert_eq!(agreed(&p7), "gap 3 sum 3 tries 51 starts 0 3 6\n");
    let p8 = file_of(&[60, 60, 12], &[(0, 0, 0), (1, 0, 0), (2, 1, 0)]);
    assert_eq!(agreed(&p8), "gap 12 sum 42 tries 433 starts 0 30 0\n");
    let calls = [0, 1].map(|line: u8| {
        let offsets = [[0, 7, 5], [0, 17, 8]][usize::from(line)];
        [0, 1, 2].map(|stop: u8| (line, stop, offsets[usize::from(stop)]))
    });
    let p9 = file_of(&[20, 30], calls.as_flattened());
    assert_eq!(agreed(&p9), "gap 3 sum 11 tries 31 starts 0 4\n");
    // A cap by the half of 1, rounded down; without it 89 tries.
    let halves = file_of(&[15, 20, 4], &[(0, 0, 0), (1, 0, 0), (2, 0, 0)]);
    assert_eq!(agreed(&halves), "gap 0 sum 0 tries 25 starts 0 0 0\n");
    // Periods 1,440 and 7: the longest common cycle.
    agreed(&file_of(&[1_440, 7], &[(0, 0, 65_535), (1, 0, 0)]));
}

#[test]
fn refused_files() {
    assert_eq!(agreed(&[]), "refused 1 at 0\n");
    assert_eq!(agreed(&SHORT[..8]), "refused 1 at 8\n");
    assert_eq!(agreed(&[0]), "refused 2 at 0\n");
    assert_eq!(agreed(&SHORT[..7]), "refused 3 at 3\n");
    assert_eq!(agreed(&[0x4C, 0x05, 0xA1]), "refused 5 at 0\n");
    assert_eq!(agreed(&[0x4C, 0, 0]), "refused 5 at 0\n");
    assert_eq!(agreed(&[0x45]), "refused 13 at 0\n");
    let long_cycle = file_of(&[1_440, 11], &[(0, 0, 0), (1, 0, 0)]);
    assert_eq!(agreed(&long_cycle), "refused 6 at 3\n");
    let one_more = [&SHORT[..], &[0x45]].concat();
    assert_eq!(agreed(&one_more), "refused 14 at 9\n");
}

/// Each ground of the file's author, a place of two to four digits among them.
#[test]
fn every_ground() {
    let mut dice = Dice::new(21);
    for ground in GROUNDS {
        for _ in 0..5 {
            let faulty = faulty_file(&mut dice, ground);
            let line = format!("refused {ground} at {}\n", faulty.place);
            assert_eq!(agreed(&faulty.bytes), line);
        }
    }
    // The last place of all: a byte behind an edition, 16 lines, 256 calls and the end.
    let longest = [deepest_walk(), vec![0]].concat();
    assert_eq!(agreed(&longest), "refused 14 at 1329\n");
    for edition in [1, 2] {
        let longest = [&[0x56, edition], &longest[..]].concat();
        assert_eq!(agreed(&longest), "refused 14 at 1331\n");
    }
}

/// Document 02, A.6: the edition plays no part in what is printed of a network.
#[test]
fn editions() {
    for edition in [1, 2] {
        assert_eq!(agreed(&[&[0x56, edition], &PAPER[..]].concat()), PAPER_LINE);
    }
    assert_eq!(agreed(&[0x56]), "refused 3 at 0\n");
    assert_eq!(agreed(&[0x56, 3]), "refused 21 at 0\n");
    assert_eq!(agreed(&[0x56, 2, 0x56, 7]), "refused 20 at 2\n");
    assert_eq!(
        agreed(&[0x56, 2, 0x46, 9, 9, 0, 0, 0x45]),
        "refused 19 at 2\n"
    );
}

#[test]
fn stopped_searches() {
    for (seed, lines, stops) in [(1, 4, 8), (2, 8, 32), (3, 16, 64)] {
        let line = agreed(&long_search(seed, lines, stops));
        assert!(line.starts_with("stopped gap "), "{line}");
        assert!(line.contains(" tries 1000000 starts 0 "), "{line}");
    }
}

/// 16 lines of the longest period and 256 calls: the walk goes deepest here,
/// and the stack is a sixteenth of the usual one.
#[test]
fn the_deepest_walk_on_a_small_stack() {
    let file = deepest_walk();
    assert_eq!(read(&file).map(|net| net.calls.len()), Ok(256));
    let line = program::printed(program::best_on_stack(512), &file);
    assert_eq!(line, best(&file));
    assert!(line.starts_with("stopped gap "), "{line}");
}

pub fn deepest_walk() -> Vec<u8> {
    let calls: Vec<(u8, u8, u16)> = (0..16)
        .flat_map(|line| (0..16).map(move |stop| (line, stop, 0)))
        .collect();
    file_of(&[1_440; 16], &calls)
}
