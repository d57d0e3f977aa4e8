//! A hall's day: 200,000 calls each of rate, both marks, mark by a key, wanted, board and
//! gaps in one process. Memory stays flat, each answer is the papers' own, and the calls per
//! second are printed (`cargo test --release --offline --test load -- --show-output`). No
//! other test may stand in this file: it would run beside this one and add to the memory.

mod raw;

use engine::{Hundred, Mark, Rating, Refusal, Sheet};
use papers::answers::{marked, out_of_hundred, rating_or_refusal, refusal, sought};
use papers::files::{any_file, any_gap, any_sheet_bytes, any_window, Dice};
use papers::sections::board::{board_bytes, Window};
use papers::sections::gaps::gaps_bytes;
use papers::sections::hundred::by_key_bytes;
use papers::sections::network::read;
use papers::sections::sheets::{mark_bytes, rate_bytes};
use papers::sections::wanted::{seek, Sought};
use std::time::Instant;

const CALLS: usize = 200_000;
const FILES: usize = 1_000;
const BUDGET: u32 = 100;
/// For 200,000 calls; none was measured. Calls that kept a byte each would take
/// 195 KB.
const GROWTH: usize = 64 * 1_024;
/// The rows of a board have so many; one with more arrivals is refused.
const PLACES: usize = 512;

/// What a board answers, and both rows behind it.
#[derive(PartialEq)]
struct Board {
    answer: Result<u32, Refusal>,
    times: [i64; PLACES],
    lines: [u8; PLACES],
}

impl Board {
    fn by(call: impl FnOnce(&mut [i64], &mut [u8]) -> Result<u32, Refusal>) -> Board {
        let (mut times, mut lines) = ([7; PLACES], [7; PLACES]);
        Board {
            answer: call(&mut times, &mut lines),
            times,
            lines,
        }
    }
}

/// A file, a sheet, a key, a wanted gap and a board's window with the papers' answers.
struct Paper {
    file: Vec<u8>,
    sheet: Sheet,
    key: Sheet,
    gap: u16,
    window: Window,
    rating: Result<Rating, Refusal>,
    mark: Result<Mark, Refusal>,
    by_key: Result<Hundred, Refusal>,
    sought: Result<Sought, Refusal>,
    board: Board,
    gap_row: [u16; 64],
}

/// What each place of the row of gaps holds before a call.
const GAP: u16 = 7;

fn paper(dice: &mut Dice) -> Paper {
    let file = any_file(dice);
    let lines = read(&file).map_or(3, |net| net.lines());
    let [sheet, key] = [0, 1].map(|_| any_sheet_bytes(dice, lines));
    let (gap, window) = (any_gap(dice, &file), any_window(dice, &file));
    let mark = mark_bytes(&file, &sheet, BUDGET);
    let by_key = by_key_bytes(&file, &sheet, &key);
    let sought = read(&file).map(|net| seek(&net, gap, BUDGET));
    let board = Board::by(|times, lines| {
        let listed = board_bytes(&file, &sheet, window, times, lines);
        listed.map(|count| count as u32).map_err(refusal)
    });
    // What it answers is the rating.
    let mut gap_row = [GAP; 64];
    let gapped = gaps_bytes(&file, &sheet, &mut gap_row);
    let rating = rate_bytes(&file, &sheet);
    assert_eq!(gapped, rating);
    Paper {
        rating: rating_or_refusal(rating),
        gap_row,
        mark: mark.map(marked).map_err(refusal),
        by_key: by_key.map(out_of_hundred).map_err(refusal),
        sought: sought.map_err(refusal),
        board,
        sheet: Sheet::of_bytes(sheet),
        key: Sheet::of_bytes(key),
        gap,
        window,
        file,
    }
}

/// The memory that the process has in use, in bytes.
fn memory() -> usize {
    let kept = std::fs::read_to_string("/proc/self/statm").expect("an account of memory");
    let pages = kept.split(' ').nth(1).expect("the resident pages");
    pages.parse::<usize>().expect("a number of pages") * 4_096
}

/// Makes the calls, prints how many a second there were and by how much memory
/// grew, and demands that it hardly did. The papers are drawn: taken in turn, the
/// call of a fault that comes every so many calls would always have the same
/// few, and those may be refused.
fn calls(name: &str, papers: &[Paper], call: impl Fn(&Paper)) {
    // Once each, so that what is taken once and kept is there.
    papers.iter().for_each(&call);
    let mut dice = Dice::new(82);
    let before = memory();
    let clock = Instant::now();
    for _ in 0..CALLS {
        call(&papers[dice.below(papers.len())]);
    }
    let seconds = clock.elapsed().as_secs_f64();
    let growth = memory().saturating_sub(before);
    println!("{name}: {:.0} calls per second", CALLS as f64 / seconds);
    println!("memory: {before} bytes, then {growth} more");
    assert!(growth <= GROWTH, "{name}: {before} and {growth} bytes more");
}

/// A mark as `examination_mark` has it: what it returns, and its row.
fn in_six_places(mark: &Result<Mark, Refusal>) -> (u32, [u32; 6]) {
    match *mark {
        Err(Refusal { ground, place }) => (ground.number() * 65_536 + place, raw::BEFORE),
        Ok(Mark::Undecided { sheet, tries }) => (1, [sheet.least, sheet.sum, 0, 0, 0, tries]),
        Ok(Mark::Decided {
            sheet,
            best,
            equal,
            tries,
            ..
        }) => {
            let equal = u32::from(equal);
            let row = [sheet.least, sheet.sum, best.least, best.sum, equal, tries];
            (0, row)
        }
    }
}

/// A board in rows of the caller, so that nothing is allocated.
fn board(paper: &Paper) -> Board {
    let (file, sheet) = (&paper.file, &paper.sheet);
    let Window {
        stop,
        first,
        length,
    } = paper.window;
    Board::by(|times, lines| engine::board_into(file, sheet, stop, first, length, times, lines))
}

#[test]
fn two_hundred_thousand_calls() {
    let mut dice = Dice::new(81);
    let papers: Vec<Paper> = (0..FILES).map(|_| paper(&mut dice)).collect();
    let rated = papers.iter().filter(|paper| paper.rating.is_ok()).count();
    assert!(rated > FILES / 4, "{rated} of {FILES} are rated");
    calls("rate", &papers, |paper| {
        assert_eq!(engine::rate(&paper.file, &paper.sheet), paper.rating);
    });
    calls("mark", &papers, |paper| {
        assert_eq!(engine::mark(&paper.file, &paper.sheet, BUDGET), paper.mark);
    });
    calls("mark in six places", &papers, |paper| {
        let found = raw::mark(&paper.file, paper.sheet.bytes(), BUDGET);
        assert_eq!(found, in_six_places(&paper.mark));
    });
    calls("mark by a key", &papers, |paper| {
        let found = engine::mark_by_key(&paper.file, &paper.sheet, &paper.key);
        assert_eq!(found, paper.by_key);
    });
    calls("wanted", &papers, |paper| {
        let found = engine::wanted(&paper.file, paper.gap, BUDGET).map(sought);
        assert_eq!(found, paper.sought);
    });
    let listed = papers.iter().filter(|paper| paper.board.answer.is_ok());
    assert!(listed.count() > FILES / 6);
    calls("board", &papers, |paper| {
        assert!(board(paper) == paper.board, "{:?}", paper.window);
    });
    calls("gaps", &papers, |paper| {
        let mut gap_row = [GAP; 64];
        let found = engine::gaps_into(&paper.file, &paper.sheet, &mut gap_row);
        assert_eq!((found, gap_row), (paper.rating, paper.gap_row));
    });
}
