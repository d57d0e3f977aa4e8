//! A hall's calls on both sides, each of which reads the file once, and how much of
//! them a read is.

use super::times::{geometric_mean, in_turn, mean_times, sheets, Calls, SHEETS};
use crate::answers::{better, counted, marked, rating_or_refusal, refusal};
use crate::files::{dense_file, Dice};
use crate::plain;
use crate::sections::network::{read, Network};
use crate::sections::walk::{walk, Walked};
use crate::strong;
use engine::Sheet;
use std::hint::black_box;

/// Fewer than for the rates, since there are three times as many kinds of calls.
const RUNS: usize = 7;

const SAMPLES: &str = concat!(env!("CARGO_MANIFEST_DIR"), "/../../samples");

/// The walks that a mark in Rust can take. The quicker one counts: which of them
/// it is depends on how many tries are made.
const WALKS: [fn(&Network, u32) -> Walked; 2] = [walk, strong::walk];

/// A network to be marked, and the budget of its marks.
struct Paper {
    name: &'static str,
    file: Vec<u8>,
    budget: u32,
}

/// Processor time of a read, a rate, a better and a mark, in nanoseconds.
type Times = [f64; 4];

struct Sides {
    engine: Times,
    rust: Times,
}

/// Prints two rows for each network, one for each side, with the calls per second
/// and with the time of a read in per cent of that of each other call; at last the
/// geometric means of the engine's times over those of Rust. The clock says the
/// processor time in nanoseconds.
pub fn print_hall(clock: impl Fn() -> u64) {
    println!(
        "network   lines stops calls side     read/s   rate/s better/s  mark/s  rate% better% mark%"
    );
    let mut rows = Vec::new();
    for paper in papers() {
        let sides = measure(&paper, &clock);
        print_row(&paper, "engine", &sides.engine);
        print_row(&paper, "rust", &sides.rust);
        rows.push(sides);
    }
    let [read, rate, better, mark] = [0, 1, 2, 3]
        .map(|call| geometric_mean(rows.iter().map(|row| row.engine[call] / row.rust[call])));
    println!("geometric mean of ratios {read:18.2} {rate:8.2} {better:8.2} {mark:7.2}");
}

/// The searches of the samples finish, with 1,691 tries at most. Those of the
/// generated networks would take too long to be measured.
fn papers() -> Vec<Paper> {
    let samples = ["one_line", "two_lines", "loop", "village"].map(|name| Paper {
        name,
        file: sample(name),
        budget: 1_000_000,
    });
    let sizes = [(2, 8), (4, 8), (4, 64), (8, 32), (16, 8), (16, 64)];
    let generated = sizes.map(|(lines, stops)| Paper {
        name: "generated",
        file: dense_file(&mut Dice::new(1), lines, stops),
        budget: 100,
    });
    samples.into_iter().chain(generated).collect()
}

fn sample(name: &str) -> Vec<u8> {
    let text = std::fs::read(format!("{SAMPLES}/{name}.hex")).expect("a sample");
    let typed = engine::typed::read(&text).expect("a typed network");
    typed.bytes().to_vec()
}

fn print_row(paper: &Paper, side: &str, times: &Times) {
    let net = read(&paper.file).expect("a valid file");
    let [reads, rates, betters, marks] = times.map(|time| 1e9 / time);
    let [_, of_rate, of_better, of_mark] = times.map(|time| 100.0 * times[0] / time);
    println!(
        "{:9} {:5} {:5} {:5} {side:6} {reads:8.0} {rates:8.0} {betters:8.0} {marks:7.0} \
         {of_rate:6.1} {of_better:7.1} {of_mark:5.2}",
        paper.name,
        net.lines(),
        net.served_stops().len(),
        net.calls.len(),
    );
}

/// The times of all calls. A better is of a sheet and the next one.
fn measure(paper: &Paper, clock: &impl Fn() -> u64) -> Sides {
    let (file, budget) = (&paper.file[..], paper.budget);
    let lines = read(file).expect("a valid file").lines();
    let sheets = sheets(&mut Dice::new(1), lines);
    let handed: Vec<Sheet> = sheets.iter().cloned().map(Sheet::of_bytes).collect();
    let next = |at: usize| (at + 1) % SHEETS;
    for at in 0..SHEETS {
        compare(paper, [&sheets[at], &sheets[next(at)]]);
    }
    let file = || black_box(file);
    let mark_by = |walk, at: usize| plain::mark_by(walk, file(), &sheets[at], budget);
    let kinds: [Calls; 9] = [
        &in_turn(|_| engine::read(file())),
        &in_turn(|at| engine::rate(file(), &handed[at])),
        &in_turn(|at| engine::better(file(), &handed[at], &handed[next(at)])),
        &in_turn(|at| engine::mark(file(), &handed[at], budget)),
        &in_turn(|_| plain::read(file())),
        &in_turn(|at| plain::rate(file(), &sheets[at])),
        &in_turn(|at| plain::better(file(), &sheets[at], &sheets[next(at)])),
        &in_turn(|at| mark_by(WALKS[0], at)),
        &in_turn(|at| mark_by(WALKS[1], at)),
    ];
    let [read, rate, better, mark, plain @ .., by_papers, by_tables] =
        mean_times(kinds, RUNS, clock);
    let [plain_read, plain_rate, plain_better] = plain;
    let plain_mark = by_papers.min(by_tables);
    Sides {
        engine: [read, rate, better, mark],
        rust: [plain_read, plain_rate, plain_better, plain_mark],
    }
}

/// Both sides must say the same, and refuse nothing, or the comparison means
/// nothing.
fn compare(paper: &Paper, [first, second]: [&Vec<u8>; 2]) {
    let (file, budget) = (&paper.file[..], paper.budget);
    let [one, other] = [first, second].map(|bytes| Sheet::of_bytes(bytes.clone()));
    let found = engine::read(file);
    assert!(found.is_ok());
    assert_eq!(found, plain::read(file).map(counted).map_err(refusal));
    let found = engine::rate(file, &one);
    assert!(found.is_ok());
    assert_eq!(found, rating_or_refusal(plain::rate(file, first)));
    let found = engine::better(file, &one, &other);
    assert_eq!(found, better(plain::better(file, first, second)));
    let found = engine::mark(file, &one, budget);
    for walk in WALKS {
        let rust = plain::mark_by(walk, file, first, budget);
        assert_eq!(found, rust.map(marked).map_err(refusal));
    }
}
