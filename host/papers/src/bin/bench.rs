//! Prints three tables, or the one that is named: `walk`, `rates` or `hall`. Each
//! ends with the geometric means of its ratios; one below 1 says that the engine
//! is quicker.
//!
//! `walk` measures the proved engine's program `best` beside the walk of `strong`
//! on fixed generated networks of 4, 8, 16 lines and 8, 32, 64 stops whose searches
//! stop at the budget of 1,000,000 tries. Both must print the papers' line. It has
//! a row for each network with the processor time per try of both, in nanoseconds,
//! the least of some runs.
//!
//! `rates` has a row for each network with the processor time per rate call of the
//! engine's library and of `plain::rate`, and with the weighted rating's time over
//! the rate call's.
//!
//! `hall` has two rows for each network, one for the engine's library and one for
//! `plain`, with the read, rate, better and mark calls per second, and with the time
//! of a read in per cent of that of the others.
//!
//! Run with `cargo run --release --offline --bin bench`, after `.ci/run`, or with
//! `-- hall` behind it for one table.

use papers::files::{dense_file, Dice};
use papers::measure;
use papers::program;
use papers::sections::best::{best, best_by};
use papers::sections::network::read;
use papers::sections::walk::{walk, Answer};
use papers::strong;
use std::hint::black_box;
use std::process::exit;
use std::time::{Duration, Instant};

const TRIES: u32 = 1_000_000;
/// Other work on the machine can double a time: many short runs find a quiet
/// moment sooner than a few long ones.
const RUNS: usize = 7;

/// Processor time per try, in nanoseconds.
#[derive(Clone, Copy)]
struct Times {
    engine: f64,
    rust: f64,
}

fn main() {
    let words = std::env::args_os().skip(1);
    let words: Vec<String> = words
        .map(|word| word.to_string_lossy().into_owned())
        .collect();
    match words.iter().map(String::as_str).collect::<Vec<_>>()[..] {
        [] => print_all(),
        ["walk"] => print_walks(),
        ["rates"] => print_rates(),
        ["hall"] => print_hall(),
        _ => {
            eprintln!("usage: bench [walk | rates | hall]");
            exit(2);
        }
    }
}

fn print_all() {
    print_walks();
    println!();
    print_rates();
    println!();
    print_hall();
}

fn print_rates() {
    let clock = Instant::now();
    measure::print_rates(|| time_of_thread(&clock));
}

fn print_hall() {
    let clock = Instant::now();
    measure::print_hall(|| time_of_thread(&clock));
}

fn print_walks() {
    println!("lines stops calls seed  engine ns/try  rust ns/try  ratio");
    let mut logarithms = Vec::new();
    for lines in [4, 8, 16] {
        for stops in [8, 32, 64] {
            let (seed, file) = long_search(lines, stops);
            let times = both_times(&file);
            print_row(seed, &file, times);
            logarithms.push((times.engine / times.rust).ln());
        }
    }
    let mean = logarithms.iter().sum::<f64>() / logarithms.len() as f64;
    println!("geometric mean {:41.2}", mean.exp());
}

/// The file of the first seed whose search takes more than 1,000,000 tries.
fn long_search(lines: usize, stops: usize) -> (u64, Vec<u8>) {
    (1..)
        .map(|seed| (seed, dense_file(&mut Dice::new(seed), lines, stops)))
        .find(|(_, file)| {
            let net = read(file).expect("a valid file");
            matches!(walk(&net, TRIES).answer, Answer::Stopped { .. })
        })
        .expect("seeds are many")
}

fn print_row(seed: u64, file: &[u8], times: Times) {
    let net = read(file).expect("a valid file");
    println!(
        "{:5} {:5} {:5} {seed:4} {:14.1} {:12.1} {:6.2}",
        net.lines(),
        net.served_stops().len(),
        net.calls.len(),
        times.engine,
        times.rust,
        times.engine / times.rust
    );
}

/// The least times of some runs. The two take turns, so that other work on the
/// machine hits both.
fn both_times(file: &[u8]) -> Times {
    let line = best(file);
    let mut least = Times {
        engine: f64::INFINITY,
        rust: f64::INFINITY,
    };
    for _ in 0..RUNS {
        least.engine = least.engine.min(engine_time(file, &line));
        least.rust = least.rust.min(rust_time(file, &line));
    }
    least
}

/// One run of the program, its start and its reading included.
fn engine_time(file: &[u8], line: &str) -> f64 {
    let mut child = program::started(program::best());
    child.hand_over(&[file], Duration::ZERO);
    let printed = program::line(&mut child);
    let time = time_of_ended(child.id());
    program::reap(child);
    if printed != line {
        eprintln!("best prints {printed}but the papers' line is {line}");
        exit(1);
    }
    time as f64 / f64::from(TRIES)
}

/// The processor time of a child that has closed its output, in nanoseconds.
/// Once it has ended, and until it is waited for, its account is exact.
fn time_of_ended(child: u32) -> u64 {
    while !has_ended(child) {
        std::thread::sleep(Duration::from_millis(1));
    }
    schedstat(&child.to_string()).expect("an account of processor time in /proc")
}

/// Whether a child is a zombie. Its state stands behind its name, which stands
/// in brackets.
fn has_ended(child: u32) -> bool {
    let stat = std::fs::read_to_string(format!("/proc/{child}/stat")).expect("a child");
    stat.rsplit(')')
        .next()
        .is_some_and(|behind| behind.starts_with(" Z"))
}

/// One run of the Rust side, its reading and its line included, on this thread.
fn rust_time(file: &[u8], line: &str) -> f64 {
    let clock = Instant::now();
    let begin = time_of_thread(&clock);
    let printed = black_box(best_by(strong::walk, black_box(file)));
    let end = time_of_thread(&clock);
    assert_eq!(printed, line);
    (end - begin) as f64 / f64::from(TRIES)
}

/// The processor time of this thread in nanoseconds; where the system doesn't
/// keep it, the time on the clock. While a thread runs, its account is behind
/// by some milliseconds; a pause brings it up to date.
fn time_of_thread(clock: &Instant) -> u64 {
    std::thread::sleep(Duration::from_millis(1));
    schedstat("thread-self").unwrap_or_else(|| clock.elapsed().as_nanos() as u64)
}

/// The processor time, user and system, that /proc keeps in nanoseconds.
fn schedstat(task: &str) -> Option<u64> {
    let kept = std::fs::read_to_string(format!("/proc/{task}/schedstat")).ok()?;
    kept.split(' ').next()?.parse().ok()
}
