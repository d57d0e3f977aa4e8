//! The engine's rate call beside the one in plain Rust, and its weighted rating
//! beside its rate call.

use super::times::{geometric_mean, in_turn, mean_times, sheets, Calls};
use crate::files::{dense_file, Dice};
use crate::plain;
use crate::sections::network::read;
use engine::Sheet;
use std::hint::black_box;

const RUNS: usize = 15;

/// Processor time of a rate call on both sides, and of the engine's weighted
/// rating, in nanoseconds.
struct Times {
    engine: f64,
    rust: f64,
    weighted: f64,
}

/// Prints a row for each number of lines and stops with the time of a rate call
/// on both sides and their ratio, and with the weighted rating's time over that
/// of the engine's rate call; at last the geometric means. The clock says the
/// processor time in nanoseconds.
pub fn print_rates(clock: impl Fn() -> u64) {
    println!("lines stops calls  engine ns/rate  rust ns/rate  ratio  weighted/rate");
    let mut rows = Vec::new();
    for lines in [1, 2, 4, 8, 16] {
        for stops in [1, 8, 32, 64] {
            let mut dice = Dice::new(1);
            let file = dense_file(&mut dice, lines, stops);
            let times = measure(&file, &sheets(&mut dice, lines), &clock);
            print_row(&file, &times);
            rows.push(times);
        }
    }
    println!(
        "geometric mean {:38.2} {:14.2}",
        geometric_mean(rows.iter().map(|times| times.engine / times.rust)),
        geometric_mean(rows.iter().map(|times| times.weighted / times.engine)),
    );
}

fn print_row(file: &[u8], times: &Times) {
    let net = read(file).expect("a valid file");
    println!(
        "{:5} {:5} {:5} {:15.1} {:13.1} {:6.2} {:14.2}",
        net.lines(),
        net.served_stops().len(),
        net.calls.len(),
        times.engine,
        times.rust,
        times.engine / times.rust,
        times.weighted / times.engine,
    );
}

/// The times of the three calls, the reading of the file included.
fn measure(file: &[u8], sheets: &[Vec<u8>], clock: &impl Fn() -> u64) -> Times {
    let handed: Vec<Sheet> = sheets.iter().cloned().map(Sheet::of_bytes).collect();
    // All must say the same, or the comparison means nothing.
    for (bytes, sheet) in sheets.iter().zip(&handed) {
        let rust = plain::rate(file, bytes).expect("a sheet that fits");
        for found in [engine::rate(file, sheet), engine::weighted(file, sheet)] {
            let found = found.expect("a sheet that fits");
            assert_eq!((found.least, found.sum), (rust.least, rust.sum));
        }
    }
    let kinds: [Calls; 3] = [
        &in_turn(|at| engine::rate(black_box(file), &handed[at])),
        &in_turn(|at| plain::rate(black_box(file), &sheets[at])),
        &in_turn(|at| engine::weighted(black_box(file), &handed[at])),
    ];
    let [engine, rust, weighted] = mean_times(kinds, RUNS, clock);
    Times {
        engine,
        rust,
        weighted,
    }
}
