//! The time of calls.

use crate::files::{sheet, sheet_bytes, Dice};
use std::hint::black_box;

/// A run takes so many nanoseconds at least. Beside that the clock's own time
/// is nothing.
const RUN: f64 = 2e6;
/// The time of a call depends on where its rows lie on the stack, the engine's
/// by a factor of about 2, and the system begins each process's stack
/// elsewhere. So the runs are made at so many depths, which go over a page of
/// 4,096 bytes, and the mean over the depths counts.
const DEPTHS: usize = 16;
const FRAME: usize = 4_096 / DEPTHS;
/// Calls are made with so many sheets in turn.
pub const SHEETS: usize = 16;

/// What makes so many calls of one kind.
pub type Calls<'a> = &'a dyn Fn(usize);

/// The sheets for a network of so many lines, as bytes.
pub fn sheets(dice: &mut Dice, lines: usize) -> Vec<Vec<u8>> {
    (0..SHEETS)
        .map(|_| sheet_bytes(&sheet(dice, lines)))
        .collect()
}

/// Makes so many calls, each with the number of the sheet whose turn it is. The
/// loop stands here, where the call is known to the compiler, so that nothing but
/// the call itself is timed.
pub fn in_turn<T>(call: impl Fn(usize) -> T) -> impl Fn(usize) {
    move |calls| {
        for number in 0..calls {
            black_box(call(number % SHEETS));
        }
    }
}

/// The processor time of a call of each kind, in nanoseconds: of so many runs at
/// each depth the least, the kinds taking turns, since some run has a moment
/// without other work on the machine; then the mean over the depths. The clock says
/// the processor time in nanoseconds.
pub fn mean_times<const KINDS: usize>(
    kinds: [Calls; KINDS],
    runs: usize,
    clock: &impl Fn() -> u64,
) -> [f64; KINDS] {
    let calls = kinds.map(|kind| calls_in_run(kind, clock));
    let run = || std::array::from_fn(|at| time_of(kinds[at], calls[at], clock));
    let mut mean = [0.0; KINDS];
    for depth in 0..DEPTHS {
        let least: [f64; KINDS] = deeper(depth, &|| least_of_runs(runs, &run));
        mean = std::array::from_fn(|at| mean[at] + least[at] / DEPTHS as f64);
    }
    mean
}

fn least_of_runs<const KINDS: usize>(runs: usize, run: &impl Fn() -> [f64; KINDS]) -> [f64; KINDS] {
    let mut least = run();
    for _ in 1..runs {
        let times = run();
        least = std::array::from_fn(|at| least[at].min(times[at]));
    }
    least
}

/// What a call gives with so many more frames on the stack.
#[inline(never)]
fn deeper<T>(frames: usize, call: &dyn Fn() -> T) -> T {
    // Looked at behind the call, so that it takes its place during it.
    let mut frame = [0u8; FRAME];
    black_box(&mut frame);
    let given = match frames {
        0 => call(),
        _ => deeper(frames - 1, call),
    };
    black_box(&mut frame);
    given
}

/// How many calls take as long as a run is to take.
fn calls_in_run(kind: Calls, clock: &impl Fn() -> u64) -> usize {
    let mut calls = 1;
    while calls as f64 * time_of(kind, calls, clock) < RUN {
        calls *= 2;
    }
    calls
}

/// The time of a call, by one run.
fn time_of(kind: Calls, calls: usize, clock: &impl Fn() -> u64) -> f64 {
    let begin = clock();
    kind(calls);
    (clock() - begin) as f64 / calls as f64
}

/// The geometric mean of ratios.
pub fn geometric_mean(ratios: impl ExactSizeIterator<Item = f64>) -> f64 {
    let count = ratios.len() as f64;
    let logarithms: f64 = ratios.map(f64::ln).sum();
    (logarithms / count).exp()
}
