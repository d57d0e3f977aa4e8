//! Document 02, A.4: the common cycle is carried along. "After each accepted 4C it
//! is the least common multiple of all periods so far." What is carried isn't seen;
//! the file of the lines so far shows it. Papers and engine are both asked.

use crate::given::{file, hex, refusal};
use papers::answers;
use papers::files::{bytes_of, valid_commands, Command, Dice, Stated};
use papers::sections::network::{read_counts, Refusal, MAX_PERIOD};

/// The common cycle that papers and engine read, or the refusal.
fn cycle(file: &[u8]) -> Result<u32, Refusal> {
    let paper = read_counts(file);
    let expected = paper.map(answers::counted).map_err(answers::refusal);
    assert_eq!(engine::read(file), expected);
    paper.map(|counts| counts.cycle)
}

/// A file of these periods, each line with a call at stop 0.
fn of_periods(periods: &[u16]) -> Vec<u8> {
    let calls: Vec<(u8, u8, u16)> = (0..periods.len() as u8).map(|line| (line, 0, 0)).collect();
    file(periods, &calls)
}

/// The cycles on the way: of the first line, of the first two, and so on.
fn cycles(periods: &[u16]) -> Vec<u32> {
    (1..=periods.len())
        .map(|lines| cycle(&of_periods(&periods[..lines])).expect("an accepted file"))
        .collect()
}

#[test]
fn values_on_the_way() {
    assert_eq!(cycles(&[12, 18, 8]), [12, 36, 72]);
    assert_eq!(cycles(&[8, 18, 12]), [8, 72, 72]);
    // A period that divides the value leaves it, and so does one that was there.
    assert_eq!(cycles(&[60, 20, 60, 1]), [60, 60, 60, 60]);
}

/// Up to the largest cycle there is; then no period is left but its divisors.
#[test]
fn up_to_the_largest() {
    let mut periods = vec![1, 2, 3, 4, 5, 6, 7, 8, 9, 16, 32];
    let on_the_way = [1, 2, 6, 12, 60, 60, 420, 840, 2_520, 5_040, 10_080];
    assert_eq!(cycles(&periods), on_the_way);
    periods.push(11);
    assert_eq!(cycle(&of_periods(&periods)), refusal(6, 33));
    periods[11] = 1_440;
    assert_eq!(cycle(&of_periods(&periods)), Ok(10_080));
}

#[test]
fn every_order_ends_alike() {
    let orders = [
        [12, 18, 8],
        [12, 8, 18],
        [18, 12, 8],
        [18, 8, 12],
        [8, 12, 18],
        [8, 18, 12],
    ];
    for periods in orders {
        assert_eq!(cycle(&of_periods(&periods)), Ok(72), "{periods:?}");
    }
}

/// Between two `4C` stand calls, which leave the value.
#[test]
fn lines_behind_calls() {
    let accepted = [
        ("4C000C 4300000000 4C0012 4301000000 45", 36),
        (
            "4C000C 4300000000 4C0012 4301000000 4600010005 4C0008 4302000000 45",
            72,
        ),
        (
            "4C0008 4300000000 4600000003 4C0012 4301000000 4C000C 4302000000 45",
            72,
        ),
    ];
    for (typed, value) in accepted {
        assert_eq!(cycle(&hex(typed)), Ok(value), "{typed}");
    }
    // 1,440 and 7 have the largest; 11 and 64 are too much behind them.
    let largest = "4C05A0 4300000000 4C0007 4301000000";
    assert_eq!(cycle(&hex(&format!("{largest} 45"))), Ok(10_080));
    for period in ["4C000B", "4C0040"] {
        let more = hex(&format!("{largest} {period} 4302000000 45"));
        assert_eq!(cycle(&more), refusal(6, 16));
    }
}

/// The lines so far of a run of commands, as a file: lines without a call get one.
fn cut(commands: &[Command]) -> (Stated, Vec<u8>) {
    let stated = Stated::by(commands);
    let silent = stated.silent_lines().into_iter();
    let calls = silent.map(|line| Command::Call {
        line,
        stop: 0,
        offset: 0,
    });
    let commands: Vec<Command> = commands.iter().copied().chain(calls).collect();
    let bytes = bytes_of(&[commands, vec![Command::End]].concat());
    (stated, bytes)
}

/// By divisibility alone: the least number above 0 that every period divides.
fn least_common_multiple(periods: &[u16]) -> u32 {
    let divides = |number: u32| {
        let mut periods = periods.iter();
        periods.all(|&period| number.is_multiple_of(u32::from(period)))
    };
    (1..).find(|&number| divides(number)).expect("a multiple")
}

/// What was met among the beginnings that end with a `4C`.
#[derive(Debug, Default)]
struct Met {
    behind_calls: usize,
    grown: usize,
    above_every_period: usize,
}

/// Compares each beginning of an accepted file that ends with a `4C`.
fn compare_behind_each_line(commands: &[Command], met: &mut Met) {
    let is_line = |&at: &usize| matches!(commands[at], Command::Line { .. });
    let mut before = None;
    for at in (0..commands.len()).filter(is_line) {
        let (stated, bytes) = cut(&commands[..=at]);
        let value = least_common_multiple(&stated.periods);
        assert_eq!(cycle(&bytes), Ok(value), "command {at} of {commands:?}");
        met.behind_calls += usize::from(!stated.calls.is_empty());
        met.grown += usize::from(before.is_some_and(|before| before < value));
        met.above_every_period += usize::from(value > MAX_PERIOD);
        before = Some(value);
    }
}

#[test]
fn the_least_common_multiple_behind_each_line() {
    let mut dice = Dice::new(75);
    let mut met = Met::default();
    for _ in 0..2_000 {
        compare_behind_each_line(&valid_commands(&mut dice), &mut met);
    }
    println!("{met:?}");
    assert!(met.behind_calls > 1_000 && met.grown > 500 && met.above_every_period > 100);
}
