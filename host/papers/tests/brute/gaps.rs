//! The gap of each stop by the words of document 01 alone: every trip of each call within
//! two cycles, and every two trips of different calls.

use papers::files::{bytes_of, valid_commands_of, Dice, Size};
use papers::sections::gaps::{row_by_counting, NO_GAP};
use papers::sections::network::{read, Call, Network, STOPS};
use papers::small::{every_timetable, small_file};

/// The times of all trips of a call in two cycles about minute 0: "its start plus its
/// offset there, plus every whole multiple of its period, negative ones included". Two
/// trips that are nearest are within half a cycle, and a whole cycle later they are again.
fn trips(net: &Network, call: Call, start: i64) -> Vec<i64> {
    let (period, cycle) = (i64::from(net.period(call)), i64::from(net.cycle));
    let reached = (start + i64::from(call.offset)) % cycle;
    let most = 3 * cycle / period;
    let times = (-most..=most).map(|trip| reached + trip * period);
    times
        .filter(|time| (-cycle..cycle).contains(time))
        .collect()
}

/// "the smallest absolute difference between an arrival of one and an arrival of the
/// other"
fn apart(one: &[i64], other: &[i64]) -> i64 {
    let pairs = one
        .iter()
        .flat_map(|a| other.iter().map(move |b| (a - b).abs()));
    pairs.min().expect("two trips")
}

/// "The gap of a stop is the least over its pairs", "with one line only, it is that line's
/// period": the time between two of its trips.
fn gap_over_trips(net: &Network, stop: usize, starts: &[i64]) -> u16 {
    let calls = net.calls_at(stop);
    let trips: Vec<Vec<i64>> = calls
        .iter()
        .map(|&call| trips(net, call, starts[call.line]))
        .collect();
    let gap = match &trips[..] {
        [] => return NO_GAP,
        [lone] => lone[1] - lone[0],
        _ => {
            let before = |at: usize| trips[..at].iter();
            let places = 0..trips.len();
            let gaps = places.flat_map(|at| before(at).map(|one| apart(one, &trips[at])).min());
            gaps.min().expect("two calls")
        }
    };
    u16::try_from(gap).expect("a gap of 16 bits")
}

fn row_over_trips(net: &Network, starts: &[i64]) -> [u16; STOPS] {
    std::array::from_fn(|stop| gap_over_trips(net, stop, starts))
}

/// Every timetable of small networks.
#[test]
fn gaps_of_every_timetable() {
    let mut dice = Dice::new(40);
    let mut compared = 0;
    for _ in 0..400 {
        let (_, net) = small_file(&mut dice, 300);
        for starts in every_timetable(&net) {
            let row = row_by_counting(&net, &starts);
            assert_eq!(row, row_over_trips(&net, &starts));
            compared += 1;
        }
    }
    assert!(compared > 10_000, "{compared}");
}

/// More lines, stops and minutes, starts before 0 and beyond a cycle, some networks with
/// a line that comes back to a stop.
#[test]
fn gaps_of_larger_networks() {
    let mut dice = Dice::new(41);
    let (mut lone, mut looped, mut large) = (0, 0, 0);
    for _ in 0..400 {
        let size = Size {
            lines: (1, 16),
            stops: (1, 64),
            cycle: dice.pick(&[60, 120, 720, 1_440]),
            longest: 1_440,
        };
        let net = read(&bytes_of(&valid_commands_of(&mut dice, &size))).expect("a valid file");
        let starts: Vec<i64> = (0..net.lines())
            .map(|_| dice.below(6_000) as i64 - 3_000)
            .collect();
        let row = row_by_counting(&net, &starts);
        assert_eq!(row, row_over_trips(&net, &starts));
        let calls = (0..STOPS).map(|stop| net.calls_at(stop));
        for calls in calls {
            lone += usize::from(calls.len() == 1);
            looped += usize::from(calls.windows(2).any(|two| two[0].line == two[1].line));
        }
        large += row
            .iter()
            .filter(|&&gap| gap != NO_GAP && gap > 255)
            .count();
    }
    println!("lone stops {lone}, with a line twice {looped}, gaps above 255 {large}");
    assert!(lone > 500 && looped > 500 && large > 40);
}
