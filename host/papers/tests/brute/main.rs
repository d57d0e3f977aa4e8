//! "a brute-force count over one cycle in Rust" (document 01, last section):
//! small random networks with every timetable, and the walk by the book.

mod book;
mod gaps;
mod wanted;

use book::{cap_by_the_book, divisor_by_search, upper_by_the_book, walk_by_the_book};
use papers::files::{bytes_of, sheet, valid_commands_of, Dice, Size};
use papers::sections::caps::{cap, upper_rating};
use papers::sections::network::{read, Call, Network, STOPS};
use papers::sections::rating::{
    divisor, pair_gap, pairs, rating, rating_by_counting, whole, Rating,
};
use papers::sections::walk::{most_tries, walk, Answer, Walked};
use papers::small::{every_timetable, small_file};

/// Every timetable is rated both ways; the walk's best is the best of them, and
/// its starts are the first of the best with line 0 at 0.
#[test]
fn the_walk_finds_the_best_of_every_timetable() {
    let mut dice = Dice::new(1);
    let mut several_lines = 0;
    for _ in 0..1_500 {
        let (_, net) = small_file(&mut dice, 20_000);
        several_lines += usize::from(net.lines() > 2);
        let mut best: Option<Rating> = None;
        let mut first_at_zero: Option<(Rating, Vec<i64>)> = None;
        for starts in every_timetable(&net) {
            let found = rating(&net, &starts);
            assert_eq!(found, rating_by_counting(&net, &starts));
            best = best.max(Some(found));
            let above = first_at_zero.as_ref().map(|known| known.0) < Some(found);
            if starts[0] == 0 && above {
                first_at_zero = Some((found, starts));
            }
        }
        let (rating_at_zero, first) = first_at_zero.expect("a timetable");
        assert_eq!(Some(rating_at_zero), best);
        let Walked { answer, starts } = walk(&net, u32::MAX);
        let Answer::Finished {
            best: walked,
            tries,
        } = answer
        else {
            panic!("the walk must finish: {answer:?}");
        };
        assert_eq!(Some(walked), best);
        assert_eq!(whole(&starts.expect("the best starts")), first);
        assert!(u128::from(tries) <= most_tries(&net));
    }
    assert!(several_lines > 400);
}

/// Starts beyond 0..period never rate above the walk's best.
#[test]
fn no_start_beyond_the_period_is_better() {
    let mut dice = Dice::new(2);
    for _ in 0..300 {
        let (_, net) = small_file(&mut dice, 20_000);
        let Answer::Finished { best, .. } = walk(&net, u32::MAX).answer else {
            panic!("the walk must finish");
        };
        for _ in 0..100 {
            let starts = whole(&sheet(&mut dice, net.lines()));
            assert!(rating(&net, &starts) <= best);
            let large: Vec<i64> = starts.iter().map(|start| start * 4_294_967_291).collect();
            assert!(rating_by_counting(&net, &large) <= best);
        }
    }
}

/// Definition 2.1.4 as it stands: the least |a + r·T − b − t·T'| over r, t of
/// 0, 1, 2, .. as far as arrivals of both lines within two cycles go.
fn gap_over_trips(net: &Network, a: Call, b: Call, starts: &[i64]) -> i64 {
    let arrival = |call: Call, trip: i64| {
        starts[call.line] + i64::from(call.offset) + trip * i64::from(net.period(call))
    };
    // Far enough for each line to reach the other's first arrival and a cycle
    // more.
    let apart = (arrival(a, 0) - arrival(b, 0)).abs() + 2 * i64::from(net.cycle);
    let mut least = i64::MAX;
    for r in 0..=apart / i64::from(net.period(a)) + 1 {
        for t in 0..=apart / i64::from(net.period(b)) + 1 {
            least = least.min((arrival(a, r) - arrival(b, t)).abs());
        }
    }
    least
}

#[test]
fn the_gap_of_two_lines_over_their_trips() {
    let mut dice = Dice::new(3);
    for _ in 0..200 {
        let size = Size {
            lines: (2, 4),
            stops: (1, 3),
            cycle: 60,
            longest: 30,
        };
        let commands = valid_commands_of(&mut dice, &size);
        let mut net = read(&bytes_of(&commands)).expect("a valid file");
        // Keep the number of trips small.
        for call in &mut net.calls {
            call.offset %= 200;
        }
        let starts: Vec<i64> = (0..net.lines())
            .map(|_| dice.below(200) as i64 - 100)
            .collect();
        for stop in net.served_stops() {
            for (a, b) in pairs(&net.calls_at(stop)) {
                let by_trips = gap_over_trips(&net, a, b, &starts);
                assert_eq!(by_trips, i64::from(pair_gap(&net, a, b, &starts)));
            }
        }
    }
}

/// The same answer, starts and tries as the walk by the book, under many
/// budgets.
#[test]
fn the_walk_is_the_walk_by_the_book() {
    let mut dice = Dice::new(4);
    for _ in 0..600 {
        let (_, net) = small_file(&mut dice, 20_000);
        let full = walk_by_the_book(&net, u32::MAX);
        assert_eq!(walk(&net, u32::MAX), full);
        let Answer::Finished { tries, .. } = full.answer else {
            panic!("the walk must finish");
        };
        let some = dice.below(tries as usize + 1) as u32;
        for budget in [0, 1, 2, 3, 5, some, tries - 1, tries, tries + 1] {
            let expected = walk_by_the_book(&net, budget);
            assert_eq!(walk(&net, budget), expected, "budget {budget}");
            let stops = !matches!(expected.answer, Answer::Finished { .. });
            assert_eq!(stops, budget < tries);
        }
    }
}

/// The starts of a stopped walk have the rating it reports, too.
#[test]
fn starts_have_the_rating_reported() {
    let mut dice = Dice::new(5);
    for _ in 0..500 {
        let (_, net) = small_file(&mut dice, 20_000);
        let budget = dice.below(200) as u32;
        let Walked { answer, starts } = walk(&net, budget);
        match (answer, starts) {
            (Answer::Finished { best, tries } | Answer::Stopped { best, tries }, Some(starts)) => {
                assert_eq!(rating_by_counting(&net, &whole(&starts)), best);
                assert!(tries <= budget && u128::from(tries) <= most_tries(&net));
            }
            (Answer::StoppedWithNone { tries }, None) => {
                assert!(tries == budget && (budget as usize) < net.lines());
            }
            other => panic!("starts don't fit the answer: {other:?}"),
        }
    }
}

/// Caps and upper values as the walk uses them against those by the book; the
/// upper rating of a full timetable is its rating.
#[test]
fn caps_and_upper_values() {
    let mut dice = Dice::new(6);
    for _ in 0..300 {
        let (_, net) = small_file(&mut dice, 1_000_000);
        for stop in 0..STOPS {
            let expected = match net.calls_at(stop).is_empty() {
                true => None,
                false => Some(cap_by_the_book(&net, stop)),
            };
            assert_eq!(cap(&net, stop), expected);
        }
        let starts = whole(&sheet(&mut dice, net.lines()));
        for placed in 0..=net.lines() {
            let upper = upper_rating(&net, placed, &starts);
            assert_eq!(upper, upper_by_the_book(&net, placed, &starts));
            assert!(rating(&net, &starts) <= upper);
        }
        let full = upper_rating(&net, net.lines(), &starts);
        assert_eq!(full, rating(&net, &starts));
    }
}

#[test]
fn divisors_of_all_periods() {
    for a in 1..=1_440 {
        for b in [1, 2, 7, 15, 60, 96, 360, 1_439, 1_440, a] {
            assert_eq!(divisor(a, b), divisor_by_search(a, b));
        }
    }
}
