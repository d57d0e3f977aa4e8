//! The optimum beside every timetable of small networks.

use engine::{Hundred, Mark, Rating, Searched, Sheet, Wanted};
use papers::answers::rated;
use papers::files::{sheet, Dice};
use papers::sections::network::Network;
use papers::sections::rating::{rating, whole};
use papers::small::{every_timetable, small_file, small_file_for_gaps};

/// The best rating of all timetables, each start within its period.
fn best_of_every(net: &Network) -> Rating {
    let best = every_timetable(net)
        .map(|starts| rating(net, &starts))
        .max();
    rated(best.expect("a timetable"))
}

/// The engine's optimum is the best of every timetable of small networks, its
/// starts have that rating, and a sheet with them is marked equal.
#[test]
fn the_optimum_beside_every_timetable() {
    let mut dice = Dice::new(71);
    let mut several_lines = 0;
    for number in 0..1_000 {
        let (file, net) = small_file(&mut dice, 10_000);
        several_lines += usize::from(net.lines() > 2);
        let best = best_of_every(&net);
        let searched = engine::search(&file, u32::MAX).expect("an accepted file");
        let Searched::Finished(found) = searched else {
            panic!("network {number}: {searched:?} under the largest budget");
        };
        assert_eq!(found.rating(), best, "network {number}");
        let sheet = Sheet::of_starts(found.starts());
        assert_eq!(engine::rate(&file, &sheet), Ok(best), "network {number}");
        let mark = engine::mark(&file, &sheet, u32::MAX);
        assert!(
            matches!(mark, Ok(Mark::Decided { equal: true, .. })),
            "network {number}"
        );
    }
    assert!(several_lines > 250, "{several_lines}");
}

/// The least gap over every timetable of small networks is the judge: a gap up to
/// the greatest is found, and the starts have it by the rate call; a larger one is
/// answered none. With a try less than that took, it is stopped.
#[test]
fn wanted_gaps_beside_every_timetable() {
    let mut dice = Dice::new(76);
    let (mut later, mut walked) = (0, 0);
    for number in 0..600 {
        let (file, net) = small_file_for_gaps(&mut dice, 10_000);
        let greatest = best_of_every(&net).least as u16;
        for gap in (0..=greatest + 2).chain([1_441, u16::MAX]) {
            let wanted = engine::wanted(&file, gap, u32::MAX).expect("an accepted file");
            let tries = match wanted {
                Wanted::Found { starts, tries } => {
                    assert!(gap <= greatest, "network {number}, gap {gap}");
                    let rating = engine::rate(&file, &Sheet::of_starts(&starts));
                    assert!(rating.expect("starts that fit").least >= u32::from(gap));
                    later += usize::from(tries > net.lines() as u32);
                    tries
                }
                Wanted::None { tries } => {
                    assert!(gap > greatest, "network {number}, gap {gap}");
                    walked += usize::from(tries > 1);
                    tries
                }
                Wanted::Stopped { .. } => panic!("stopped with the largest budget"),
            };
            let stopped = Wanted::Stopped { tries: tries - 1 };
            assert_eq!(engine::wanted(&file, gap, tries - 1), Ok(stopped));
        }
    }
    // Not all are found by the first descent, and not all are above a cap.
    assert!(later > 300 && walked > 100, "{later}, {walked}");
}

/// A sheet's mark out of a hundred beside the best of every timetable: mark times best
/// plus remainder is a hundred times the sheet's gap, with a remainder below the best;
/// it is 100 exactly where the gaps are equal, and beside a best of 0. Returns it with
/// the gap.
fn judged(file: &[u8], net: &Network, starts: &[i32], best: Rating) -> (u32, Hundred) {
    let sheet = Sheet::of_starts(starts);
    let gap = rating(net, &whole(starts)).least;
    let mark = engine::mark(file, &sheet, u32::MAX);
    let Ok(Mark::Decided { hundred, .. }) = mark else {
        panic!("{mark:?} under the largest budget");
    };
    let Hundred { mark, remainder } = hundred;
    match best.least {
        0 => assert_eq!((mark, remainder), (100, 0)),
        best => {
            assert_eq!(mark * best + remainder, 100 * gap);
            assert!(remainder < best);
            assert_eq!(mark == 100, gap == best);
        }
    }
    (gap, hundred)
}

/// Two sheets of small networks: each mark by its judge, and the order of the marks is
/// that of the least gaps.
#[test]
fn marks_beside_every_timetable() {
    let mut dice = Dice::new(100);
    let (mut ranked, mut with_remainder) = (0, 0);
    for number in 0..600 {
        let (file, net) = small_file_for_gaps(&mut dice, 10_000);
        let best = best_of_every(&net);
        for _ in 0..4 {
            let pair = [0, 1].map(|_| sheet(&mut dice, net.lines()));
            let [one, other] = pair.map(|starts| judged(&file, &net, &starts, best));
            with_remainder += usize::from(one.1.remainder > 0);
            if best.least > 0 {
                let by_gap = one.0.cmp(&other.0);
                assert_eq!(one.1.cmp(&other.1), by_gap, "network {number}");
                ranked += usize::from(by_gap.is_ne());
            }
        }
    }
    assert!(
        ranked > 300 && with_remainder > 100,
        "{ranked}, {with_remainder}"
    );
}
