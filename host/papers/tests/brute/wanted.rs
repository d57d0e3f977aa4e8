//! A wanted gap (document 02, A.3) beside every timetable of small networks.

use crate::book::seek_by_the_book;
use papers::files::Dice;
use papers::sections::network::Network;
use papers::sections::rating::{rating_by_counting, whole};
use papers::sections::wanted::{seek, Sought, Wanted};
use papers::small::{every_timetable, small_file_for_gaps};

/// Each timetable, line 0 at 0, whose least gap is above those of all before it, and
/// that gap.
fn first_reaches(net: &Network) -> Vec<(u32, Vec<i64>)> {
    let mut firsts: Vec<(u32, Vec<i64>)> = Vec::new();
    for starts in every_timetable(net).take_while(|starts| starts[0] == 0) {
        let least = rating_by_counting(net, &starts).least;
        if firsts.last().is_none_or(|(before, _)| *before < least) {
            firsts.push((least, starts));
        }
    }
    firsts
}

/// The greatest least gap of all timetables.
fn greatest(net: &Network) -> u32 {
    let gaps = every_timetable(net).map(|starts| rating_by_counting(net, &starts).least);
    gaps.max().expect("a timetable")
}

fn tries(sought: &Sought) -> u32 {
    match sought.answer {
        Wanted::Found { tries } | Wanted::None { tries } | Wanted::Stopped { tries } => tries,
    }
}

/// Found exactly where some timetable has the gap, and then the first that has it.
#[test]
fn found_exactly_where_a_timetable_has_the_gap() {
    let mut dice = Dice::new(7);
    let (mut later, mut several_lines) = (0, 0);
    for _ in 0..1_500 {
        let (_, net) = small_file_for_gaps(&mut dice, 10_000);
        several_lines += usize::from(net.lines() > 2);
        let (greatest, firsts) = (greatest(&net), first_reaches(&net));
        assert_eq!(firsts.last().map(|(gap, _)| *gap), Some(greatest));
        for gap in (0..=greatest + 2).chain([1_441, 65_535]) {
            let sought = seek(&net, gap as u16, u32::MAX);
            let first = firsts.iter().find(|(least, _)| *least >= gap);
            assert_eq!(
                sought.starts.as_deref().map(whole).as_ref(),
                first.map(|(_, starts)| starts)
            );
            let found = matches!(sought.answer, Wanted::Found { .. });
            assert_eq!(found, gap <= greatest, "{gap} of {greatest}");
            let none = matches!(sought.answer, Wanted::None { .. });
            assert_eq!(none, gap > greatest, "{gap} of {greatest}");
            later += usize::from(found && tries(&sought) > net.lines() as u32);
        }
    }
    // Many a small network has no gap to speak of, and the first descent has it.
    assert!(
        later > 200 && several_lines > 400,
        "{later}, {several_lines}"
    );
}

/// The same answer, starts and tries as by the book, with every budget up to one
/// try more than it takes; with fewer than it takes it is stopped. Counts how often
/// each answer came.
fn compare_budgets(net: &Network, gap: u16, seen: &mut [usize; 3]) {
    let full = seek(net, gap, u32::MAX);
    for budget in 0..=tries(&full) + 1 {
        let sought = seek(net, gap, budget);
        assert_eq!(sought, seek_by_the_book(net, gap, budget));
        let expected = match budget >= tries(&full) {
            true => full.clone(),
            false => Sought {
                answer: Wanted::Stopped { tries: budget },
                starts: None,
            },
        };
        assert_eq!(sought, expected, "gap {gap}, budget {budget}");
        seen[match sought.answer {
            Wanted::Found { .. } => 0,
            Wanted::None { .. } => 1,
            Wanted::Stopped { .. } => 2,
        }] += 1;
    }
}

#[test]
fn every_budget_by_the_book() {
    let mut dice = Dice::new(8);
    let mut seen = [0; 3];
    for _ in 0..60 {
        let (_, net) = small_file_for_gaps(&mut dice, 400);
        for gap in (0..8).chain([65_535]) {
            compare_budgets(&net, gap, &mut seen);
        }
    }
    assert!(seen.iter().all(|&count| count > 200), "{seen:?}");
}
