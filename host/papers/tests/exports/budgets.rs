//! Budgets at the bound of demand 3, at the tries that a search takes, and about
//! them.

use crate::compared::{compare_hundred, compare_mark, compare_search, compare_wanted, Seen};
use papers::files::{
    any_gap, bytes_of, roomy_file, sheet, sheet_bytes, valid_commands_of, Dice, Size,
};
use papers::sections::network::{read, Network};
use papers::sections::walk::{most_tries, walk, Answer};
use papers::sections::wanted::{seek, Wanted};
use papers::small::small_file;
use std::collections::BTreeSet;

const FILES: usize = 500;
/// Longer searches are left to other tests.
const MOST_TRIES: u32 = 20_000;

/// A file whose search isn't long, few lines or up to 16.
fn short_search(dice: &mut Dice) -> (Vec<u8>, Network, u32) {
    loop {
        let (file, net) = match dice.once_in(3) {
            false => small_file(dice, MOST_TRIES),
            true => {
                let size = Size {
                    lines: (5, 16),
                    stops: (1, 20),
                    cycle: 12,
                    longest: 4,
                };
                let file = bytes_of(&valid_commands_of(dice, &size));
                let net = read(&file).expect("a valid file");
                (file, net)
            }
        };
        if let Answer::Finished { tries, .. } = walk(&net, MOST_TRIES).answer {
            return (file, net, tries);
        }
    }
}

/// The budgets about the numbers at which an answer may change, and those at
/// both ends of 32 bits and in the middle. A search that finishes takes no longer
/// under a large budget.
fn budgets(net: &Network, tries: u32, bound: u32) -> BTreeSet<u32> {
    let about = |budget: u32| [budget.saturating_sub(1), budget, budget.saturating_add(1)];
    let turns = [0, net.lines() as u32, tries, bound, 1 << 31, u32::MAX];
    turns.into_iter().flat_map(about).collect()
}

/// Search and marks under each of these budgets beside the papers; each finishes
/// exactly where the budget is no less than the tries that it takes.
#[test]
fn budgets_at_the_bound_and_at_the_tries() {
    let mut dice = Dice::new(70);
    let (mut at_bound, mut below_bound) = (0, 0);
    for _ in 0..FILES {
        let (file, net, tries) = short_search(&mut dice);
        let bound = u32::try_from(most_tries(&net)).unwrap_or(u32::MAX);
        assert!(tries <= bound);
        at_bound += usize::from(tries == bound && tries > 1);
        below_bound += usize::from(tries < bound);
        let best = walk(&net, tries).starts.expect("a best");
        for budget in budgets(&net, tries, bound) {
            let finishes = usize::from(budget >= tries);
            let mut seen = Seen::default();
            compare_search(&mut dice, &file, net.lines(), budget, &mut seen);
            assert_eq!(seen.answers[0], finishes, "budget {budget}, tries {tries}");
            let mut seen = <[Seen; 2]>::default();
            for starts in [sheet(&mut dice, net.lines()), best.clone()] {
                let sheet = sheet_bytes(&starts);
                compare_mark(&mut dice, &file, &sheet, budget, &mut seen[0]);
                compare_hundred(&mut dice, &file, &sheet, budget, &mut seen[1]);
            }
            for one in seen {
                assert_eq!(one.answers, [2 * finishes, 2 - 2 * finishes, 0]);
            }
        }
    }
    println!("{at_bound} searches take all tries of the bound, {below_bound} fewer");
    assert!(at_bound >= 50 && below_bound >= 50);
}

/// A wanted gap under such budgets: found or none exactly where the budget is no
/// less than the tries that it takes, and otherwise stopped.
#[test]
fn budgets_of_a_wanted_gap() {
    let mut dice = Dice::new(77);
    let mut ends = [0; 2];
    for _ in 0..2 * FILES {
        let file = roomy_file(&mut dice);
        let net = read(&file).expect("a valid file");
        let gap = any_gap(&mut dice, &file);
        let (end, tries) = match seek(&net, gap, MOST_TRIES).answer {
            Wanted::Found { tries } => (0, tries),
            Wanted::None { tries } => (1, tries),
            Wanted::Stopped { .. } => continue,
        };
        let bound = u32::try_from(most_tries(&net)).unwrap_or(u32::MAX);
        assert!(tries <= bound);
        ends[end] += usize::from(tries > net.lines() as u32);
        for budget in budgets(&net, tries, bound) {
            let mut seen = Seen::default();
            compare_wanted(&mut dice, &file, net.lines(), (gap, budget), &mut seen);
            let end = if budget >= tries { end } else { 2 };
            assert_eq!(seen.last, end as u32, "gap {gap}, budget {budget}");
        }
    }
    println!("{ends:?} found and none after more tries than lines");
    assert!(ends.iter().all(|&count| count >= 80));
}
