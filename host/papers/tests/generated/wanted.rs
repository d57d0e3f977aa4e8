//! Wanted gaps.

use crate::ratings::lines_for_sheet;
use papers::files::{any_budget, any_file, any_gap, any_sheet, Dice};
use papers::sections::network::{read, Network};
use papers::sections::rating::{rating_by_counting, whole};
use papers::sections::walk::{most_tries, walk, Answer};
use papers::sections::wanted::{seek, wanted, Wanted};

/// The call over any file, row, gap and budget: only a timetable that is found is
/// written, and it has the gap.
#[test]
fn wanted_gaps_of_any_kind() {
    let mut dice = Dice::new(14);
    let mut seen = [0; 4];
    for _ in 0..6_000 {
        let file = any_file(&mut dice);
        let lines = lines_for_sheet(&mut dice, &file);
        let before = any_sheet(&mut dice, lines);
        let mut row = before.clone();
        let (gap, budget) = (any_gap(&mut dice, &file), any_budget(&mut dice));
        let answer = wanted(&file, &mut row, gap, budget);
        let kind = match (read(&file), answer) {
            (Err(why), answer) => {
                assert_eq!(answer, Err(why));
                0
            }
            (Ok(net), Err(why)) => {
                assert_eq!((why.number, why.place), (16, 0));
                assert_ne!(before.len(), net.lines());
                0
            }
            (Ok(net), Ok(Wanted::Found { tries })) => {
                assert!(tries <= budget && u128::from(tries) <= most_tries(&net));
                assert!(tries as usize >= net.lines());
                has_the_gap(&net, &row, gap);
                1
            }
            (Ok(net), Ok(Wanted::None { tries })) => {
                assert!(tries <= budget && u128::from(tries) <= most_tries(&net));
                2
            }
            (Ok(net), Ok(Wanted::Stopped { tries })) => {
                assert!(tries == budget && u128::from(tries) < most_tries(&net));
                3
            }
        };
        assert!(kind == 1 || row == before);
        seen[kind] += 1;
    }
    assert!(seen.iter().all(|&count| count > 150), "{seen:?}");
}

/// The starts are such as the walk tries, and no stop's gap is below the wanted
/// one.
fn has_the_gap(net: &Network, starts: &[i32], gap: u16) {
    assert!(rating_by_counting(net, &whole(starts)).least >= u32::from(gap));
    assert_eq!(starts[0], 0);
    for (start, period) in starts.iter().zip(&net.periods) {
        assert!((0..*period as i32).contains(start));
    }
}

/// Beside a search that finishes, whatever the budgets are: a gap up to the best
/// one is never answered none, a larger one never found.
#[test]
fn beside_a_finished_search() {
    let mut dice = Dice::new(15);
    let (mut up_to, mut above) = (0, 0);
    for _ in 0..3_000 {
        let file = any_file(&mut dice);
        let Ok(net) = read(&file) else {
            continue;
        };
        let Answer::Finished { best, .. } = walk(&net, 20_000).answer else {
            continue;
        };
        let about = best.least as u16 + dice.below(2) as u16;
        for gap in [any_gap(&mut dice, &file), about] {
            let answer = seek(&net, gap, any_budget(&mut dice)).answer;
            match u32::from(gap) <= best.least {
                true => {
                    assert!(!matches!(answer, Wanted::None { .. }), "{gap}, {best:?}");
                    up_to += usize::from(matches!(answer, Wanted::Found { .. }));
                }
                false => {
                    assert!(!matches!(answer, Wanted::Found { .. }), "{gap}, {best:?}");
                    above += usize::from(matches!(answer, Wanted::None { .. }));
                }
            }
        }
    }
    assert!(up_to > 300 && above > 300, "{up_to}, {above}");
}
