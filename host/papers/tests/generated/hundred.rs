//! Marks out of a hundred: what document 02, A.5, says of every one of them.

use crate::ratings::lines_for_sheet;
use papers::files::{any_file, any_sheet, roomy_file, sheet, sheet_bytes, Dice};
use papers::sections::hundred::{by_key, by_key_bytes, hundred, Hundred};
use papers::sections::network::read;
use papers::sections::rating::Rating;
use papers::sections::sheets::{mark, rate};

fn of_gaps(sheet: u32, best: u32) -> Hundred {
    let rating = |least| Rating { least, sum: 0 };
    hundred(rating(sheet), rating(best))
}

/// "Mark times best plus remainder gives back 100 times the sheet's gap, the remainder
/// being smaller than a best above 0": all gaps beside some, and some beside all.
#[test]
fn mark_times_best_and_the_remainder() {
    let some = [1, 2, 3, 7, 60, 99, 100, 101, 719, 720, 1_439, 1_440];
    let beside_some = (0..=1_440).flat_map(|gap| some.map(|best| (gap, best)));
    let beside_all = (1..=1_440).flat_map(|best| some.map(|gap| (gap, best)));
    for (gap, best) in beside_some.chain(beside_all) {
        let Hundred { mark, remainder } = of_gaps(gap, best);
        assert_eq!(mark * best + remainder, 100 * gap);
        assert!(remainder < best);
        assert_eq!((mark, remainder) == (100, 0), gap == best);
        assert_eq!(mark >= 100, gap >= best);
    }
    for gap in 0..=1_440 {
        assert_eq!((of_gaps(gap, 0).mark, of_gaps(gap, 0).remainder), (100, 0));
    }
}

/// Beside one best above 0, mark and remainder have the order of the gaps: by the mark
/// alone many would be equal.
#[test]
fn ranks_are_the_order_of_gaps() {
    let mut by_remainder = 0;
    for best in [1, 2, 3, 101, 720, 1_440] {
        for gap in 0..1_440 {
            let (less, more) = (of_gaps(gap, best), of_gaps(gap + 1, best));
            assert!(less < more, "{gap} beside {best}");
            by_remainder += usize::from(less.mark == more.mark);
        }
    }
    assert!(by_remainder > 1_000, "{by_remainder}");
}

/// By a key it is what the two ratings give, on files of any kind, and both forms of
/// sheets agree.
#[test]
fn keys_of_any_kind() {
    let mut dice = Dice::new(17);
    let (mut marked, mut refused) = (0, 0);
    for _ in 0..3_000 {
        let file = any_file(&mut dice);
        let lines = lines_for_sheet(&mut dice, &file);
        let [sheet, key] = [0, 1].map(|_| any_sheet(&mut dice, lines));
        let found = by_key(&file, &sheet, &key);
        let bytes = [&sheet, &key].map(|starts| sheet_bytes(starts));
        assert_eq!(by_key_bytes(&file, &bytes[0], &bytes[1]), found);
        match (rate(&file, &sheet), rate(&file, &key)) {
            (Ok(one), Ok(other)) => {
                assert_eq!(found, Ok(of_gaps(one.least, other.least)));
                marked += 1;
            }
            (Err(why), _) | (_, Err(why)) => {
                assert_eq!(found, Err(why));
                refused += 1;
            }
        }
    }
    assert!(marked > 300 && refused > 300, "{marked}, {refused}");
}

/// No sheet has more than 100 beside the best, and as many marks lie between as the
/// other tests need.
#[test]
fn marks_of_finished_searches() {
    let mut dice = Dice::new(18);
    let (mut decided, mut between) = (0, 0);
    for _ in 0..1_000 {
        let file = roomy_file(&mut dice);
        let lines = read(&file).expect("a valid file").lines();
        let starts = sheet(&mut dice, lines);
        let marked = mark(&file, &starts, 2_000).expect("a sheet that fits");
        let Some(Hundred { mark, remainder }) = marked.hundred() else {
            continue;
        };
        decided += 1;
        between += usize::from(mark > 0 && mark < 100);
        assert!(mark < 100 || (mark, remainder) == (100, 0));
    }
    assert!(decided > 300 && between > 50, "{decided}, {between}");
}
