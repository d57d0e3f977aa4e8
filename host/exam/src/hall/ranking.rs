//! Sheets by their marks, the largest first.

use super::outcome::Row;
use std::cmp::Ordering;

/// By mark, then by remainder, the larger first, then by name: sums don't enter, so that
/// of one mark and remainder a sheet that is below may stand before one that is equal. A
/// sheet without a mark, undecided, refused or unreadable, comes behind all that have
/// one, by name too.
pub fn ranked(mut rows: Vec<Row>) -> Vec<Row> {
    rows.sort_by(before);
    rows
}

fn before(one: &Row, other: &Row) -> Ordering {
    // What is none is the least.
    let by_mark = other.outcome.hundred().cmp(&one.outcome.hundred());
    by_mark.then_with(|| one.name.cmp(&other.name))
}

#[cfg(test)]
mod tests {
    use super::ranked;
    use crate::hall::outcome::{Outcome, Row};
    use crate::status::Trouble;
    use engine::{Ground, Hundred, Mark, Rating, Refusal};
    use papers::files::Dice;

    const RATING: Rating = Rating { least: 1, sum: 9 };

    fn marked(mark: u32, remainder: u32) -> Outcome {
        Outcome::Marked(Mark::Decided {
            sheet: RATING,
            best: RATING,
            equal: false,
            hundred: Hundred { mark, remainder },
            tries: 21,
        })
    }

    fn outcomes() -> [(&'static str, Outcome); 9] {
        let refusal = Refusal {
            ground: Ground::SheetLength,
            place: 0,
        };
        [
            ("g", marked(100, 0)),
            ("a", marked(99, 620)),
            ("f", marked(99, 70)),
            ("c", marked(9, 1_000)),
            ("e", marked(9, 1_000)),
            ("b", marked(0, 0)),
            ("B", Outcome::Refused(refusal)),
            ("d", Outcome::Unreadable(Trouble::unsaid())),
            (
                "h",
                Outcome::Marked(Mark::Undecided {
                    sheet: RATING,
                    tries: 3,
                }),
            ),
        ]
    }

    /// In whatever order they come. As texts, 9 would stand above 100, and 70 above
    /// 620.
    #[test]
    fn the_order() {
        let mut dice = Dice::new(309);
        for _ in 0..200 {
            let mut rows = Vec::new();
            for (name, outcome) in outcomes() {
                let row = Row {
                    name: name.into(),
                    sheet: None,
                    outcome,
                };
                rows.insert(dice.below(rows.len() + 1), row);
            }
            let names = ranked(rows).into_iter().map(|row| row.name);
            let names: Vec<String> = names.filter_map(|name| name.into_string().ok()).collect();
            assert_eq!(names.concat(), "gafcebBdh");
        }
    }
}
