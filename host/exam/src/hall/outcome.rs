//! What became of a sheet.

use super::sheets::Named;
use crate::output::lines::{mark_line, shown};
use crate::status::{Status, Trouble};
use engine::{Better, Hundred, Mark, Rating, Refusal, Searched, Sheet};

pub enum Outcome {
    Rated(Rating),
    Marked(Mark),
    Refused(Refusal),
    Unreadable(Trouble),
}

/// A sheet's name, what became of it, and itself, if it could be read.
pub struct Row {
    pub name: std::ffi::OsString,
    pub sheet: Option<Sheet>,
    pub outcome: Outcome,
}

/// The words of tally and record, in the tally's order.
pub const WORDS: [&str; 6] = [
    "rated",
    "equal",
    "below",
    "undecided",
    "refused",
    "unreadable",
];

impl Row {
    /// What the rate call says of a sheet.
    pub fn rated(file: &[u8], named: Named) -> Row {
        let name = named.name;
        match named.sheet {
            Ok(sheet) => Row {
                name,
                outcome: match engine::rate(file, &sheet) {
                    Ok(rating) => Outcome::Rated(rating),
                    Err(refusal) => Outcome::Refused(refusal),
                },
                sheet: Some(sheet),
            },
            Err(trouble) => Row {
                name,
                sheet: None,
                outcome: Outcome::Unreadable(trouble),
            },
        }
    }

    /// The mark of a sheet that was rated, by one search for all sheets.
    pub fn marked(self, file: &[u8], searched: &Result<Searched, Refusal>) -> Row {
        let (Outcome::Rated(rating), Some(sheet)) = (&self.outcome, &self.sheet) else {
            return self;
        };
        let marked = match searched {
            Ok(searched) => mark(file, (sheet, *rating), searched),
            Err(refusal) => Err(*refusal),
        };
        let outcome = marked.map_or_else(Outcome::Refused, Outcome::Marked);
        Row { outcome, ..self }
    }
}

/// What `engine::mark` answers with the budget of the search. Nothing is above
/// the best of a finished search, and better-of-two has the first if equal: it
/// answers the sheet exactly where its rating is the best one. Beside the starts of
/// that search a sheet has its mark out of a hundred.
fn mark(
    file: &[u8],
    (sheet, rating): (&Sheet, Rating),
    searched: &Searched,
) -> Result<Mark, Refusal> {
    Ok(match searched {
        Searched::Finished(best) => {
            let key = Sheet::of_starts(best.starts());
            Mark::Decided {
                sheet: rating,
                best: best.rating(),
                equal: engine::better(file, sheet, &key) == Better::First,
                hundred: engine::mark_by_key(file, sheet, &key)?,
                tries: best.tries(),
            }
        }
        Searched::Stopped { tries, .. } | Searched::StoppedWithNone { tries } => Mark::Undecided {
            sheet: rating,
            tries: *tries,
        },
    })
}

impl Outcome {
    /// The line of a sheet, without its name.
    pub fn line(&self) -> String {
        match self {
            Outcome::Rated(rating) => shown(*rating),
            Outcome::Marked(mark) => mark_line(*mark),
            Outcome::Refused(refusal) => refusal.to_string(),
            Outcome::Unreadable(_) => "unreadable".to_string(),
        }
    }

    /// One of the words.
    pub fn word(&self) -> &'static str {
        match self {
            Outcome::Rated(_) => "rated",
            Outcome::Marked(Mark::Decided { equal: true, .. }) => "equal",
            Outcome::Marked(Mark::Decided { equal: false, .. }) => "below",
            Outcome::Marked(Mark::Undecided { .. }) => "undecided",
            Outcome::Refused(_) => "refused",
            Outcome::Unreadable(_) => "unreadable",
        }
    }

    /// The sheet's own rating.
    pub fn rating(&self) -> Option<Rating> {
        match self {
            Outcome::Rated(sheet)
            | Outcome::Marked(Mark::Decided { sheet, .. } | Mark::Undecided { sheet, .. }) => {
                Some(*sheet)
            }
            Outcome::Refused(_) | Outcome::Unreadable(_) => None,
        }
    }

    /// The mark out of a hundred, which only a decided marking has.
    pub fn hundred(&self) -> Option<Hundred> {
        match self {
            Outcome::Marked(Mark::Decided { hundred, .. }) => Some(*hundred),
            _ => None,
        }
    }

    pub fn status(&self) -> Status {
        match self {
            Outcome::Rated(_) | Outcome::Marked(Mark::Decided { .. }) => Status::Done,
            Outcome::Marked(Mark::Undecided { .. }) => Status::Undecided,
            Outcome::Refused(_) => Status::Refused,
            Outcome::Unreadable(_) => Status::Trouble,
        }
    }
}

#[cfg(test)]
mod tests {
    use super::{Outcome, Row, WORDS};
    use crate::hall::sheets::Named;
    use engine::{Hundred, Sheet};
    use papers::files::{any_budget, any_file, any_sheet_bytes, sheet, Dice};
    use papers::sections::network::read;
    use papers::small::{small_file, small_file_for_gaps};
    use std::collections::BTreeMap;

    /// Files of every kind, some with few timetables, so that sheets are equal
    /// to the best now and then, or have a part of its least gap.
    fn file(dice: &mut Dice) -> Vec<u8> {
        match dice.once_in(2) {
            true => any_file(dice),
            false => small_file_for_gaps(dice, 2_000).0,
        }
    }

    /// One search for all sheets says of each what the mark call says: decided,
    /// undecided, stopped with none and refused, and the mark out of a hundred.
    #[test]
    fn one_search_marks_as_the_mark_call() {
        let mut dice = Dice::new(305);
        let mut seen = BTreeMap::new();
        for _ in 0..2_000 {
            let file = file(&mut dice);
            let lines = read(&file).map_or(3, |net| net.lines());
            let budget = any_budget(&mut dice);
            let searched = engine::search(&file, budget);
            for _ in 0..6 {
                let bytes = match dice.once_in(3) {
                    true => any_sheet_bytes(&mut dice, lines),
                    false => papers::files::sheet_bytes(&sheet(&mut dice, lines)),
                };
                let sheet = Sheet::of_bytes(bytes);
                let row = Row::rated(&file, named(&sheet)).marked(&file, &searched);
                *seen.entry(row.outcome.word()).or_insert(0) += 1;
                if let Some(hundred) = row.outcome.hundred() {
                    *seen.entry(kind(hundred)).or_insert(0) += 1;
                }
                match (engine::mark(&file, &sheet, budget), row.outcome) {
                    (Ok(mark), Outcome::Marked(ours)) => assert_eq!(ours, mark),
                    (Err(refusal), Outcome::Refused(ours)) => assert_eq!(ours, refusal),
                    (answer, ours) => panic!("{answer:?} and {}", ours.line()),
                }
            }
        }
        for word in ["equal", "below", "undecided", "refused"] {
            assert!(seen[word] > 200, "{seen:?}");
        }
        for kind in ["100", "0", "between", "with a remainder"] {
            assert!(seen[kind] > 200, "{seen:?}");
        }
    }

    fn kind(hundred: Hundred) -> &'static str {
        match (hundred.mark, hundred.remainder) {
            (_, 1..) => "with a remainder",
            (100, _) => "100",
            (0, _) => "0",
            _ => "between",
        }
    }

    fn named(sheet: &Sheet) -> Named {
        let name = "a".into();
        let sheet = Ok(sheet.clone());
        Named { name, sheet }
    }

    /// The key itself, and the key on other days, are equal to it.
    #[test]
    fn the_key_is_equal_to_itself() {
        let mut dice = Dice::new(306);
        for _ in 0..300 {
            let (file, net) = small_file(&mut dice, 2_000);
            let searched = engine::search(&file, u32::MAX);
            let Ok(engine::Searched::Finished(best)) = &searched else {
                panic!("it finishes with the largest budget");
            };
            let days = net.periods.iter().map(|period| *period as i32 * 7);
            let other: Vec<i32> = best.starts().iter().zip(days).map(|(s, d)| s - d).collect();
            for starts in [best.starts(), &other] {
                let row = Row::rated(&file, named(&Sheet::of_starts(starts)));
                let row = row.marked(&file, &searched);
                assert_eq!(row.outcome.word(), "equal");
                assert!(WORDS.contains(&row.outcome.word()));
            }
        }
    }
}
