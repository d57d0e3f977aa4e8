//! Ratings, marks, searches and rows as they are printed, without line ends.

use engine::{Hundred, Mark, Rating, Searched};

pub fn shown(rating: Rating) -> String {
    format!("gap {} sum {}", rating.least, rating.sum)
}

pub fn mark_line(mark: Mark) -> String {
    match mark {
        Mark::Decided {
            sheet,
            best,
            equal,
            hundred: Hundred { mark, remainder },
            tries,
        } => {
            let (sheet, best) = (shown(sheet), shown(best));
            let word = if equal { "equal" } else { "below" };
            format!("{sheet} best {best} {word} mark {mark} remainder {remainder} tries {tries}")
        }
        Mark::Undecided { sheet, tries } => {
            format!("undecided {} tries {tries}", shown(sheet))
        }
    }
}

/// A sheet beside a key that was given. Its words are others than those of a mark: that is
/// beside the best alone.
pub fn by_key_line((sheet, key): (Rating, Rating), word: &str, hundred: Hundred) -> String {
    let (sheet, key) = (shown(sheet), shown(key));
    let Hundred { mark, remainder } = hundred;
    format!("{sheet} key {key} {word} by this key {mark} remainder {remainder}")
}

/// Document 01's line.
pub fn search_line(searched: &Searched) -> String {
    match searched {
        Searched::Finished(best) => timetable_line(best.rating(), best.tries(), best.starts()),
        Searched::Stopped { so_far, tries } => {
            let line = timetable_line(so_far.rating(), *tries, so_far.starts());
            format!("stopped {line}")
        }
        Searched::StoppedWithNone { tries } => stopped_line(*tries),
    }
}

/// A timetable that came of so many tries.
pub fn timetable_line(rating: Rating, tries: u32, starts: &[i32]) -> String {
    let (rating, starts) = (shown(rating), joined(starts));
    format!("{rating} tries {tries} starts {starts}")
}

/// Tries that came to no timetable.
pub fn stopped_line(tries: u32) -> String {
    format!("stopped tries {tries}")
}

/// Numbers with blanks between them.
pub fn joined<T: ToString>(numbers: &[T]) -> String {
    let numbers: Vec<String> = numbers.iter().map(T::to_string).collect();
    numbers.join(" ")
}
