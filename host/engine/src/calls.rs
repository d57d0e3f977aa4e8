//! A function for each export of docs/ABI.md (one for both marks). Nothing is computed
//! here; every number is the engine's.

use crate::answers::{
    Arrival, Best, Better, Classes, Counts, Gaps, Hundred, Mark, Rating, RowSearched, RowWanted,
    Searched, SoFar, Wanted, LONGEST_BOARD, MOST_CALLS_AT_STOP, NO_GAP, STOPS,
};
use crate::exports;
use crate::ground::Ground;
use crate::refusal::Refusal;
use crate::sheet::Sheet;
use std::ops::RangeInclusive;

/// How long an archive form is: an edition above 1 takes 2 bytes, a line 3, a call 5,
/// the end 1, and there are at most 16 lines and 256 calls.
const ARCHIVE_LENGTHS: RangeInclusive<usize> = 3 + 5 + 1..=2 + 16 * 3 + 256 * 5 + 1;

/// Return values from here on are refusals (docs/ABI.md, "How things cross").
const REFUSED: u32 = 65_536;

/// Reads a network file: what it has, or what is wrong with it and where.
///
/// ```
/// use engine::{typed, Ground};
///
/// let network = typed::read(b"4C000F 4C0014 4300000008 4301000011 45")?;
/// let counts = engine::read(network.bytes()).expect("an accepted network");
/// assert_eq!((counts.lines, counts.cycle), (2, 60));
///
/// // The end is missing.
/// let cut = &network.bytes()[..16];
/// let refusal = engine::read(cut).unwrap_err();
/// assert_eq!((refusal.ground, refusal.place), (Ground::NoCommand, 16));
/// # Ok::<(), typed::Mistyped>(())
/// ```
pub fn read(file: &[u8]) -> Result<Counts, Refusal> {
    const EXPORT: &str = "examination_read";
    let mut answer = [0; 4];
    match answered(EXPORT, exports::read(file, &mut answer))? {
        0 => {
            let [lines, served_stops, calls, cycle] = answer;
            Ok(Counts {
                lines,
                served_stops,
                calls,
                cycle,
            })
        }
        other => unknown(EXPORT, other),
    }
}

/// Rates a sheet: the least gap between two lines at any stop, and the sum of
/// the gaps.
///
/// ```
/// use engine::{typed, Ground, Rating, Sheet};
///
/// let network = typed::read(b"4C000F 4C0014 4300000008 4301000011 45")?;
/// let rating = engine::rate(network.bytes(), &Sheet::of_starts(&[0, 0]));
/// assert_eq!(rating, Ok(Rating { least: 1, sum: 1 }));
///
/// let refusal = engine::rate(network.bytes(), &Sheet::of_starts(&[0])).unwrap_err();
/// assert_eq!(refusal.ground, Ground::SheetLength);
/// # Ok::<(), typed::Mistyped>(())
/// ```
pub fn rate(file: &[u8], sheet: &Sheet) -> Result<Rating, Refusal> {
    const EXPORT: &str = "examination_rate";
    let mut answer = [0; 2];
    match answered(EXPORT, exports::rate(file, sheet.bytes(), &mut answer))? {
        0 => Ok(rating(answer[0], answer[1])),
        other => unknown(EXPORT, other),
    }
}

/// Rates a sheet over the lowest stops of the classes with their weights, which
/// gives the same as [`rate`] on every file and sheet.
///
/// ```
/// use engine::{typed, Rating, Sheet};
///
/// let network = typed::read(b"4C000F 4C0014 4300000008 4301000011 45")?;
/// let sheet = Sheet::of_starts(&[0, 0]);
/// let weighted = engine::weighted(network.bytes(), &sheet);
/// assert_eq!(weighted, engine::rate(network.bytes(), &sheet));
/// # Ok::<(), typed::Mistyped>(())
/// ```
pub fn weighted(file: &[u8], sheet: &Sheet) -> Result<Rating, Refusal> {
    const EXPORT: &str = "examination_weighted";
    let mut answer = [0; 2];
    match answered(EXPORT, exports::weighted(file, sheet.bytes(), &mut answer))? {
        0 => Ok(rating(answer[0], answer[1])),
        other => unknown(EXPORT, other),
    }
}

/// The gap of each stop under a sheet, and the rating that they make: why a sheet has the
/// rating it has. Refuses as [`rate`] does.
///
/// ```
/// use engine::{typed, Ground, Sheet};
///
/// let network = typed::read(b"4C000F 4C0014 4300000008 4301000011 45")?;
/// let sheet = Sheet::of_starts(&[0, 0]);
/// let gaps = engine::gaps(network.bytes(), &sheet).expect("a sheet that fits");
/// assert_eq!((gaps.at(0), gaps.at(1)), (Some(1), None));
/// assert_eq!(Ok(gaps.rating), engine::rate(network.bytes(), &sheet));
///
/// let refusal = engine::gaps(network.bytes(), &Sheet::of_starts(&[0])).unwrap_err();
/// assert_eq!(refusal.ground, Ground::SheetLength);
/// # Ok::<(), typed::Mistyped>(())
/// ```
pub fn gaps(file: &[u8], sheet: &Sheet) -> Result<Gaps, Refusal> {
    let mut gap_row = [NO_GAP; STOPS];
    let rating = gaps_into(file, sheet, &mut gap_row)?;
    Ok(Gaps { gap_row, rating })
}

/// As [`gaps`], into a row of the caller: the gap of each stop, [`NO_GAP`] if unserved.
/// It stays as it is where the call is refused. Returns the rating.
///
/// ```
/// use engine::{typed, Rating, Sheet, NO_GAP};
///
/// let network = typed::read(b"4C000F 4C0014 4300000008 4301000011 45")?;
/// let mut gap_row = [7; 64];
/// let mut into = |starts: &[i32]| {
///     engine::gaps_into(network.bytes(), &Sheet::of_starts(starts), &mut gap_row)
/// };
/// assert!(into(&[0]).is_err());
/// assert_eq!(into(&[0, 0]), Ok(Rating { least: 1, sum: 1 }));
/// assert_eq!(gap_row[..2], [1, NO_GAP]);
/// # Ok::<(), typed::Mistyped>(())
/// ```
pub fn gaps_into(
    file: &[u8],
    sheet: &Sheet,
    gap_row: &mut [u16; STOPS],
) -> Result<Rating, Refusal> {
    const EXPORT: &str = "examination_gaps";
    let mut answer = [0; 2];
    let returned = exports::gaps(file, sheet.bytes(), gap_row, &mut answer);
    match answered(EXPORT, returned)? {
        0 => Ok(rating(answer[0], answer[1])),
        other => unknown(EXPORT, other),
    }
}

/// The classes of stops that rate alike under every timetable.
///
/// ```
/// use engine::typed;
///
/// let network = typed::read(b"4C000F 4C0014 4300000008 4301000011 45")?;
/// let classes = engine::classes(network.bytes()).expect("an accepted network");
/// assert_eq!(classes.count, 1);
/// // Stop 0 is a class of its own; nothing calls at stop 1.
/// assert_eq!(classes.class_row[..2], [0, 255]);
/// # Ok::<(), typed::Mistyped>(())
/// ```
pub fn classes(file: &[u8]) -> Result<Classes, Refusal> {
    let mut class_row = [0; STOPS];
    let mut weight_row = [0; STOPS];
    let count = classes_into(file, &mut class_row, &mut weight_row)?;
    Ok(Classes {
        class_row,
        weight_row,
        count,
    })
}

/// As [`classes`], into rows of the caller, which have [`STOPS`] places each and
/// stay as they are where the call is refused. Returns the number of classes.
///
/// ```
/// use engine::{typed, Ground};
///
/// let network = typed::read(b"4C000F 4C0014 4300000008 4301000011 45")?;
/// let (mut class_row, mut weight_row) = ([0; 64], [0; 64]);
/// let count = engine::classes_into(network.bytes(), &mut class_row, &mut weight_row);
/// assert_eq!((count, class_row[0], weight_row[0]), (Ok(1), 0, 1));
///
/// let refused = engine::classes_into(network.bytes(), &mut class_row, &mut [0; 63]);
/// assert_eq!(refused.unwrap_err().ground, Ground::ClassRowLength);
/// # Ok::<(), typed::Mistyped>(())
/// ```
pub fn classes_into(
    file: &[u8],
    class_row: &mut [u8],
    weight_row: &mut [u16],
) -> Result<u32, Refusal> {
    const EXPORT: &str = "examination_classes";
    let mut answer = [0; 1];
    let returned = exports::classes(file, class_row, weight_row, &mut answer);
    match answered(EXPORT, returned)? {
        0 => Ok(answer[0]),
        other => unknown(EXPORT, other),
    }
}

/// The board of a stop under a sheet: every arrival from the first minute until before
/// that many minutes later, by time and then line, each as often as calls produce it. A
/// call produces the line's start plus its offset, and every whole number of periods
/// before and behind it. Where no line calls the board is empty.
///
/// ```
/// use engine::{typed, Arrival, Ground, Sheet};
///
/// let network = typed::read(b"4C000F 4C0014 4300000008 4301000011 45")?;
/// let board = |stop, first, length| {
///     engine::board(network.bytes(), &Sheet::of_starts(&[0, 0]), stop, first, length)
/// };
/// let arrivals = [(8, 0), (17, 1), (23, 0)].map(|(time, line)| Arrival { time, line });
/// assert_eq!(board(0, 0, 24), Ok(arrivals.to_vec()));
/// // Before minute 0, and at a stop where no line calls.
/// assert_eq!(board(0, -3, 3), Ok(vec![Arrival { time: -3, line: 1 }]));
/// assert_eq!(board(63, 0, 10_080), Ok(vec![]));
///
/// assert_eq!(board(64, 0, 10_081).unwrap_err().ground, Ground::Stop);
/// assert_eq!(board(63, 0, 10_081).unwrap_err().ground, Ground::BoardLength);
/// # Ok::<(), typed::Mistyped>(())
/// ```
pub fn board(
    file: &[u8],
    sheet: &Sheet,
    stop: u32,
    first: i32,
    length: u32,
) -> Result<Vec<Arrival>, Refusal> {
    // A longer one is refused before the rows are looked at.
    let minutes = if length <= LONGEST_BOARD { length } else { 0 };
    let most = MOST_CALLS_AT_STOP * minutes as usize;
    let (mut times, mut lines) = (vec![0; most], vec![0; most]);
    let count = board_into(file, sheet, stop, first, length, &mut times, &mut lines)?;
    let arrivals = times[..count as usize].iter().zip(&lines[..count as usize]);
    Ok(arrivals
        .map(|(&time, &line)| Arrival { time, line })
        .collect())
}

/// As [`board`], to the beginnings of two rows of the caller: the times, and beside them
/// the lines. What lies behind the list stays as it is, and where the call is refused
/// both rows do. Returns how many arrivals there are.
///
/// ```
/// use engine::{typed, Ground, Sheet};
///
/// let network = typed::read(b"4C000F 4C0014 4300000008 4301000011 45")?;
/// let sheet = Sheet::of_starts(&[0, 0]);
/// let (mut times, mut lines) = ([99; 4], [99; 3]);
/// let mut into = |length| {
///     engine::board_into(network.bytes(), &sheet, 0, 0, length, &mut times, &mut lines)
/// };
/// assert_eq!(into(24), Ok(3));
/// // A fourth arrival, for which there is a time and no line.
/// assert_eq!(into(38).unwrap_err().ground, Ground::BoardRowLength);
/// assert_eq!((times, lines), ([8, 17, 23, 99], [0, 1, 0]));
/// # Ok::<(), typed::Mistyped>(())
/// ```
pub fn board_into(
    file: &[u8],
    sheet: &Sheet,
    stop: u32,
    first: i32,
    length: u32,
    time_row: &mut [i64],
    line_row: &mut [u8],
) -> Result<u32, Refusal> {
    const EXPORT: &str = "examination_board";
    let mut answer = [0; 1];
    let asked = (stop, first, length);
    let returned = exports::board(file, sheet.bytes(), asked, time_row, line_row, &mut answer);
    match answered(EXPORT, returned)? {
        0 => Ok(answer[0]),
        other => unknown(EXPORT, other),
    }
}

/// Searches for the best timetable, with so many tries at most.
///
/// A search takes as long as its tries; nothing is said before its end. With
/// a budget of `u32::MAX` it can take minutes.
///
/// ```
/// use engine::{typed, Searched};
///
/// let network = typed::read(b"4C000F 4C0014 4300000008 4301000011 45")?;
/// let searched = engine::search(network.bytes(), 1_000_000).expect("an accepted network");
/// let Searched::Finished(best) = searched else {
///     panic!("the budget is used up");
/// };
/// assert_eq!((best.starts(), best.tries()), (&[0, 3][..], 21));
/// # Ok::<(), typed::Mistyped>(())
/// ```
pub fn search(file: &[u8], budget: u32) -> Result<Searched, Refusal> {
    let mut starts = vec![0; read(file)?.lines as usize];
    Ok(match search_into(file, &mut starts, budget)? {
        RowSearched::Finished { rating, tries } => Searched::Finished(Best {
            rating,
            starts,
            tries,
        }),
        RowSearched::Stopped { rating, tries } => Searched::Stopped {
            so_far: SoFar { rating, starts },
            tries,
        },
        RowSearched::StoppedWithNone { tries } => Searched::StoppedWithNone { tries },
    })
}

/// As [`search`], the starts into a row of the caller, which has one place for
/// each line. It stays as it is where the call is refused or the search stopped
/// with none. Whether its starts are the best, the answer says, and not the row.
///
/// ```
/// use engine::{typed, Rating, RowSearched};
///
/// let network = typed::read(b"4C000F 4C0014 4300000008 4301000011 45")?;
/// let mut row = [0; 2];
/// let ended = engine::search_into(network.bytes(), &mut row, 20);
/// let rating = Rating { least: 2, sum: 2 };
/// // Nobody knows yet that there is none better.
/// assert_eq!(ended, Ok(RowSearched::Stopped { rating, tries: 20 }));
/// assert_eq!(row, [0, 3]);
/// # Ok::<(), typed::Mistyped>(())
/// ```
pub fn search_into(
    file: &[u8],
    start_row: &mut [i32],
    budget: u32,
) -> Result<RowSearched, Refusal> {
    const EXPORT: &str = "examination_search";
    let mut answer = [0; 3];
    let returned = exports::search(file, start_row, budget, &mut answer);
    let returned = answered(EXPORT, returned)?;
    let [least, sum, tries] = answer;
    let rating = rating(least, sum);
    match returned {
        0 => Ok(RowSearched::Finished { rating, tries }),
        1 => Ok(RowSearched::Stopped { rating, tries }),
        2 => Ok(RowSearched::StoppedWithNone { tries }),
        other => unknown(EXPORT, other),
    }
}

/// Seeks a timetable with at least the wanted gap, with so many tries at most: the
/// first on the search's way, or the answer that there is none.
///
/// Every gap may be wanted. 0 is had by the first timetable, and what is above the
/// cap of some stop is known to be out of reach after one try.
///
/// ```
/// use engine::{typed, Wanted};
///
/// let network = typed::read(b"4C000F 4C0014 4300000008 4301000011 45")?;
/// let sought = |gap| engine::wanted(network.bytes(), gap, 1_000_000);
/// assert_eq!(sought(2), Ok(Wanted::Found { starts: vec![0, 3], tries: 5 }));
/// assert_eq!(sought(3), Ok(Wanted::None { tries: 1 }));
/// # Ok::<(), typed::Mistyped>(())
/// ```
pub fn wanted(file: &[u8], gap: u16, budget: u32) -> Result<Wanted, Refusal> {
    let mut starts = vec![0; read(file)?.lines as usize];
    Ok(match wanted_into(file, &mut starts, gap, budget)? {
        RowWanted::Found { tries } => Wanted::Found { starts, tries },
        RowWanted::None { tries } => Wanted::None { tries },
        RowWanted::Stopped { tries } => Wanted::Stopped { tries },
    })
}

/// As [`wanted`], the starts into a row of the caller, which has one place for each
/// line. It stays as it is but where a timetable is found.
///
/// ```
/// use engine::{typed, RowWanted};
///
/// let network = typed::read(b"4C000F 4C0014 4300000008 4301000011 45")?;
/// let mut row = [7, 7];
/// let sought = engine::wanted_into(network.bytes(), &mut row, 2, 4);
/// assert_eq!((sought, row), (Ok(RowWanted::Stopped { tries: 4 }), [7, 7]));
/// let sought = engine::wanted_into(network.bytes(), &mut row, 2, 5);
/// assert_eq!((sought, row), (Ok(RowWanted::Found { tries: 5 }), [0, 3]));
/// # Ok::<(), typed::Mistyped>(())
/// ```
pub fn wanted_into(
    file: &[u8],
    start_row: &mut [i32],
    gap: u16,
    budget: u32,
) -> Result<RowWanted, Refusal> {
    const EXPORT: &str = "examination_wanted";
    let mut answer = [0; 1];
    let returned = exports::wanted(file, start_row, gap, budget, &mut answer);
    let returned = answered(EXPORT, returned)?;
    let [tries] = answer;
    match returned {
        0 => Ok(RowWanted::Found { tries }),
        1 => Ok(RowWanted::None { tries }),
        2 => Ok(RowWanted::Stopped { tries }),
        other => unknown(EXPORT, other),
    }
}

/// Says which of two sheets is better: the first if they are equal. A sheet of
/// the wrong length loses to one that fits.
///
/// ```
/// use engine::{typed, Better, Sheet};
///
/// let network = typed::read(b"4C000F 4C0014 4300000008 4301000011 45")?;
/// let [anna, ben] = [Sheet::of_starts(&[0, 0]), Sheet::of_starts(&[0, -17])];
/// assert_eq!(engine::better(network.bytes(), &anna, &ben), Better::Second);
/// # Ok::<(), typed::Mistyped>(())
/// ```
pub fn better(file: &[u8], first: &Sheet, second: &Sheet) -> Better {
    match exports::better(file, first.bytes(), second.bytes()) {
        0 => Better::Neither,
        1 => Better::First,
        2 => Better::Second,
        other => unknown("examination_better", other),
    }
}

/// Marks a sheet: rates it and searches for the best timetable, with so many tries at
/// most, beside which it has a mark out of a hundred.
///
/// ```
/// use engine::{typed, Hundred, Mark, Rating, Sheet};
///
/// let network = typed::read(b"4C000F 4C0014 4300000008 4301000011 45")?;
/// let mark = engine::mark(network.bytes(), &Sheet::of_starts(&[0, 0]), 1_000_000);
/// let expected = Mark::Decided {
///     sheet: Rating { least: 1, sum: 1 },
///     best: Rating { least: 2, sum: 2 },
///     equal: false,
///     hundred: Hundred { mark: 50, remainder: 0 },
///     tries: 21,
/// };
/// assert_eq!(mark, Ok(expected));
/// # Ok::<(), typed::Mistyped>(())
/// ```
pub fn mark(file: &[u8], sheet: &Sheet, budget: u32) -> Result<Mark, Refusal> {
    const EXPORT: &str = "examination_hundred";
    let (mut answer, mut row) = ([0; 6], [0; 2]);
    let returned = exports::hundred(file, sheet.bytes(), budget, &mut answer, &mut row);
    let returned = answered(EXPORT, returned)?;
    let [least, sum, best_least, best_sum, equal, tries] = answer;
    let sheet = rating(least, sum);
    match returned {
        0 => Ok(Mark::Decided {
            sheet,
            best: rating(best_least, best_sum),
            equal: equal == 1,
            hundred: hundred(row),
            tries,
        }),
        1 => Ok(Mark::Undecided { sheet, tries }),
        other => unknown(EXPORT, other),
    }
}

/// The mark out of a hundred of a sheet beside a key, without a search. Beside the
/// starts of a finished one it is that of [`mark`], so that one search is enough for
/// many sheets. Beside another key it may be above 100.
///
/// ```
/// use engine::{typed, Ground, Hundred, Sheet};
///
/// let network = typed::read(b"4C000A 4C000A 4C000A 4300000000 4301000000 4302000000 45")?;
/// let [sheet, key] = [[0, 2, 5], [0, 3, 6]].map(|starts| Sheet::of_starts(&starts));
/// let mark = engine::mark_by_key(network.bytes(), &sheet, &key);
/// assert_eq!(mark, Ok(Hundred { mark: 66, remainder: 2 }));
/// let turned = engine::mark_by_key(network.bytes(), &key, &sheet);
/// assert_eq!(turned, Ok(Hundred { mark: 150, remainder: 0 }));
///
/// // A key that doesn't fit is refused as a sheet is.
/// let refusal = engine::mark_by_key(network.bytes(), &sheet, &Sheet::of_starts(&[0]));
/// assert_eq!(refusal.unwrap_err().ground, Ground::SheetLength);
/// # Ok::<(), typed::Mistyped>(())
/// ```
pub fn mark_by_key(file: &[u8], sheet: &Sheet, key: &Sheet) -> Result<Hundred, Refusal> {
    const EXPORT: &str = "examination_by_key";
    let mut row = [0; 2];
    let returned = exports::by_key(file, sheet.bytes(), key.bytes(), &mut row);
    match answered(EXPORT, returned)? {
        0 => Ok(hundred(row)),
        other => unknown(EXPORT, other),
    }
}

/// The archive form of a network file: the same bytes for every file of one
/// network.
///
/// ```
/// use engine::typed;
///
/// let one = typed::read(b"4C000F 4C0014 4300000008 4301000011 45")?;
/// let other = typed::read(b"4C000F 4300000008 4C0014 4301000011 45")?;
/// assert_eq!(engine::archive(one.bytes()), engine::archive(other.bytes()));
/// # Ok::<(), typed::Mistyped>(())
/// ```
pub fn archive(file: &[u8]) -> Result<Vec<u8>, Refusal> {
    let mut row = vec![0; *ARCHIVE_LENGTHS.end()];
    let length = archive_into(file, &mut row)?;
    row.truncate(length);
    Ok(row)
}

/// As [`archive`], to the beginning of a row of the caller, which stays as it is
/// where the call is refused. Returns the length. A row of 1,331 bytes is enough for
/// every file; in edition 2 the form is two bytes longer than its lines and calls ask
/// for.
///
/// ```
/// use engine::typed;
///
/// let network = typed::read(b"4C000F 4C0014 4300000008 4301000011 45")?;
/// let mut row = [9; 18];
/// assert_eq!(engine::archive_into(network.bytes(), &mut row), Ok(17));
/// assert_eq!((&row[..17], row[17]), (network.bytes(), 9));
///
/// let second = typed::read(b"5602 4C000F 4C0014 4300000008 4301000011 45")?;
/// let refusal = engine::archive_into(second.bytes(), &mut row).unwrap_err();
/// assert_eq!(refusal.to_string(), "refused 18 at 0");
/// assert_eq!(engine::archive_into(second.bytes(), &mut [0; 1_331]), Ok(19));
/// # Ok::<(), typed::Mistyped>(())
/// ```
pub fn archive_into(file: &[u8], row: &mut [u8]) -> Result<usize, Refusal> {
    const EXPORT: &str = "examination_archive";
    let returned = answered(EXPORT, exports::archive(file, row))?;
    let length = returned as usize;
    match ARCHIVE_LENGTHS.contains(&length) && length <= row.len() {
        true => Ok(length),
        false => unknown(EXPORT, returned),
    }
}

fn rating(least: u32, sum: u32) -> Rating {
    Rating { least, sum }
}

fn hundred([mark, remainder]: [u32; 2]) -> Hundred {
    Hundred { mark, remainder }
}

/// Tells a refusal from an answer.
fn answered(export: &str, returned: u32) -> Result<u32, Refusal> {
    if returned < REFUSED {
        return Ok(returned);
    }
    let Ok(ground) = Ground::try_from(returned / REFUSED) else {
        unknown(export, returned);
    };
    let place = returned % REFUSED;
    Err(Refusal { ground, place })
}

/// A return value that docs/ABI.md doesn't have can come only of a library
/// that isn't this engine's. No answer made of it could be trusted.
fn unknown(export: &str, returned: u32) -> ! {
    panic!("{export} returned {returned}, which docs/ABI.md doesn't have: is the library another?")
}
