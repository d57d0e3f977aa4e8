//! The two arrivals that make a stop's gap, found on its board.

use engine::{Arrival, Refusal, Sheet, LONGEST_BOARD};

/// The minutes of a board: from the first one on, so many.
#[derive(Clone, Copy, Debug, PartialEq, Eq)]
pub struct Window {
    pub first: i32,
    pub length: u32,
}

/// Two arrivals of a stop that are as far apart as its gap, the earlier on this board, the
/// first such pair. The later may come behind the board's last minute: of one common cycle
/// there is a pair in every case, but where that ends so late that the engine has no board
/// of the minutes behind it, 10,080 and more behind the last minute of 32 bits.
///
/// Two arrivals of one call are a period apart or more, and no gap between calls is more than
/// half a period; so the two are of different calls, or the stop has one call alone and its
/// gap is the line's period.
pub fn witness(
    file: &[u8],
    (sheet, stop, gap): (&Sheet, u8, u16),
    window: Window,
    board: &[Arrival],
) -> Result<Option<[Arrival; 2]>, Refusal> {
    let next = i64::from(window.first) + i64::from(window.length);
    let behind = match gap {
        // A pair at one minute stands on one board.
        0 => Vec::new(),
        _ => {
            let (first, length) = board_from(next, gap);
            engine::board(file, sheet, stop.into(), first, length)?
        }
    };
    let behind = behind.into_iter().filter(|arrival| arrival.time >= next);
    Ok(apart(board, &behind.collect::<Vec<_>>(), gap))
}

/// First minute and length of a board that has so many minutes from the next one on, as far
/// as a board can have them. It begins earlier where none can begin so late.
fn board_from(next: i64, count: u16) -> (i32, u32) {
    let first = i32::try_from(next).unwrap_or(i32::MAX);
    let length = next - i64::from(first) + i64::from(count);
    (
        first,
        u32::try_from(length).map_or(LONGEST_BOARD, |length| length.min(LONGEST_BOARD)),
    )
}

/// The first pair that is so far apart, the earlier on the board, the later there or behind it.
fn apart(board: &[Arrival], behind: &[Arrival], gap: u16) -> Option<[Arrival; 2]> {
    let mut later = board.iter().chain(behind).enumerate().peekable();
    for (at, earlier) in board.iter().enumerate() {
        let wanted = earlier.time + i64::from(gap);
        while later
            .next_if(|(place, other)| *place <= at || other.time < wanted)
            .is_some()
        {}
        match later.peek() {
            Some((_, other)) if other.time == wanted => return Some([*earlier, **other]),
            _ => {}
        }
    }
    None
}

#[cfg(test)]
mod tests {
    use super::{witness, Window};
    use engine::{Arrival, Sheet, LONGEST_BOARD};
    use papers::files::{any_start, sheet, valid_file, Dice};
    use std::collections::BTreeSet;

    /// The pair of a stop on the board of a window.
    fn pair(file: &[u8], sheet: &Sheet, (stop, gap): (u8, u16), window: Window) -> Pair {
        let board = engine::board(file, sheet, stop.into(), window.first, window.length);
        let board = board.expect("an accepted file");
        let pair = witness(file, (sheet, stop, gap), window, &board);
        (pair.expect("an accepted file"), board)
    }

    type Pair = (Option<[Arrival; 2]>, Vec<Arrival>);

    /// The stops of a file that are served, with their gaps.
    fn gaps(file: &[u8], sheet: &Sheet) -> Vec<(u8, u16)> {
        let gaps = engine::gaps(file, sheet).expect("an accepted file");
        (0..64)
            .filter_map(|stop| Some((stop, gaps.at(stop)?)))
            .collect()
    }

    /// Whether the engine has a board of all minutes that a pair of this window may have.
    fn is_within(window: Window, gap: u16) -> bool {
        let end = i64::from(window.first) + i64::from(window.length) + i64::from(gap);
        end <= i64::from(i32::MAX) + i64::from(LONGEST_BOARD)
    }

    /// In one common cycle from any minute on there is a pair, which is as far apart as the
    /// gap; the earlier is on the board, and the later on it or on a board of its own.
    #[test]
    fn there_is_a_pair_in_one_cycle() {
        let mut dice = Dice::new(311);
        let (mut behind, mut at_once, mut late) = (0, 0, 0);
        for _ in 0..1_500 {
            let file = valid_file(&mut dice);
            let counts = engine::read(&file).expect("an accepted file");
            let starts = sheet(&mut dice, counts.lines as usize);
            let sheet = Sheet::of_starts(&starts);
            let (first, length) = (any_start(&mut dice), counts.cycle);
            let window = Window { first, length };
            for (stop, gap) in gaps(&file, &sheet) {
                let (pair, board) = pair(&file, &sheet, (stop, gap), window);
                let Some([one, other]) = pair else {
                    assert!(!is_within(window, gap), "{window:?} {gap}");
                    continue;
                };
                assert_eq!(other.time - one.time, i64::from(gap));
                assert!(board.contains(&one));
                assert!(board.contains(&other) || arrives(&file, &sheet, stop, other));
                behind += usize::from(!board.contains(&other));
                at_once += usize::from(gap == 0);
                late += usize::from(other.time > i64::from(i32::MAX));
            }
        }
        let seen = [behind, at_once, late];
        assert!(seen.iter().all(|count| *count > 20), "{seen:?}");
    }

    /// Whether an arrival is on the board of its own minute.
    fn arrives(file: &[u8], sheet: &Sheet, stop: u8, arrival: Arrival) -> bool {
        let first = i32::try_from(arrival.time).unwrap_or(i32::MAX);
        let length = (arrival.time - i64::from(first)) as u32 + 1;
        let board = engine::board(file, sheet, stop.into(), first, length);
        board.expect("an accepted file").contains(&arrival)
    }

    /// No pair of the board is before it, and none stands closer.
    #[test]
    fn it_is_the_first() {
        let mut dice = Dice::new(312);
        for _ in 0..300 {
            let file = valid_file(&mut dice);
            let counts = engine::read(&file).expect("an accepted file");
            let sheet = Sheet::of_starts(&sheet(&mut dice, counts.lines as usize));
            let length = counts.cycle;
            for (stop, gap) in gaps(&file, &sheet) {
                let (pair, board) = pair(&file, &sheet, (stop, gap), Window { first: 0, length });
                let [one, _] = pair.expect("a pair");
                let mut before = board
                    .iter()
                    .take_while(|arrival| **arrival < one)
                    .peekable();
                while let Some(earlier) = before.next() {
                    let next = before.peek().map_or(one.time, |next| next.time);
                    assert!(next - earlier.time > i64::from(gap));
                }
            }
        }
    }

    /// Line 0 every 15 minutes, alone; line 1 every 60 minutes, alone, once in a cycle.
    #[test]
    fn one_call_alone() {
        let file = engine::typed::read(b"4C000F 4C003C 4300000008 4301010000 45");
        let file = file.expect("typed");
        let sheet = Sheet::of_starts(&[0, 59]);
        let all = gaps(file.bytes(), &sheet);
        assert_eq!(all, [(0, 15), (1, 60)]);
        let at = |times: [i64; 2], line| Some(times.map(|time| Arrival { time, line }));
        for (first, expected) in [(0, [8, 23]), (9, [23, 38]), (-7, [-7, 8])] {
            let window = Window { first, length: 60 };
            let (pair, _) = pair(file.bytes(), &sheet, all[0], window);
            assert_eq!(pair, at(expected, 0));
        }
        for (first, expected) in [(0, [59, 119]), (60, [119, 179]), (-60, [-1, 59])] {
            let window = Window { first, length: 60 };
            let (pair, board) = pair(file.bytes(), &sheet, all[1], window);
            assert_eq!((pair, board.len()), (at(expected, 1), 1));
        }
    }

    /// A board can't begin behind the last minute of 32 bits, but it can end there.
    #[test]
    fn behind_the_last_minute() {
        let file = engine::typed::read(b"4C05A0 4C0007 4300000000 4301010000 45");
        let file = file.expect("typed");
        let sheet = Sheet::of_starts(&[i32::MAX, 0]);
        let found =
            |first, length| pair(file.bytes(), &sheet, (0, 1_440), Window { first, length }).0;
        let last = i64::from(i32::MAX);
        let at = |times: [i64; 2]| Some(times.map(|time| Arrival { time, line: 0 }));
        assert_eq!(found(i32::MAX, 1), at([last, last + 1_440]));
        assert_eq!(found(i32::MAX, 10_080), at([last, last + 1_440]));
        let before = i32::MAX - 1_439;
        assert_eq!(found(before, 1_440), at([last, last + 1_440]));
    }

    /// On a board that is shorter than the gap's own place there is no pair.
    #[test]
    fn a_board_without_a_pair() {
        let file = engine::typed::read(b"4C000F 4C0014 4300000008 4301000011 45");
        let file = file.expect("typed");
        let sheet = Sheet::of_starts(&[0, 0]);
        let found = |first, length| pair(file.bytes(), &sheet, (0, 1), Window { first, length }).0;
        let times = |pair: Option<[Arrival; 2]>| pair.map(|pair| pair.map(|arrival| arrival.time));
        assert_eq!(found(0, 37), None);
        assert_eq!(found(38, 59), None);
        assert_eq!(times(found(0, 38)), Some([37, 38]));
        assert_eq!(times(found(37, 1)), Some([37, 38]));
        assert_eq!(found(37, 0), None);
    }

    /// A loop's two calls are those of one line.
    #[test]
    fn a_line_by_itself() {
        let file = engine::typed::read(b"4C000A 4300000003 4300000005 4300010003 430001000D 45");
        let file = file.expect("typed");
        let sheet = Sheet::of_starts(&[0]);
        let lines: BTreeSet<_> = gaps(file.bytes(), &sheet).into_iter().collect();
        assert_eq!(lines, BTreeSet::from([(0, 2), (1, 0)]));
        let window = Window {
            first: 0,
            length: 10,
        };
        for (stop, gap, times) in [(0, 2, [3, 5]), (1, 0, [3, 3])] {
            let (pair, _) = pair(file.bytes(), &sheet, (stop, gap), window);
            assert_eq!(pair, Some(times.map(|time| Arrival { time, line: 0 })));
        }
    }
}
