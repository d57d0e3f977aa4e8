//! Document 02, A.7, "A board for one stop". Papers and engine are both asked, and the
//! papers by both of their methods.

use crate::given::{file, hex, net, p1, p7, refusal};
use engine::Sheet;
use papers::answers;
use papers::files::fullest_file;
use papers::sections::board::{board, by_trips, Arrival, Window};
use papers::sections::network::Refusal;
use papers::sections::rating::whole;

/// What each place of the rows holds before a call.
const TIME: i64 = i64::MIN;
const LINE: u8 = 0xEE;

/// The answer, and both rows behind it.
type Boarded = (Result<usize, Refusal>, Vec<i64>, Vec<u8>);

/// The call of papers and engine with rows of these lengths.
fn boarded(
    file: &[u8],
    sheet: &[i32],
    window: Window,
    (time_len, line_len): (usize, usize),
) -> Boarded {
    let (mut times, mut lines) = (vec![TIME; time_len], vec![LINE; line_len]);
    let (mut found_times, mut found_lines) = (times.clone(), lines.clone());
    let answer = board(file, sheet, window, &mut times, &mut lines);
    let found = engine::board_into(
        file,
        &Sheet::of_starts(sheet),
        window.stop,
        window.first,
        window.length,
        &mut found_times,
        &mut found_lines,
    );
    let expected = answer.map(|count| count as u32).map_err(answers::refusal);
    assert_eq!(found, expected, "{window:?}");
    assert!(
        found_times == times && found_lines == lines,
        "other rows, {window:?}"
    );
    (answer, times, lines)
}

/// The rows of these lengths with the list at their beginning.
fn rows_with(list: &[(i64, u8)], (time_len, line_len): (usize, usize)) -> Boarded {
    let (mut times, mut lines): (Vec<i64>, Vec<u8>) = list.iter().copied().unzip();
    times.resize(time_len, TIME);
    lines.resize(line_len, LINE);
    (Ok(list.len()), times, lines)
}

fn at(stop: u32, first: i32, length: u32) -> Window {
    Window {
        stop,
        first,
        length,
    }
}

/// The list, time and line of each arrival, by every method and call: in rows that are
/// as long as the list, in longer ones, and in those of the wrapper.
fn listed(file: &[u8], sheet: &[i32], window: Window) -> Vec<(i64, u8)> {
    let list = by_trips(&net(file), &whole(sheet), window);
    let handed = Sheet::of_starts(sheet);
    let found = engine::board(file, &handed, window.stop, window.first, window.length);
    assert_eq!(found, Ok(answers::arrivals(&list)));
    let pair = |arrival: &Arrival| (arrival.time, arrival.line);
    let list: Vec<(i64, u8)> = list.iter().map(pair).collect();
    for (more_times, more_lines) in [(0, 0), (3, 3), (0, 5), (2, 0)] {
        let rows = (list.len() + more_times, list.len() + more_lines);
        let found = boarded(file, sheet, window, rows);
        assert!(found == rows_with(&list, rows), "{window:?}, {rows:?}");
    }
    list
}

/// The refusal has this number and place, and no row is touched.
fn refused(
    (file, sheet, window): (&[u8], &[i32], Window),
    (time_len, line_len): (usize, usize),
    (number, place): (u8, usize),
) {
    let (answer, times, lines) = boarded(file, sheet, window, (time_len, line_len));
    let said = format!("{sheet:?}, {window:?}, rows of {time_len} and {line_len}");
    assert_eq!(answer, refusal(number, place), "{said}");
    assert_eq!(times, vec![TIME; time_len], "{said}");
    assert_eq!(lines, vec![LINE; line_len], "{said}");
}

/// The request's own case, and one before minute 0.
#[test]
fn boards_of_p1() {
    let hour = [(8, 0), (17, 1), (23, 0), (37, 1), (38, 0), (53, 0), (57, 1)];
    assert_eq!(listed(&p1(), &[0, 0], at(0, 0, 60)), hour);
    let before = [(-7, 0), (-3, 1)];
    assert_eq!(listed(&p1(), &[0, 0], at(0, -20, 20)), before);
    // A start moves its own line alone.
    let later = [(9, 0), (17, 1), (24, 0)];
    assert_eq!(listed(&p1(), &[1, 0], at(0, 0, 25)), later);
    assert_eq!(listed(&p1(), &[-299, 20_000], at(0, 0, 25)), later);
}

/// The first minute is within, and minute plus length isn't.
#[test]
fn both_ends_of_a_window() {
    let of_p1 = |first, length| listed(&p1(), &[0, 0], at(0, first, length));
    assert_eq!(of_p1(8, 0), []);
    assert_eq!(of_p1(8, 1), [(8, 0)]);
    assert_eq!(of_p1(7, 1), []);
    assert_eq!(of_p1(9, 8), []);
    assert_eq!(of_p1(9, 9), [(17, 1)]);
    assert_eq!(of_p1(8, 15), [(8, 0), (17, 1)]);
    assert_eq!(of_p1(8, 16), [(8, 0), (17, 1), (23, 0)]);
    assert_eq!(of_p1(-7, 4), [(-7, 0)]);
    assert_eq!(of_p1(-7, 5), [(-7, 0), (-3, 1)]);
    assert_eq!(of_p1(-6, 3), []);
}

/// By line, whichever has the larger offset, and in whatever order the calls are typed.
#[test]
fn lines_at_one_minute() {
    let met = [(8, 0), (8, 1), (23, 0), (28, 1), (38, 0), (48, 1), (53, 0)];
    assert_eq!(listed(&p1(), &[0, -9], at(0, 0, 60)), met);
    let turned = file(&[15, 20], &[(1, 0, 17), (0, 0, 8)]);
    assert_eq!(listed(&turned, &[0, -9], at(0, 0, 60)), met);
    let late = file(&[10, 10], &[(1, 0, 0), (0, 0, 70)]);
    let both = [(0, 0), (0, 1), (10, 0), (10, 1)];
    assert_eq!(listed(&late, &[0, 0], at(0, 0, 20)), both);
    let three = [(-10, 0), (-10, 1), (-10, 2), (0, 0), (0, 1), (0, 2)];
    assert_eq!(listed(&p7(), &[0, -30, 50], at(0, -10, 11)), three);
}

/// "Each arrival stands there as often as calls produce it": a line that calls twice.
#[test]
fn loops() {
    let twice = [(8, 0), (8, 0), (23, 0), (23, 0)];
    let equal = file(&[15], &[(0, 0, 8), (0, 0, 8)]);
    assert_eq!(listed(&equal, &[0], at(0, 0, 30)), twice);
    // A period apart, the later one typed first.
    let apart = file(&[15], &[(0, 0, 23), (0, 0, 8)]);
    assert_eq!(listed(&apart, &[0], at(0, 0, 30)), twice);
    // The larger offset comes first in a window.
    let turned = file(&[15], &[(0, 0, 8), (0, 0, 20)]);
    let times = [(5, 0), (8, 0), (20, 0), (23, 0)];
    assert_eq!(listed(&turned, &[0], at(0, 0, 30)), times);
    // Beside another line: one of its minutes between, and one at once.
    let calls = [(1, 0, 8), (0, 0, 8), (1, 0, 20), (0, 0, 38)];
    let beside = file(&[15, 15], &calls);
    let times = [(5, 1), (8, 0), (8, 0), (8, 1), (20, 1)];
    assert_eq!(listed(&beside, &[0, 0], at(0, 0, 23)), times);
    // Only the calls at the stop count.
    let elsewhere = file(&[15], &[(0, 0, 8), (0, 1, 9), (0, 63, 10)]);
    assert_eq!(listed(&elsewhere, &[0], at(1, 0, 30)), [(9, 0), (24, 0)]);
    assert_eq!(listed(&elsewhere, &[0], at(63, 0, 30)), [(10, 0), (25, 0)]);
}

/// Starts and first minutes at both ends of 32 bits, and times beyond them.
#[test]
fn both_ends_of_32_bits() {
    let seven = file(&[7], &[(0, 0, 65_535)]);
    let from = |start, first, length| listed(&seven, &[start], at(0, first, length));
    assert_eq!(from(i32::MAX, i32::MIN, 4), []);
    assert_eq!(from(i32::MAX, i32::MIN, 5), [(-2_147_483_644, 0)]);
    assert_eq!(from(i32::MIN, i32::MAX, 5), []);
    assert_eq!(from(i32::MIN, i32::MAX, 6), [(2_147_483_652, 0)]);
    let day = file(&[1_440], &[(0, 5, 0)]);
    let ends = [(-2_147_483_648, 0), (-2_147_482_208, 0)];
    assert_eq!(listed(&day, &[i32::MIN], at(5, i32::MIN, 1_441)), ends);
    let ends = [(2_147_483_647, 0), (2_147_485_087, 0)];
    assert_eq!(listed(&day, &[i32::MAX], at(5, i32::MAX, 1_441)), ends);
    let minutes = file(&[1], &[(0, 0, 65_535)]);
    let beyond = listed(&minutes, &[i32::MAX], at(0, i32::MAX, 10_080));
    assert_eq!((beyond.len(), beyond[10_079]), (10_080, (2_147_493_726, 0)));
}

/// "An unserved stop gives an empty list", and so does a length of 0: rows of no places
/// are enough.
#[test]
fn empty_boards() {
    for stop in [1, 2, 62, 63] {
        for (first, length) in [(0, 60), (i32::MIN, 10_080), (i32::MAX, 10_080), (8, 1)] {
            assert_eq!(listed(&p1(), &[0, 0], at(stop, first, length)), []);
        }
    }
    for first in [8, 0, i32::MIN, i32::MAX] {
        assert_eq!(listed(&p1(), &[0, 0], at(0, first, 0)), []);
    }
}

/// A stop has 32 bits, and each above 63 is ground 8 at place 0.
#[test]
fn stops_that_no_network_has() {
    for stop in [64, 255, 256, 320, 65_536, 1 << 31, u32::MAX] {
        for length in [0, 60, 10_080] {
            let asked = (&p1()[..], &[0, 0][..], at(stop, 0, length));
            refused(asked, (0, 0), (8, 0));
            refused(asked, (20_160, 20_160), (8, 0));
        }
    }
}

/// A length of 10,080 is taken, and none above it, at a stop that is served or not.
#[test]
fn lengths() {
    let minutes = file(&[1], &[(0, 0, 0)]);
    let longest = listed(&minutes, &[3], at(0, -5_040, 10_080));
    let expected: Vec<(i64, u8)> = (-5_040..5_040).map(|time| (time, 0)).collect();
    assert_eq!(longest, expected);
    for length in [10_081, 16_384, 65_536, 1 << 31, u32::MAX] {
        for stop in [0, 1, 63] {
            let asked = (&minutes[..], &[3][..], at(stop, -5_040, length));
            refused(asked, (0, 0), (22, 0));
            refused(asked, (11_000, 11_000), (22, 0));
        }
    }
}

/// Ground 23 asks for as many places as there are arrivals, of either row.
#[test]
fn rows() {
    let (p1, sheet, hour) = (p1(), [0, 0], at(0, 0, 60));
    for short in [
        (6, 7),
        (7, 6),
        (6, 6),
        (0, 0),
        (0, 7),
        (7, 0),
        (100, 6),
        (6, 100),
    ] {
        refused((&p1, &sheet, hour), short, (23, 0));
    }
    let list = listed(&p1, &sheet, hour);
    for enough in [(7, 7), (8, 7), (7, 8), (9, 12), (322_560, 7), (7, 322_560)] {
        let found = boarded(&p1, &sheet, hour, enough);
        assert!(found == rows_with(&list, enough), "{enough:?}");
    }
    // The same of a loop, whose arrivals count twice.
    let equal = file(&[15], &[(0, 0, 8), (0, 0, 8)]);
    refused((&equal, &[0], at(0, 8, 1)), (1, 1), (23, 0));
    refused((&equal, &[0], at(0, 8, 1)), (2, 1), (23, 0));
    assert_eq!(listed(&equal, &[0], at(0, 8, 1)), [(8, 0), (8, 0)]);
}

/// "Ground 15 precedes ground 8 [..] 22 [..] after 8; 23 [..] after 22": each alone, and
/// of every mix of them the first one, the file's before all.
#[test]
fn grounds_in_their_order() {
    let order = [(14, 17), (15, 0), (8, 0), (22, 0), (23, 0)];
    for mix in 1..32 {
        let has = |ground: usize| mix >> ground & 1 == 1;
        let behind = if has(0) { &[0x45][..] } else { &[] };
        let file = [&p1()[..], behind].concat();
        let sheet = if has(1) { &[0, 0, 0][..] } else { &[0, 0] };
        let stop = if has(2) { 64 } else { 0 };
        let length = if has(3) { 10_081 } else { 60 };
        let places = if has(4) { 6 } else { 7 };
        let first = (0..5).find(|&ground| has(ground)).expect("a ground");
        let asked = (&file[..], sheet, at(stop, 0, length));
        refused(asked, (places, places), order[first]);
    }
}

/// Ground 15 behind the file's own, whatever stop and length are asked for.
#[test]
fn sheets_of_a_wrong_length() {
    for sheet in [&[][..], &[0], &[0, 0, 0], &[0; 16], &[0; 1_000]] {
        for stop in [0, 1, 63, 64, u32::MAX] {
            for length in [0, 60, 10_080, u32::MAX] {
                refused((&p1(), sheet, at(stop, 0, length)), (9, 9), (15, 0));
                refused((&[0x45], sheet, at(stop, 0, length)), (9, 9), (13, 0));
            }
        }
    }
}

/// 32 arrivals a minute: line after line, each twice.
#[test]
fn the_fullest_board() {
    let sheet: Vec<i32> = (0..16).map(|line| 1_000 * line - 7).collect();
    let full = listed(&fullest_file(), &sheet, at(63, i32::MAX - 9, 10_080));
    assert_eq!(full.len(), 322_560);
    for (number, &(time, line)) in full.iter().enumerate() {
        let minute = number as i64 / 32 + i64::from(i32::MAX) - 9;
        assert_eq!((time, line), (minute, (number % 32 / 2) as u8));
    }
    let asked = (&fullest_file()[..], &sheet[..], at(63, 0, 10_080));
    refused(asked, (322_559, 322_560), (23, 0));
    refused(asked, (322_560, 322_559), (23, 0));
}

/// However it is typed, with rides or without, in either edition, a network has one
/// board.
#[test]
fn one_board_of_a_network() {
    let typed = "4C000F 4C0014 4300000008 4300050009 4301000011 45";
    let rides = "4C000F 4300050009 4C0014 4301070001 4601000010 4300000008 45";
    let openings = [("", typed), ("5601", rides), ("5602", typed)];
    for (opening, typed) in openings {
        let file = hex(&format!("{opening}{typed}"));
        let hour = [(8, 0), (17, 1), (23, 0), (37, 1), (38, 0), (53, 0), (57, 1)];
        assert_eq!(listed(&file, &[0, 0], at(0, 0, 60)), hour, "{opening}");
        assert_eq!(listed(&file, &[0, 0], at(5, 0, 24)), [(9, 0)], "{opening}");
    }
}
