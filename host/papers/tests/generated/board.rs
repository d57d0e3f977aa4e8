//! Boards: what document 02, A.7, says of every one of them.

use crate::ratings::lines_for_sheet;
use papers::files::{
    any_file, any_sheet, any_window, bytes_of, retyped, sheet, sheet_bytes, valid_commands,
    valid_file, window, Dice, Stated, OUTCOMES,
};
use papers::sections::archive::archive_form;
use papers::sections::board::{
    board, board_bytes, by_minutes, by_trips, Arrival, Window, MAX_LENGTH,
};
use papers::sections::network::{read, Network, Refusal};
use papers::sections::rating::whole;

/// A network with a sheet that fits it and a window.
struct Asked {
    net: Network,
    sheet: Vec<i32>,
    window: Window,
}

fn asked(dice: &mut Dice) -> Asked {
    let file = valid_file(dice);
    let net = read(&file).expect("a valid file");
    let (sheet, window) = (sheet(dice, net.lines()), window(dice, &file));
    Asked { net, sheet, window }
}

/// The list by both methods.
fn list(net: &Network, sheet: &[i32], window: Window) -> Vec<Arrival> {
    let list = by_minutes(net, &whole(sheet), window);
    assert_eq!(list, by_trips(net, &whole(sheet), window));
    list
}

/// How many arrivals a line of this period has in the window, the first of them so many
/// minutes behind its beginning.
fn times_within(window: Window, away: i64, period: i64) -> usize {
    let left = (i64::from(window.length) - away).max(0);
    ((left + period - 1) / period) as usize
}

/// Both methods agree; arrivals lie within the window in their order, and as many of them
/// as the calls have one by one.
#[test]
fn boards_by_both_methods() {
    let mut dice = Dice::new(31);
    let (mut empty, mut several, mut at_once) = (0, 0, 0);
    for _ in 0..4_000 {
        let Asked { net, sheet, window } = asked(&mut dice);
        let list = list(&net, &sheet, window);
        let place = |arrival: &Arrival| (arrival.time, arrival.line);
        assert!(list.windows(2).all(|two| place(&two[0]) <= place(&two[1])));
        let first = i64::from(window.first);
        let within = first..first + i64::from(window.length);
        assert!(list.iter().all(|arrival| within.contains(&arrival.time)));
        assert!(list.len() <= 32 * window.length as usize);
        let calls = net.calls_at(window.stop as usize);
        let counts = calls.iter().map(|&call| {
            let period = i64::from(net.period(call));
            let reached = i64::from(sheet[call.line]) + i64::from(call.offset);
            times_within(window, (reached - first).rem_euclid(period), period)
        });
        assert_eq!(list.len(), counts.sum::<usize>());
        empty += usize::from(list.is_empty());
        several += usize::from(list.len() > 10);
        at_once += usize::from(list.windows(2).any(|two| place(&two[0]) == place(&two[1])));
    }
    println!("{empty} empty, {several} with more than ten, {at_once} with one line twice at once");
    assert!(empty > 200 && several > 500 && at_once > 20);
}

/// Starts and the first minute moved by the same minutes move every time by them, and a
/// start moved by whole periods moves nothing.
#[test]
fn boards_that_are_moved() {
    let mut dice = Dice::new(32);
    let mut moved = [0; 2];
    for _ in 0..4_000 {
        let Asked { net, sheet, window } = asked(&mut dice);
        let before = list(&net, &sheet, window);
        let minutes = dice.below(20_000) as i32 - 10_000;
        let later = sheet.iter().map(|start| start.checked_add(minutes));
        let first = window.first.checked_add(minutes);
        if let (Some(later), Some(first)) = (later.collect::<Option<Vec<i32>>>(), first) {
            let time = |arrival: &Arrival| arrival.time + i64::from(minutes);
            let expected = before.iter().map(|arrival| Arrival {
                time: time(arrival),
                ..*arrival
            });
            let found = list(&net, &later, Window { first, ..window });
            assert_eq!(found, expected.collect::<Vec<Arrival>>());
            moved[0] += usize::from(!before.is_empty());
        }
        let line = dice.below(net.lines());
        let periods = (dice.below(20) as i32 - 10) * net.periods[line] as i32;
        if let Some(start) = sheet[line].checked_add(periods) {
            let mut other = sheet.clone();
            other[line] = start;
            assert_eq!(list(&net, &other, window), before);
            moved[1] += usize::from(!before.is_empty());
        }
    }
    assert!(moved.iter().all(|&count| count > 1_500), "{moved:?}");
}

/// Two windows side by side have the arrivals of the one that they make up.
#[test]
fn windows_side_by_side() {
    let mut dice = Dice::new(33);
    let mut joined = 0;
    for _ in 0..4_000 {
        let Asked { net, sheet, window } = asked(&mut dice);
        let length = dice.within(0, window.length as usize) as u32;
        let Some(first) = window.first.checked_add(length as i32) else {
            continue;
        };
        let one = list(&net, &sheet, Window { length, ..window });
        let rest = Window {
            first,
            length: window.length - length,
            ..window
        };
        let other = list(&net, &sheet, rest);
        joined += usize::from(!one.is_empty() && !other.is_empty());
        assert_eq!([one, other].concat(), list(&net, &sheet, window));
    }
    assert!(joined > 1_000, "{joined}");
}

/// A network has one board, in whatever way it is typed: that of its archive form, and in
/// the other edition the same.
#[test]
fn boards_of_one_network() {
    let mut dice = Dice::new(34);
    let mut untidy = 0;
    for _ in 0..3_000 {
        let stated = Stated::by(&valid_commands(&mut dice));
        let files = [1, 2].map(|edition| {
            let stated = Stated {
                edition,
                ..stated.clone()
            };
            bytes_of(&retyped(&mut dice, &stated))
        });
        let sheet = sheet(&mut dice, stated.periods.len());
        let window = window(&mut dice, &files[0]);
        let nets = files.each_ref().map(|file| read(file).expect("a file"));
        let expected = list(&nets[0], &sheet, window);
        assert_eq!(list(&nets[1], &sheet, window), expected);
        for (file, net) in files.iter().zip(&nets) {
            let form = archive_form(net);
            let of_form = read(&form).expect("an archive form");
            assert_eq!(list(&of_form, &sheet, window), expected);
            untidy += usize::from(*file != form && !expected.is_empty());
        }
    }
    assert!(untidy > 2_000, "{untidy}");
}

/// The number of the ground, 0 if there is none, by the words of the request.
fn ground(net: &Network, sheet: &[i32], window: Window, rows: [usize; 2]) -> u8 {
    if sheet.len() != net.lines() {
        15
    } else if window.stop > 63 {
        8
    } else if window.length > MAX_LENGTH {
        22
    } else {
        let length = by_trips(net, &whole(sheet), window).len();
        23 * u8::from(rows.iter().any(|&row| row < length))
    }
}

/// A row's length for a list of so many: mostly enough.
fn row_length(dice: &mut Dice, list: usize) -> usize {
    match dice.below(8) {
        0 => 0,
        1 => list.saturating_sub(1),
        2 => list + 1,
        3 => dice.below(400),
        _ => list,
    }
}

/// The call over any file, sheet, window and rows, the sheet as starts and as bytes.
#[test]
fn rows_of_any_length() {
    let mut dice = Dice::new(35);
    let mut met = [0; OUTCOMES];
    for _ in 0..6_000 {
        let file = any_file(&mut dice);
        let lines = lines_for_sheet(&mut dice, &file);
        let (sheet, window) = (any_sheet(&mut dice, lines), any_window(&mut dice, &file));
        let length = match read(&file) {
            Ok(net) if ground(&net, &sheet, window, [usize::MAX; 2]) == 0 => {
                by_trips(&net, &whole(&sheet), window).len()
            }
            _ => dice.below(40),
        };
        let rows = [0, 1].map(|_| row_length(&mut dice, length));
        let (mut times, mut lines) = (vec![-1; rows[0]], vec![99; rows[1]]);
        let answer = board(&file, &sheet, window, &mut times, &mut lines);
        let bytes = sheet_bytes(&sheet);
        let (mut again, mut beside) = (vec![-1; rows[0]], vec![99; rows[1]]);
        let of_bytes = board_bytes(&file, &bytes, window, &mut again, &mut beside);
        assert_eq!((answer, &times, &lines), (of_bytes, &again, &beside));
        let expected = match read(&file) {
            Err(why) => Err(why),
            Ok(net) => match ground(&net, &sheet, window, rows) {
                0 => Ok(length),
                number => Err(Refusal { number, place: 0 }),
            },
        };
        assert_eq!(answer, expected);
        met[answer.map_or_else(|why| usize::from(why.number), |_| 0)] += 1;
        let behind = answer.unwrap_or(0);
        assert!(times[behind..].iter().all(|&time| time == -1));
        assert!(lines[behind..].iter().all(|&line| line == 99));
    }
    println!("listed, then refusals 1 to 23: {met:?}");
    assert!([0, 8, 15, 22, 23].iter().all(|&number| met[number] > 100));
}
