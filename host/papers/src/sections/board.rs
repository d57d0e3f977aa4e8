//! Document 02, A.7, "A board for one stop"; grounds 22 and 23, and ground 8 of a stop
//! that no network has.
//!
//! The list stands here twice, by two methods that share nothing but the network:
//! minute by minute, and call by call.

use super::network::{Call, Network, Refusal, STOPS};
use super::rating::whole;
use super::sheets::{read_both, read_both_bytes};

/// "22: length above 10,080"
pub const MAX_LENGTH: u32 = 10_080;

/// What is asked for: "a stop, a first minute in 32 signed bits and a length in 32
/// bits".
#[derive(Clone, Copy, Debug, PartialEq, Eq)]
pub struct Window {
    pub stop: u32,
    pub first: i32,
    pub length: u32,
}

/// One entry of the list: "times (64 signed bits) and lines (bytes)".
#[derive(Clone, Copy, Debug, PartialEq, Eq)]
pub struct Arrival {
    pub time: i64,
    pub line: u8,
}

/// The call: "Two lent rows take times [..] and lines [..]; what lies behind the list
/// stays unchanged, and the answer is its count." The file's own grounds come first, then
/// 15 and those of [`fill`].
pub fn board(
    file: &[u8],
    sheet: &[i32],
    window: Window,
    time_row: &mut [i64],
    line_row: &mut [u8],
) -> Result<usize, Refusal> {
    let net = read_both(file, sheet)?;
    fill(&net, sheet, window, time_row, line_row)
}

/// The same, the sheet as bytes.
pub fn board_bytes(
    file: &[u8],
    sheet: &[u8],
    window: Window,
    time_row: &mut [i64],
    line_row: &mut [u8],
) -> Result<usize, Refusal> {
    let starts = read_both_bytes(file, sheet)?;
    board(file, &starts, window, time_row, line_row)
}

/// "Ground 15 precedes ground 8, which here has place 0. (22: length above 10,080, after
/// 8; 23: a row shorter than the list, after 22; both at place 0.)" A refusal leaves both
/// rows as they were.
fn fill(
    net: &Network,
    sheet: &[i32],
    window: Window,
    time_row: &mut [i64],
    line_row: &mut [u8],
) -> Result<usize, Refusal> {
    check(window.stop < STOPS as u32, 8)?;
    check(window.length <= MAX_LENGTH, 22)?;
    let list = by_minutes(net, &whole(sheet), window);
    check(time_row.len() >= list.len(), 23)?;
    check(line_row.len() >= list.len(), 23)?;
    for (at, arrival) in list.iter().enumerate() {
        time_row[at] = arrival.time;
        line_row[at] = arrival.line;
    }
    Ok(list.len())
}

/// The ground applies at place 0 unless the condition holds.
fn check(holds: bool, number: u8) -> Result<(), Refusal> {
    match holds {
        true => Ok(()),
        false => Err(Refusal { number, place: 0 }),
    }
}

/// "every arrival from that minute until before minute plus length, by time, then line,
/// then offset. Each arrival stands there as often as calls produce it": minute by
/// minute, and in each the calls at the stop, which stand by line and then offset. "An
/// unserved stop gives an empty list."
pub fn by_minutes(net: &Network, starts: &[i64], window: Window) -> Vec<Arrival> {
    let calls = net.calls_at(window.stop as usize);
    let mut list = Vec::new();
    for time in minutes(window) {
        for &call in &calls {
            if arrives(net, starts, call, time) {
                let line = call.line as u8;
                list.push(Arrival { time, line });
            }
        }
    }
    list
}

/// The minutes of a window, none of them beyond 64 bits.
fn minutes(window: Window) -> std::ops::Range<i64> {
    let first = i64::from(window.first);
    first..first + i64::from(window.length)
}

/// Whether a line reaches the stop at this minute by a call: "its start plus its offset
/// there, plus every whole multiple of its period, negative ones included".
fn arrives(net: &Network, starts: &[i64], call: Call, time: i64) -> bool {
    let reached = starts[call.line] + i64::from(call.offset);
    (time - reached).rem_euclid(i64::from(net.period(call))) == 0
}

/// The list by another way, to be compared with [`by_minutes`]: of each call the trips
/// within the window, by their numbers, then all of them brought into order.
pub fn by_trips(net: &Network, starts: &[i64], window: Window) -> Vec<Arrival> {
    let mut trips: Vec<(i64, usize, u32)> = Vec::new();
    for call in net.calls_at(window.stop as usize) {
        let period = i64::from(net.period(call));
        let reached = starts[call.line] + i64::from(call.offset);
        let before = |minute: i64| (minute - reached - 1).div_euclid(period) + 1;
        let numbers = before(minutes(window).start)..before(minutes(window).end);
        let times = numbers.map(|number| reached + number * period);
        trips.extend(times.map(|time| (time, call.line, call.offset)));
    }
    trips.sort();
    let arrival = |(time, line, _)| Arrival {
        time,
        line: line as u8,
    };
    trips.into_iter().map(arrival).collect()
}
