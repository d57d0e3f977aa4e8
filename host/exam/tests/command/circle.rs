//! `exam draw --circle`.

use crate::common::xml::{checked, Element};
use crate::common::{exam, exam_with, Folder, Ran, HEX};
use engine::{Arrival, Sheet};
use papers::files::{bytes_of, sheet, sheet_bytes, valid_commands, Dice, Stated};
use std::f64::consts::TAU;

/// The middle of the circle: that of the only circle that is drawn around all.
fn middle(picture: &Element) -> (f64, f64, f64) {
    let circles = picture.named("circle");
    let largest = circles.iter().filter(|circle| circle.get("cx").is_some());
    let largest = largest.max_by_key(|circle| circle.number::<f64>("r") as u32);
    let largest = largest.expect("a circle");
    let [x, y, r] = ["cx", "cy", "r"].map(|name| largest.number::<f64>(name));
    (x, y, r)
}

/// The minute of a cycle at which a place stands, and how far from the middle.
fn minute_at(picture: &Element, (x, y): (f64, f64), cycle: u32) -> (f64, f64) {
    let (middle_x, middle_y, _) = middle(picture);
    let (right, up) = (x - middle_x, middle_y - y);
    let turn = right.atan2(up).rem_euclid(TAU) / TAU;
    (turn * f64::from(cycle), right.hypot(up))
}

/// Whether two minutes of a cycle are the same but for rounded places.
fn is_near(one: f64, other: f64, cycle: u32) -> bool {
    let cycle = f64::from(cycle);
    let apart = (one - other).rem_euclid(cycle);
    apart.min(cycle - apart) < cycle / 20_000.0
}

/// The places of a path's corners.
fn corners(path: &Element) -> Vec<(f64, f64)> {
    let path = path.get("d").expect("a path").trim_end_matches('Z');
    let corners = path.trim_start_matches('M').split('L');
    let place = |corner: &str| {
        let (x, y) = corner.split_once(' ').expect("a place");
        (x.parse().expect("a place"), y.parse().expect("a place"))
    };
    corners.map(place).collect()
}

/// Demands that the marks are the board's arrivals, each at its minute, on the circle or
/// towards its middle behind others of that minute.
fn marks_are(picture: &Element, board: &[Arrival], cycle: u32) {
    let mut arrivals = Vec::new();
    let (_, _, radius) = middle(picture);
    let mut on_circle = 0;
    for call in picture.of_class("call") {
        for mark in call.of_class("a") {
            let (time, line) = (mark.number::<i64>("data-time"), call.number("data-line"));
            let place = (mark.number("x"), mark.number("y"));
            let (minute, away) = minute_at(picture, place, cycle);
            assert!(
                is_near(minute, time as f64, cycle),
                "{minute} and not {time}"
            );
            assert!((20.0..radius + 0.1).contains(&away));
            on_circle += usize::from(away > radius - 0.1);
            arrivals.push(Arrival { time, line });
        }
    }
    arrivals.sort();
    assert_eq!(arrivals, board);
    let mut times: Vec<i64> = board.iter().map(|arrival| arrival.time).collect();
    times.dedup();
    assert_eq!(
        (on_circle, picture.of_class("a").len()),
        (times.len(), board.len())
    );
}

/// Demands a polygon for each call, regular, with a corner for each of its arrivals.
fn polygons_are(picture: &Element, calls: &[engine::Call], periods: &[u16], cycle: u32) {
    let polygons = picture.of_class("polygon");
    let lines: Vec<u8> = polygons.iter().map(|one| one.number("data-line")).collect();
    assert_eq!(
        lines,
        calls.iter().map(|call| call.line).collect::<Vec<u8>>()
    );
    for (polygon, line) in polygons.iter().zip(lines) {
        let period = u32::from(periods[usize::from(line)]);
        let path = polygon.named("path")[0];
        let mut places = corners(path);
        if cycle == period {
            // One corner is a line from the middle.
            let (x, y, _) = middle(picture);
            assert_eq!(places.remove(0), (x, y));
        }
        assert_eq!(places.len() as u32, cycle / period);
        let minutes = places
            .into_iter()
            .map(|place| minute_at(picture, place, cycle).0);
        let minutes: Vec<f64> = minutes.collect();
        for two in minutes.windows(2) {
            assert!(is_near(two[1], two[0] + f64::from(period), cycle));
        }
        // Each corner has a mark of the line.
        let calls = picture.of_class("call").into_iter();
        let of_line = calls.filter(|call| call.number::<u8>("data-line") == line);
        let marks: Vec<&Element> = of_line.flat_map(|call| call.of_class("a")).collect();
        let times: Vec<f64> = marks.iter().map(|mark| mark.number("data-time")).collect();
        let has_mark = |minute: &f64| times.iter().any(|time| is_near(*minute, *time, cycle));
        assert!(minutes.iter().all(has_mark));
    }
}

/// Demands that an arc of the gap's length joins two arrivals.
fn gap_is(picture: &Element, gap: u16, board: &[Arrival], cycle: u32) {
    let [join] = picture.of_class("gap")[..] else {
        panic!("there isn't one gap");
    };
    assert_eq!(join.number::<u16>("data-gap"), gap);
    let [from, to] = ["data-from", "data-to"].map(|name| join.number::<i64>(name));
    assert_eq!(to - from, i64::from(gap));
    for time in [from, to] {
        let within = time.rem_euclid(i64::from(cycle));
        assert!(board.iter().any(|arrival| arrival.time == within));
    }
    assert_eq!(join.named("text")[0].text(), format!("{gap} min"));
    if gap == 0 {
        return assert_eq!(join.named("circle").len(), 1);
    }
    // From the one place by two parts of the circle to the other.
    let path = join.named("path")[0].get("d").expect("a path");
    let places: Vec<&str> = path.trim_start_matches('M').split('A').collect();
    let place = |part: &str| {
        let words: Vec<f64> = part
            .split(' ')
            .map(|word| word.parse().expect("a number"))
            .collect();
        let [.., x, y] = words[..] else {
            panic!("{part} has no place");
        };
        minute_at(picture, (x, y), cycle).0
    };
    let [begin, middle, end] = places[..] else {
        panic!("{path} has other parts");
    };
    let [from, to] = [from as f64, to as f64];
    for (part, minute) in [(begin, from), (middle, (from + to) / 2.0), (end, to)] {
        assert!(is_near(place(part), minute, cycle), "{path}");
    }
}

#[test]
fn on_seeded_networks() {
    let mut dice = Dice::new(2_403);
    let folder = Folder::new();
    let (mut loops, mut large, mut together, mut lone) = (0, 0, 0, 0);
    for _ in 0..120 {
        let commands = valid_commands(&mut dice);
        let stated = Stated::by(&commands);
        let starts = sheet(&mut dice, stated.periods.len());
        let file = bytes_of(&commands);
        let network = folder.file("one.net", &file);
        let bytes = folder.file("one.bin", sheet_bytes(&starts));
        let stop = dice.pick(&stated.calls).1;
        let words = ["draw", &network, &bytes, "-", "--circle", &stop.to_string()];
        let ran = exam(&words);
        assert_eq!((ran.status, ran.err.as_str()), (0, ""));
        let picture = checked(&ran.out);
        let cycle = engine::read(&file).expect("a network").cycle;
        let handed = Sheet::of_starts(&starts);
        let board = engine::board(&file, &handed, stop.into(), 0, cycle).expect("a board");
        let gap = engine::gaps(&file, &handed)
            .expect("gaps")
            .at(stop)
            .expect("a gap");
        let contents = engine::contents(&file).expect("a network");
        let calls = contents.at_stop(stop);
        marks_are(&picture, &board, cycle);
        polygons_are(&picture, &calls, &contents.periods, cycle);
        gap_is(&picture, gap, &board, cycle);
        let title = picture.named("title")[0].text();
        assert_eq!(title, format!("stop {stop} gap {gap}"));
        loops += usize::from(calls.windows(2).any(|two| two[0].line == two[1].line));
        large += usize::from(board.len() > 100);
        together += usize::from(gap == 0);
        lone += usize::from(calls.len() == 1);
    }
    let counts = [loops, large, together, lone];
    assert!(counts.iter().all(|count| *count > 8), "{counts:?}");
}

/// A circle of the ring bus's village.
fn ring(more: &[&str]) -> Ran {
    let words = [
        "draw",
        "samples/loop.plan",
        "samples/loop/perfect.sheet",
        "-",
    ];
    exam(&[&words[..], more].concat())
}

/// A line that passes the stop twice has two polygons; here each is a line through the
/// middle.
#[test]
fn a_loop_has_two_polygons() {
    for stop in ["Market", "0"] {
        let picture = checked(&ring(&["--circle", stop]).out);
        let lines: Vec<u8> = picture
            .of_class("polygon")
            .iter()
            .map(|one| one.number("data-line"))
            .collect();
        assert_eq!(lines, [0, 0, 1]);
        let corners: Vec<usize> = picture
            .of_class("polygon")
            .iter()
            .map(|polygon| corners(polygon.named("path")[0]).len())
            .collect();
        assert_eq!(corners, [2, 2, 3]);
        assert_eq!(picture.named("title")[0].text(), "stop 0 gap 3 · Market");
    }
}

/// A stop with one call: the gap is the period, and that is said.
#[test]
fn one_call_alone() {
    let picture = checked(&ring(&["--circle=Mill"]).out);
    let words = "the period of line 0 'Ring bus', the only call here";
    assert!(picture
        .named("text")
        .iter()
        .any(|text| text.text() == words));
    assert!(picture.named("desc")[0].text().contains(words));
    // Once around where the line comes once in a cycle.
    let sheet = "samples/one_line/perfect.sheet";
    let one = exam(&["draw", "samples/one_line.hex", sheet, "-", "--circle=0"]);
    let picture = checked(&one.out);
    let [join] = picture.of_class("gap")[..] else {
        panic!("there isn't one gap");
    };
    let numbers = ["data-from", "data-to", "data-gap"];
    let [from, to, gap] = numbers.map(|name| join.number::<i64>(name));
    assert_eq!((to - from, picture.of_class("a").len()), (gap, 1));
    let read = exam(&["read", "samples/one_line.hex"]).out;
    assert!(read.ends_with(&format!(" cycle {gap}\n")), "{read}");
}

/// Nothing arrives: the circle alone, and words on it and on standard error.
#[test]
fn a_stop_without_calls() {
    let folder = Folder::new();
    let target = format!("{}/a.svg", folder.name());
    let sheet = folder.file("a.sheet", "0");
    let plan = "stop 3 Old Depot\nstop 0 Market\nline Red every 15\n  Market at 8\n";
    for stop in ["3", "Old Depot"] {
        let words = ["draw", "-", &sheet, &target, "--plan", "--circle", stop];
        exam_with(&words, plan.as_bytes()).said(
            &format!("{target}: stop 3 arrivals 0\n"),
            0,
            "exam: no line calls at stop 3 'Old Depot'\n",
        );
        let picture = checked(&std::fs::read_to_string(&target).expect("a picture"));
        assert!(picture.of_class("a").is_empty() && picture.of_class("gap").is_empty());
        assert_eq!(picture.named("title")[0].text(), "stop 3 · Old Depot");
        let texts = picture.named("text");
        assert!(texts.iter().any(|text| text.text() == "no line calls here"));
        let words = "No line calls at stop 3 'Old Depot'.";
        assert!(picture.named("desc")[0].text().ends_with(words));
    }
}

/// A stop is named as with `exam board`, and a circle has no other minutes than its cycle's.
#[test]
fn stops_and_minutes_that_cannot_be() {
    ring(&["--circle", "market"]).said(
        "",
        2,
        "exam: samples/loop.plan has no stop 'market'; did you mean 'Market'?\n",
    );
    let sheet = "samples/two_lines/perfect.sheet";
    let words = "has no names, and the stop 'Market' isn't a number\n";
    exam(&["draw", HEX, sheet, "-", "--circle", "Market"]).told("", 2, &[words]);
    ring(&["--circle", "200"]).told("refused 8 at 0\n", 1, &["asked for: stop 200\n"]);
    for stop in ["-1", "+5", "", "3.5", "4294967296", "'"] {
        let words = format!("the stop '{stop}' is neither a number of 0 to 63 nor a name\n");
        ring(&["--circle", stop]).told("", 2, &[&words, "try: exam draw --help"]);
    }
    ring(&["--circle"]).told("", 2, &["--circle wants a stop\n"]);
    for (one, other) in [
        ("--from", "--circle"),
        ("--length", "--circle"),
        ("--circle", "--from"),
    ] {
        let words = format!("{one} and {other} contradict each other\n");
        ring(&[one, "3", other, "3"]).told("", 2, &[&words]);
    }
    exam(&["board", HEX, sheet, "0", "--circle=0"]).told("", 2, &["no option '--circle'\n"]);
}
