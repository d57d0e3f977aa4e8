//! `exam draw`: the strips, the file that is written and what is refused.

use crate::common::xml::{checked, Element};
use crate::common::{exam, exam_with, Folder, Ran, HEX, NET};
use engine::{Arrival, Sheet};
use papers::files::{
    any_start, bytes_of, dense_file, fullest_file, sheet, sheet_bytes, valid_commands, Dice, Stated,
};
use std::collections::BTreeSet;

/// A network and a sheet, as the engine takes them and as files.
struct Paper {
    file: Vec<u8>,
    sheet: Sheet,
    words: [String; 2],
}

impl Paper {
    fn of(folder: &Folder, file: Vec<u8>, starts: &[i32]) -> Paper {
        let words = [
            folder.file("one.net", &file),
            folder.file("one.bin", sheet_bytes(starts)),
        ];
        let sheet = Sheet::of_starts(starts);
        Paper { file, sheet, words }
    }

    /// One of the samples.
    fn sample(network: &str, sheet: &str) -> Paper {
        let words = [network, sheet].map(|name| format!("samples/{name}"));
        let typed = exam(&["archive", &words[0]]).out;
        let typed = engine::typed::read(typed.as_bytes()).expect("an archive form");
        let starts = std::fs::read_to_string(format!("{}/{}", crate::common::ROOT, words[1]));
        let starts = starts.expect("a sheet");
        let numbers = starts.lines().filter_map(|line| line.split('#').next());
        let numbers = numbers.flat_map(str::split_whitespace);
        let starts: Vec<i32> = numbers.map(|word| word.parse().expect("a start")).collect();
        Paper {
            file: typed.bytes().to_vec(),
            sheet: Sheet::of_starts(&starts),
            words,
        }
    }

    /// The picture, which goes to standard output and is all that does.
    fn picture(&self, more: &[&str]) -> Element {
        let [network, sheet] = self.words.each_ref().map(String::as_str);
        let ran = exam(&[&["draw", network, sheet, "-"], more].concat());
        assert_eq!(ran.status, 0, "{ran:?}");
        checked(&ran.out)
    }

    fn board(&self, stop: u8, first: i32, length: u32) -> Vec<Arrival> {
        engine::board(&self.file, &self.sheet, stop.into(), first, length).expect("a board")
    }

    fn cycle(&self) -> u32 {
        engine::read(&self.file).expect("a network").cycle
    }

    /// Demands a strip for each served stop, those of a class beside each other, with the
    /// board's arrivals and the engine's gap.
    fn is_drawn(&self, picture: &Element, first: i32, length: u32) {
        let gaps = engine::gaps(&self.file, &self.sheet).expect("a sheet that fits");
        let strips = picture.of_class("strip");
        let stops: Vec<u8> = strips
            .iter()
            .map(|strip| strip.number("data-stop"))
            .collect();
        assert_eq!(stops, self.by_class());
        let mut count = 0;
        for (strip, stop) in strips.iter().zip(stops) {
            let board = self.board(stop, first, length);
            assert_eq!(marked(strip), board, "stop {stop}");
            count += board.len();
            assert_eq!(gaps.at(stop), Some(strip.number("data-gap")));
            let is_least = gaps.at(stop).map(u32::from) == Some(gaps.rating.least);
            assert_eq!(strip.of_class("least").len(), usize::from(is_least));
            let words = strip.named("text");
            let says_least = words.iter().any(|text| text.text() == "least");
            assert_eq!(says_least, is_least);
            self.is_joined(strip, stop, (first, length));
        }
        // There are no marks but those of strips.
        assert_eq!(picture.of_class("a").len(), count);
        is_to_scale(picture, first, length);
        self.has_words(picture);
    }

    /// The served stops by class and then number, by the rows that the engine answers.
    fn by_class(&self) -> Vec<u8> {
        let row = engine::classes(&self.file).expect("a network").class_row;
        let mut stops: Vec<u8> = (0..64)
            .filter(|stop| row[usize::from(*stop)] < 64)
            .collect();
        stops.sort_by_key(|stop| (row[usize::from(*stop)], *stop));
        stops
    }

    /// Demands that two arrivals are joined which are as far apart as the stop's gap, both
    /// in the window or, of a whole cycle, around its end; of other windows nothing where
    /// there are none.
    fn is_joined(&self, strip: &Element, stop: u8, (first, length): (i32, u32)) {
        let gap: u16 = strip.number("data-gap");
        let joins = strip.of_class("gap");
        let board = self.board(stop, first, length);
        let Some(join) = joins.first() else {
            assert!(!has_pair(&board, gap), "stop {stop}");
            let at_the_end = first.checked_add_unsigned(length).is_none();
            return assert!(length != self.cycle() || at_the_end, "stop {stop}");
        };
        assert_eq!((joins.len(), join.number("data-gap")), (1, gap));
        assert_eq!(join.named("text")[0].text(), format!("{gap} min"));
        let [one, mut other] = joined(join);
        assert_eq!(other.time - one.time, i64::from(gap));
        if other.time >= i64::from(first) + i64::from(length) {
            // A cycle earlier all is the same.
            assert_eq!(length, self.cycle());
            other.time -= i64::from(length);
        }
        let times = if one == other && gap == 0 { 2 } else { 1 };
        for arrival in [one, other] {
            let there = board.iter().filter(|other| **other == arrival).count();
            assert!(there >= times, "{arrival:?} at stop {stop}");
        }
        let [begin, end] = way(join);
        assert!(places(strip, one).contains(&begin), "stop {stop}");
        assert!(places(strip, other).contains(&end), "stop {stop}");
        // One that comes once in the cycle that is drawn is joined with itself, all around.
        assert_eq!(begin == end, one == other && gap > 0, "stop {stop}");
    }

    /// Demands a title with the rating, and a sentence for each stop.
    fn has_words(&self, picture: &Element) {
        let rating = engine::rate(&self.file, &self.sheet).expect("a rating");
        let title = format!("gap {} sum {}", rating.least, rating.sum);
        let [named, described] = ["aria-labelledby", "aria-describedby"].map(|name| {
            let id = picture.get(name).expect("a reference");
            let mut all = picture.all();
            let element = all.find(|element| element.get("id") == Some(id));
            element.expect("an element").text()
        });
        assert_eq!((named, picture.get("role")), (title.clone(), Some("img")));
        assert!(picture
            .named("text")
            .iter()
            .any(|text| text.text() == title));
        let gaps = engine::gaps(&self.file, &self.sheet).expect("a sheet that fits");
        for (stop, gap) in (0..64).filter_map(|stop| Some((stop, gaps.at(stop)?))) {
            let minutes = if gap == 1 {
                "1 minute"
            } else {
                &format!("{gap} minutes")
            };
            let sentence = format!("At stop {stop} the gap is {minutes}");
            let named = format!("At stop {stop} '");
            let says = described.contains(&sentence) || described.contains(&named);
            assert!(says, "no '{sentence}' in {described}");
        }
    }
}

/// The two arrivals that are said to be joined.
fn joined(join: &Element) -> [Arrival; 2] {
    let [from, to] = ["data-from", "data-to"].map(|name| join.number::<i64>(name));
    let lines = join.get("data-lines").expect("two lines");
    let (one, other) = lines.split_once(' ').expect("two lines");
    [(from, one), (to, other)].map(|(time, line)| Arrival {
        time,
        line: line.parse().expect("a line"),
    })
}

/// Whether two arrivals of a board are so far apart.
fn has_pair(board: &[Arrival], gap: u16) -> bool {
    let mut pairs = board.iter().enumerate().flat_map(|(at, one)| {
        let others = board[at + 1..].iter();
        others.map(move |other| other.time - one.time)
    });
    pairs.any(|apart| apart == i64::from(gap))
}

/// The places of a strip's marks at this minute and of this line.
fn places(strip: &Element, arrival: Arrival) -> Vec<(f64, f64)> {
    let calls = strip.of_class("call").into_iter();
    let of_line = calls.filter(|call| call.number::<u8>("data-line") == arrival.line);
    let marks = of_line.flat_map(|call| call.of_class("a").into_iter().map(move |a| (a, call)));
    let at = marks.filter(|(mark, _)| mark.number::<i64>("data-time") == arrival.time);
    at.map(|(mark, call)| (mark.number("x"), row(call)))
        .collect()
}

/// The height of a call's row.
fn row(call: &Element) -> f64 {
    let transform = call.get("transform").expect("a place");
    let y = transform.strip_prefix("translate(0 ");
    let y = y.and_then(|rest| rest.strip_suffix(')')?.parse().ok());
    y.unwrap_or_else(|| panic!("{transform} is no height"))
}

/// Where the line begins and ends that joins two marks, by way of the strip's ends or not.
fn way(join: &Element) -> [(f64, f64); 2] {
    let paths = join
        .named("path")
        .into_iter()
        .filter_map(|path| path.get("d"));
    let mut parts = paths.filter_map(|path| path.strip_prefix('M')?.split_once('L'));
    let place = |text: &str| {
        let (x, y) = text.split_once(' ').expect("a place");
        (x.parse().expect("a place"), y.parse().expect("a place"))
    };
    let (from, to) = parts.next().expect("a line");
    let (_, to) = parts.next().unwrap_or((from, to));
    assert_eq!(parts.next(), None);
    [from, to].map(place)
}

/// The arrivals of a strip's marks, in the board's order.
fn marked(strip: &Element) -> Vec<Arrival> {
    let calls = strip.of_class("call");
    let mut arrivals: Vec<Arrival> = Vec::new();
    for call in calls {
        let line: u8 = call.number("data-line");
        for mark in call.of_class("a") {
            assert_eq!(mark.get("href"), Some(format!("#exam-line{line}").as_str()));
            let time = mark.number("data-time");
            arrivals.push(Arrival { time, line });
        }
    }
    arrivals.sort();
    arrivals
}

/// Demands that marks stand under their minutes, as the numbers above them say.
fn is_to_scale(picture: &Element, first: i32, length: u32) {
    let numbers = picture.of_class("minutes")[0].named("text").into_iter();
    let number = |text: &Element| {
        (
            text.text().parse::<i64>().expect("a minute"),
            text.number("x"),
        )
    };
    let numbers: Vec<(i64, f64)> = numbers.map(number).collect();
    let within = i64::from(first)..=i64::from(first) + i64::from(length);
    assert!(numbers.iter().all(|(minute, _)| within.contains(minute)));
    let marks = picture.of_class("a").into_iter();
    let marks = marks.map(|mark| (mark.number::<i64>("data-time"), mark.number::<f64>("x")));
    let placed: Vec<(i64, f64)> = numbers.iter().copied().chain(marks).collect();
    let (Some(least), Some(most)) = (
        placed.iter().min_by_key(|at| at.0),
        placed.iter().max_by_key(|at| at.0),
    ) else {
        return assert_eq!(length, 0);
    };
    let minute = (most.1 - least.1) / (most.0 - least.0).max(1) as f64;
    assert!(minute * f64::from(length) < 900.0 && (most.0 == least.0 || minute > 0.05));
    for &(time, x) in &placed {
        let expected = least.1 + (time - least.0) as f64 * minute;
        assert!(
            (x - expected).abs() < 0.02,
            "minute {time} at {x}, not {expected}"
        );
    }
    assert!(numbers.len() > 3 || length < 20, "{numbers:?}");
}

#[test]
fn samples_are_drawn() {
    for (network, sheet) in [
        ("two_lines.hex", "two_lines/perfect.sheet"),
        ("two_lines.net", "two_lines/negative.sheet"),
        ("one_line.hex", "one_line/perfect.sheet"),
        ("loop.plan", "loop/beaten.sheet"),
        ("valley.plan", "valley/perfect.sheet"),
        ("village.plan", "village/other_days.sheet"),
        ("town.hex", "town/perfect.sheet"),
        ("town.hex", "town/all_at_once.sheet"),
    ] {
        let paper = Paper::sample(network, sheet);
        let cycle = paper.cycle();
        paper.is_drawn(&paper.picture(&[]), 0, cycle);
        paper.is_drawn(&paper.picture(&["--from", "-7"]), -7, cycle);
        paper.is_drawn(&paper.picture(&["--length=13"]), 0, 13);
        paper.is_drawn(&paper.picture(&["--from=1430", "--length=90"]), 1_430, 90);
    }
}

#[test]
fn seeded_networks_are_drawn() {
    let mut dice = Dice::new(2_401);
    let folder = Folder::new();
    let (mut marks, mut joins, mut around, mut unjoined, mut alike) = (0, 0, 0, 0, 0);
    for _ in 0..120 {
        let commands = valid_commands(&mut dice);
        let starts = sheet(&mut dice, Stated::by(&commands).periods.len());
        let paper = Paper::of(&folder, bytes_of(&commands), &starts);
        let cycle = paper.cycle();
        let first = any_start(&mut dice);
        let length = dice.pick(&[cycle, cycle.min(400), 0, 1, 25, 130]);
        let [first_word, length_word] = [first.to_string(), length.to_string()];
        let picture = paper.picture(&["--from", &first_word, "--length", &length_word]);
        paper.is_drawn(&picture, first, length);
        marks += picture.of_class("a").len();
        let strips = picture.of_class("strip").len();
        let gaps = picture.of_class("gap");
        joins += gaps.len();
        unjoined += strips - gaps.len();
        let end = i64::from(first) + i64::from(length);
        around += gaps
            .iter()
            .filter(|gap| gap.number::<i64>("data-to") >= end)
            .count();
        let brackets = picture.of_class("alike").len();
        let weights = engine::classes(&paper.file).expect("a network").weight_row;
        assert_eq!(
            brackets,
            weights.iter().filter(|weight| **weight > 1).count()
        );
        alike += brackets;
    }
    let counts = [joins, around, unjoined, alike];
    assert!(
        marks > 10_000 && counts.iter().all(|count| *count > 15),
        "{marks} {counts:?}"
    );
}

/// What is said to those who don't see a picture, word for word.
#[test]
fn pictures_in_words() {
    let words = |network: &str, sheet: &str, more: &[&str]| {
        let picture = Paper::sample(network, sheet).picture(more);
        picture.named("desc")[0].text()
    };
    assert_eq!(
        words("loop.plan", "loop/perfect.sheet", &[]),
        "14 arrivals at 3 stops, one common cycle, 60 minutes from minute 0. \
         At stop 0 'Market' the gap is 3 minutes, the least, \
         from line 0 'Ring bus' at minute 43 to line 1 'Station bus' at minute 46. \
         At stop 1 'Mill' the gap is 30 minutes, the period of line 0 'Ring bus', the only \
         call here. At stop 2 'Station' the gap is 4 minutes, \
         from line 1 'Station bus' at minute 14 to line 0 'Ring bus' at minute 18."
    );
    // In the minutes that are asked for there may be no such two.
    assert_eq!(
        words(
            "two_lines.hex",
            "two_lines/perfect.sheet",
            &["--from=8", "--length=1"]
        ),
        "1 arrival at 1 stop, 1 minute from minute 8. At stop 0 the gap is 2 minutes, the least."
    );
    let village = words("village.plan", "village/perfect.sheet", &[]);
    let alike = " The stops 1 'Market', 2 'School' always rate alike.";
    assert!(village.ends_with(alike), "{village}");
}

/// Names come out as they are, also where they look like markup, and are cut where they
/// have no room; the whole is there too.
#[test]
fn names_are_escaped() {
    let folder = Folder::new();
    let long = format!("Ü{}", "W".repeat(59));
    let names = [
        "<b>&amp;\"x\"",
        "O'Neil & Söhne ]]>",
        "--><script>alert(1)</script>",
        &long,
    ];
    let stops = (0..4).map(|stop| format!("stop {stop} S{}\n", names[stop]));
    let line = |line: usize| {
        let calls = (0..4).map(|stop| format!("  S{} at {stop}\n", names[stop]));
        format!(
            "line {} every 20\n{}",
            names[line],
            calls.collect::<String>()
        )
    };
    // Of 60 characters a stop's name has no room for the S.
    let plan: String = stops.chain((0..4).map(line)).collect();
    let plan = plan.replace(&format!("S{long}"), &format!("S{}", "W".repeat(59)));
    let (plan, sheet) = (
        folder.file("odd.plan", plan),
        folder.file("a.sheet", "0 5 9 13"),
    );
    for more in [&[][..], &["--circle", "3"], &["--circle", "S<b>&amp;\"x\""]] {
        let ran = exam(&[&["draw", &plan, &sheet, "-"], more].concat());
        let picture = checked(&ran.out);
        let all: String = picture.all().map(|element| element.text() + "\n").collect();
        for name in &names[..3] {
            assert!(all.contains(&format!("· {name}\n")), "no {name} in {all}");
        }
        // What was cut has dots, and the whole beside it.
        assert!(all.contains("WWW…\n") && all.contains(&long), "{all}");
        assert!(picture.named("b").is_empty() && picture.named("script").is_empty());
    }
}

/// Longer names, and what can't be seen, no plan has: that is said before anything is drawn.
#[test]
fn names_that_no_plan_has() {
    let folder = Folder::new();
    let sheet = folder.file("a.sheet", "0");
    let target = format!("{}/a.svg", folder.name());
    for (name, words) in [
        ("x".repeat(200), "the name has more than 60 characters"),
        ("a\u{1B}[2Jb".to_string(), "\\u{1b}"),
    ] {
        let plan = format!("line {name} every 20\n  Market at 3\n");
        let words = [words];
        exam_with(&["draw", "-", &sheet, &target, "--plan"], plan.as_bytes()).told("", 2, &words);
        assert!(!std::path::Path::new(&target).exists());
    }
}

/// The most that a network can have: 16 lines, 64 stops and 256 calls.
#[test]
fn sixteen_lines_and_sixty_four_stops() {
    let mut dice = Dice::new(2_402);
    let folder = Folder::new();
    let starts = sheet(&mut dice, 16);
    let paper = Paper::of(&folder, dense_file(&mut dice, 16, 64), &starts);
    let picture = paper.picture(&[]);
    paper.is_drawn(&picture, 0, paper.cycle());
    assert_eq!(picture.of_class("strip").len(), 64);
    let calls = picture.of_class("call");
    assert_eq!(calls.len(), 256);
    let [width, height] = ["width", "height"].map(|name| picture.number::<f64>(name));
    assert_eq!(
        picture.get("viewBox"),
        Some(format!("0 0 {width} {height}").as_str())
    );
    // Rows don't run into each other, and all are on the paper.
    let rows: Vec<f64> = calls.iter().map(|call| row(call)).collect();
    assert!(
        rows.windows(2).all(|two| two[1] - two[0] >= 11.0),
        "{rows:?}"
    );
    assert!(rows.iter().all(|y| (100.0..height - 11.0).contains(y)));
    for text in picture.named("text") {
        if let Some(x) = text.get("x") {
            let x: f64 = x.parse().expect("a place");
            assert!((0.0..width - 16.0).contains(&x), "{text:?}");
        }
    }
    let marks: BTreeSet<&str> = picture
        .of_class("a")
        .iter()
        .filter_map(|a| a.get("href"))
        .collect();
    assert_eq!(marks.len(), 16);
}

/// A board's fullest minute, and the longest window.
#[test]
fn very_many_marks() {
    let folder = Folder::new();
    let paper = Paper::of(&folder, fullest_file(), &[0; 16]);
    let target = format!("{}/full.svg", folder.name());
    let [network, sheet] = paper.words.each_ref().map(String::as_str);
    let draw = |length: &str| exam(&["draw", network, sheet, &target, "--length", length]);
    draw("625").printed(&format!("{target}: gap 0 sum 0 arrivals 20000\n"), 0);
    draw("626").said(
        &format!("{target}: gap 0 sum 0 arrivals 20032\n"),
        0,
        "exam: 20032 arrivals are drawn; --length N draws fewer\n",
    );
    let written = std::fs::read_to_string(&target).expect("a picture");
    paper.is_drawn(&checked(&written), 0, 626);
    let most = draw("10080");
    assert_eq!(most.out, format!("{target}: gap 0 sum 0 arrivals 322560\n"));
    assert_eq!(most.status, 0);
}

/// A file in a folder of its own, drawn from the two lines.
fn drawn_to(folder: &Folder, name: &str, more: &[&str]) -> (Ran, String) {
    let target = format!("{}/{name}", folder.name());
    let sheet = "samples/two_lines/perfect.sheet";
    let ran = exam(&[&["draw", HEX, sheet, &target], more].concat());
    (ran, target)
}

/// What stands in a file is what `-` prints; it is written over whatever was there.
#[test]
fn the_file_is_written() {
    let folder = Folder::new();
    let shown = exam(&["draw", NET, "samples/two_lines/perfect.sheet", "-"]);
    assert_eq!((shown.status, shown.err.as_str()), (0, ""));
    assert!(shown
        .out
        .starts_with("<?xml version=\"1.0\" encoding=\"UTF-8\"?>\n<svg "));
    assert!(shown.out.ends_with("</svg>\n"));
    folder.file("old.svg", "x".repeat(100_000));
    for name in ["new.svg", "old.svg", "NEW.SVG", "a <b>&.svg"] {
        let (ran, target) = drawn_to(&folder, name, &[]);
        ran.printed(&format!("{target}: gap 2 sum 2 arrivals 7\n"), 0);
        assert_eq!(
            std::fs::read_to_string(&target).expect("a picture"),
            shown.out
        );
    }
    let (ran, _) = drawn_to(&folder, "a\n\u{1B}.svg", &[]);
    assert!(
        ran.out
            .ends_with("/a\\u{a}\\u{1b}.svg: gap 2 sum 2 arrivals 7\n"),
        "{ran:?}"
    );
    // The sheet may come from standard input and the picture go to standard output.
    let words = ["draw", NET, "-", "-", "--sheet-numbers"];
    assert_eq!(exam_with(&words, b"0 3").out, shown.out);
}

#[test]
fn files_that_cannot_be_written() {
    let folder = Folder::new();
    let (ran, target) = drawn_to(&folder, "absent/a.svg", &[]);
    ran.said(
        "",
        2,
        &format!("exam: {target} can't be written: there is no such folder\n"),
    );
    std::fs::create_dir(folder.path().join("folder.svg")).expect("a folder");
    let (ran, _) = drawn_to(&folder, "folder.svg", &[]);
    ran.told(
        "",
        2,
        &["folder.svg can't be written: it is a folder, not a file\n"],
    );
    folder.file("plain", "");
    let (ran, _) = drawn_to(&folder, "plain/a.svg", &[]);
    let words = "can't be written: there is no such folder: a part of its path is no folder\n";
    ran.told("", 2, &[words]);
    std::os::unix::fs::symlink("/dev/full", folder.path().join("full.svg")).expect("a link");
    let (ran, _) = drawn_to(&folder, "full.svg", &[]);
    ran.told(
        "",
        2,
        &["full.svg can't be written: no space is left on the disk\n"],
    );
}

/// No sheet and no network is overwritten by a slip.
#[test]
fn other_names_than_of_pictures() {
    let folder = Folder::new();
    let sheet = folder.file("ben.sheet", "0 -17");
    for word in [sheet.as_str(), "market", "", "svg", "a.svg.sheet", "-5"] {
        let words =
            format!("exam: a picture isn't written to '{word}': let the name end in .svg, ");
        exam(&["draw", HEX, &sheet, word]).told("", 2, &[&words, "\ntry: exam draw --help\n"]);
    }
    assert_eq!(std::fs::read_to_string(&sheet).expect("a sheet"), "0 -17");
    exam(&["draw", HEX, &sheet]).told("", 2, &["NETWORK SHEET FILE.svg; FILE.svg is missing"]);
    exam(&["draw", HEX, &sheet, "a.svg", "b.svg"]).told("", 2, &["'b.svg' is one too many"]);
}

/// What is refused writes no file, and leaves one that is there as it is.
fn refuses(words: &[&str], out: &str, err: &str) {
    let folder = Folder::new();
    let kept = folder.file("kept.svg", "as it was");
    let target = format!("{}/new.svg", folder.name());
    for file in [&kept, &target, "-"] {
        let words = [&["draw", words[0], words[1], file], &words[2..]].concat();
        exam(&words).told(out, 1, &[err]);
    }
    assert!(!std::path::Path::new(&target).exists());
    assert_eq!(std::fs::read_to_string(&kept).expect("a file"), "as it was");
}

#[test]
fn refused() {
    let folder = Folder::new();
    let short = folder.file("short.sheet", "0");
    let bad = folder.file("bad.hex", "4C0000 45");
    let sheet = "samples/two_lines/perfect.sheet";
    let lengths = "the sheet hasn't one start for each line\n  lines: 2; sheet: 1 starts\n";
    refuses(&[HEX, &short], "refused 15 at 0\n", lengths);
    for more in ["--circle=64", "--length=10081"] {
        refuses(&[HEX, &short, more], "refused 15 at 0\n", lengths);
    }
    let long = "exam: refused 22 at 0: the board is longer than 10,080 minutes\n  \
                asked for: 10081 minutes\n";
    refuses(
        &[HEX, sheet, "--length", "10081"],
        "refused 22 at 0\n",
        long,
    );
    for stop in ["64", "256", "4294967295"] {
        let words = format!("the stop asked for is above 63\n  asked for: stop {stop}\n");
        refuses(&[HEX, sheet, "--circle", stop], "refused 8 at 0\n", &words);
    }
    for more in ["--circle=64", "--length=10081"] {
        let words = "the period isn't 1 to 1,440";
        refuses(&[&bad, sheet, more], "refused 5 at 0\n", words);
    }
}

/// Help says how an answer looks.
#[test]
fn the_example_of_help() {
    let folder = Folder::new();
    let target = folder.file("town.svg", "");
    let sheet = "samples/town/perfect.sheet";
    let strips = exam(&["draw", "samples/town.hex", sheet, &target]).out;
    let circle = exam(&["draw", "samples/town.hex", sheet, &target, "--circle", "1"]).out;
    let help = exam(&["draw", "--help"]).out;
    for (name, line) in [("town", strips), ("market", circle)] {
        let (_, behind) = line.split_once(": ").expect("a line");
        let example = format!("  {name}.svg: {behind}");
        assert!(help.contains(&example), "no {example} in {help}");
    }
}
