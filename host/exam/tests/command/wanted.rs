//! `exam wanted`.

use crate::common::{exam, exam_with, Folder, HEX, NET, P9};
use papers::files::{any_file, any_gap, dense_file, roomy_file, Dice};
use papers::sections::network::read;
use papers::sections::rating::{rating, whole, Rating};
use papers::sections::wanted::{seek, Sought, Wanted};

/// Three lines, of 60, 60 and 12 minutes, the last alone at its stop.
const P8: &str = "4C003C 4C003C 4C000C 4300000000 4301000000 4302010000 45";

/// Two lines of 4 that can't be 2 apart at both their stops.
const FOUR: &str = "4C0004 4C0004 4300000000 4301000000 4300010000 4301010001 45";

fn typed(text: &str, gap: &str) -> crate::common::Ran {
    exam_with(&["wanted", "-", gap, "--typed"], text.as_bytes())
}

#[test]
fn found() {
    let line = "gap 2 sum 2 tries 5 starts 0 3\n";
    exam(&["wanted", NET, "2"]).printed(line, 0);
    exam(&["wanted", HEX, "2", "--budget", "5"]).printed(line, 0);
    exam(&["wanted", "--budget=max", HEX, "2"]).printed(line, 0);
    exam(&["wanted", "--budget=max", HEX, "2", "--quiet"]).printed(line, 0);
    exam(&["wanted", HEX, "--budget", "5", "--", "2"]).printed(line, 0);
    exam(&["wanted", HEX, "1"]).printed("gap 1 sum 1 tries 2 starts 0 0\n", 0);
    // The first that has it, and not the best, which has a sum of 11.
    typed(P9, "3").printed("gap 3 sum 10 tries 5 starts 0 3\n", 0);
    typed(P8, "12").printed("gap 12 sum 24 tries 15 starts 0 12 0\n", 0);
    exam(&["wanted", "samples/one_line.hex", "15"]).printed("gap 15 sum 15 tries 1 starts 0\n", 0);
}

/// A gap of 0 is had by the first timetable, its tries being the lines.
#[test]
fn a_gap_of_0() {
    exam(&["wanted", HEX, "0"]).printed("gap 1 sum 1 tries 2 starts 0 0\n", 0);
    exam(&["wanted", HEX, "000", "--budget", "2"]).printed("gap 1 sum 1 tries 2 starts 0 0\n", 0);
    typed(P8, "0").printed("gap 0 sum 12 tries 3 starts 0 0 0\n", 0);
}

/// There is none, which is an answer like another.
#[test]
fn none() {
    exam(&["wanted", NET, "3"]).printed("none tries 1\n", 0);
    exam(&["wanted", NET, "3", "--budget", "1"]).printed("none tries 1\n", 0);
    exam(&["wanted", NET, "65535", "--budget=max"]).printed("none tries 1\n", 0);
    typed(P9, "4").printed("none tries 31\n", 0);
    typed(P8, "13").printed("none tries 1\n", 0);
    typed(FOUR, "2").printed("none tries 5\n", 0);
    let with_5 = ["wanted", "-", "2", "--typed", "--budget", "5"];
    exam_with(&with_5, FOUR.as_bytes()).printed("none tries 5\n", 0);
}

#[test]
fn stopped() {
    let words = "exam: the budget was used up before it was known whether there is one \
                 (--budget N)\n  a budget of 21 always suffices for this network\n";
    for (gap, budget) in [
        ("2", "4"),
        ("2", "0"),
        ("3", "0"),
        ("0", "1"),
        ("65535", "0"),
    ] {
        let line = format!("stopped tries {budget}\n");
        exam(&["wanted", NET, gap, "--budget", budget]).said(&line, 3, words);
    }
    let folder = Folder::new();
    let days: String = (0..5)
        .map(|line| format!("43 {line:02X} 00 0000 "))
        .collect();
    let long = folder.file("long.hex", format!("{} {days} 45", "4C 05A0 ".repeat(5)));
    exam(&["wanted", &long, "288", "--budget", "9"]).told(
        "stopped tries 9\n",
        3,
        &["4302805019041 tries always suffice for this network, more than"],
    );
}

#[test]
fn refused() {
    let words = ["exam: refused 5 at 0: the period isn't 1 to 1,440\n  standard input, byte 0"];
    for gap in ["0", "65535"] {
        typed("4C05A1", gap).told("refused 5 at 0\n", 1, &words);
    }
    let no_tries = ["wanted", "-", "3", "--bytes", "--budget", "0"];
    exam_with(&no_tries, b"").told("refused 1 at 0\n", 1, &["nothing behind its 0 bytes"]);
}

/// A plan's timetable, and the whole way from a wanted gap to a sheet that has it.
#[test]
fn of_a_plan() {
    let village = exam(&["wanted", "samples/village.plan", "3"]);
    assert_eq!((village.status, village.err.as_str()), (0, ""));
    let (rating, starts) = village.out.split_once(" starts ").expect("starts");
    let folder = Folder::new();
    let sheet = folder.file("wanted.sheet", starts);
    let rated = exam(&["rate", "samples/village.plan", &sheet]).out;
    assert!(rating.starts_with(rated.trim()), "{rating} {rated}");
    assert!(rated.starts_with("gap 3 "), "{rated}");
    exam(&["wanted", "samples/village.plan", "4"]).printed("none tries 491\n", 0);
}

/// A large budget is asked for in stages: the answer is that of one call, where a
/// stage has it, where the last one has it and where none has it.
#[test]
fn with_a_large_budget() {
    let none = dense_file(&mut Dice::new(3), 16, 64);
    let found = dense_file(&mut Dice::new(57), 8, 8);
    for (file, gap, budget, start, status) in [
        (&none, "4", "20000000", "none tries 4467631\n", 0),
        (&none, "4", "max", "none tries 4467631\n", 0),
        (&none, "3", "10000000", "stopped tries 10000000\n", 3),
        (&found, "4", "10000000", "gap 4 sum ", 0),
        (&found, "4", "max", "gap 4 sum ", 0),
    ] {
        let words = ["wanted", "-", gap, "--bytes", "--budget", budget];
        let ran = exam_with(&words, file);
        assert!(
            ran.out.starts_with(start) && ran.status == status,
            "{ran:?}"
        );
    }
    let (line, _) = line_of(&found, 4, u32::MAX);
    assert!(line.contains(" tries 1581741 "), "{line}");
    let words = ["wanted", "-", "4", "--bytes", "--budget=max"];
    assert_eq!(exam_with(&words, &found).out, line);
}

/// What the papers answer, as the line and the status.
fn line_of(file: &[u8], gap: u16, budget: u32) -> (String, i32) {
    let net = match read(file) {
        Ok(net) => net,
        Err(why) => return (format!("refused {} at {}\n", why.number, why.place), 1),
    };
    let Sought { answer, starts } = seek(&net, gap, budget);
    match answer {
        Wanted::Found { tries } => {
            let starts = starts.expect("the starts of a timetable");
            let Rating { least, sum } = rating(&net, &whole(&starts));
            let starts: Vec<String> = starts.iter().map(i32::to_string).collect();
            let starts = starts.join(" ");
            (
                format!("gap {least} sum {sum} tries {tries} starts {starts}\n"),
                0,
            )
        }
        Wanted::None { tries } => (format!("none tries {tries}\n"), 0),
        Wanted::Stopped { tries } => (format!("stopped tries {tries}\n"), 3),
    }
}

/// The papers' answer for files of every kind.
#[test]
fn on_seeded_files() {
    let mut dice = Dice::new(93);
    let mut statuses = [0; 4];
    for number in 0..200 {
        let file = match number % 2 {
            0 => any_file(&mut dice),
            _ => roomy_file(&mut dice),
        };
        let gap = any_gap(&mut dice, &file);
        let budget = dice.pick(&[1, 5, 20, 100, 1_000, 100_000]);
        let words = ["wanted", "-", &gap.to_string(), "--bytes", "--budget"];
        let ran = exam_with(&[&words[..], &[&budget.to_string()]].concat(), &file);
        assert_eq!((ran.out, ran.status), line_of(&file, gap, budget));
        statuses[ran.status as usize] += 1;
    }
    assert!(
        statuses[0] > 60 && statuses[1] > 20 && statuses[3] > 20,
        "{statuses:?}"
    );
}
