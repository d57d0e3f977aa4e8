//! `exam show`.

use crate::common::{exam, exam_with, written, Folder, HEX, NET};
use papers::files::{bytes_of, valid_commands, Dice, Stated};

const VILLAGE: &str = "\
lines 4 stops 6 calls 12 cycle 60 edition 1

line 0  every 60  School bus
  at  0       stop 0  Church
  at  4   +4  stop 1  Market
  at  7   +3  stop 2  School

line 1  every 30  Market bus
  at  2       stop 4  Mill
  at  8   +6  stop 1  Market
  at 11   +3  stop 2  School
  at 19   +8  stop 3  Station

line 2  every 20  Station bus
  at  1       stop 4  Mill
  at 12  +11  stop 3  Station

line 3  every 60  Quarry bus
  at  0       stop 5  Quarry
  at 15  +15  stop 3  Station
  at 20   +5  stop 0  Church

stop 0  Church
  line 0  at  0  School bus
  line 3  at 20  Quarry bus
stop 1  Market
  line 0  at  4  School bus
  line 1  at  8  Market bus
stop 2  School
  line 0  at  7  School bus
  line 1  at 11  Market bus
stop 3  Station
  line 1  at 19  Market bus
  line 2  at 12  Station bus
  line 3  at 15  Quarry bus
stop 4  Mill
  line 1  at  2  Market bus
  line 2  at  1  Station bus
stop 5  Quarry
  line 3  at  0  Quarry bus
";

#[test]
fn show_in_columns() {
    exam(&["show", "samples/village.plan"]).printed(VILLAGE, 0);
    let two_lines =
        "lines 2 stops 1 calls 2 cycle 60 edition 1\n\nline 0  every 15\n  at  8  stop 0\n\n\
                     line 1  every 20\n  at 17  stop 0\n\nstop 0\n  line 0  at  8\n  line 1  at \
                     17\n";
    exam(&["show", HEX]).printed(two_lines, 0);
    exam(&["show", NET]).printed(two_lines, 0);
    // The same rows without names.
    let typed = exam(&["show", "samples/village.hex"]).out;
    let named: Vec<&str> = VILLAGE.lines().collect();
    let bare: Vec<&str> = typed.lines().collect();
    assert_eq!(named.len(), bare.len());
    for (named, bare) in named.iter().zip(bare) {
        assert!(named.starts_with(bare), "{named} and {bare}");
    }
}

/// 30 typed for 48, and a ride counted from the call before in the file: what
/// was read is seen.
#[test]
fn show_is_in_decimal_and_along_the_line() {
    let typed = "4C0030 4C05A0 43 00 3F 0100 46 00 07 FEFF 43 00 00 0030 43 01 00 0000 45";
    let shown = "lines 2 stops 3 calls 4 cycle 1440 edition 1

line 0  every   48
  at    48          stop  0
  at   256    +208  stop 63
  at 65535  +65279  stop  7

line 1  every 1440
  at     0          stop  0

stop  0
  line 0  at    48
  line 1  at     0
stop  7
  line 0  at 65535
stop 63
  line 0  at   256
";
    exam_with(&["show", "-", "--typed"], typed.as_bytes()).printed(shown, 0);
}

#[test]
fn show_of_a_stop_that_has_no_call() {
    let plan = "stop 3 Depot\nstop 0 Market\nline Red every 15\nMarket at 8\n";
    let shown =
        "lines 1 stops 1 calls 1 cycle 15 edition 1\n\nline 0  every 15  Red\n  at 8  stop 0  \
                 Market\n\nstop 0  Market\n  line 0  at 8  Red\nstop 3  Depot\n  no line calls \
                 here\n";
    exam_with(&["show", "-", "--plan"], plan.as_bytes()).printed(shown, 0);
}

/// The edition is stated, whether the file does or not.
#[test]
fn show_states_the_edition() {
    let bare = "4C000F 4300000008 45";
    let shown = |text: &str| {
        let ran = exam_with(&["show", "-", "--typed"], text.as_bytes());
        assert_eq!(ran.status, 0, "{ran:?}");
        ran.out
    };
    let first = shown(bare);
    assert!(first.starts_with("lines 1 stops 1 calls 1 cycle 15 edition 1\n\nline 0 "));
    assert_eq!(shown(&format!("5601 {bare}")), first);
    let second = shown(&format!("5602 {bare}"));
    assert_eq!(second, first.replace("edition 1", "edition 2"));
}

#[test]
fn show_of_a_refused_network() {
    let pieces = ["refused 13 at 0", "there is no line"];
    exam_with(&["show", "-", "--plan"], b"# nothing").told("refused 13 at 0\n", 1, &pieces);
    exam(&["show", "no.plan"]).told("", 2, &["no.plan: there is no such file"]);
}

/// Every number that a seeded file states is shown, and no other: each line
/// with its period, each call twice, under its line and under its stop.
#[test]
fn show_on_seeded_files() {
    let mut dice = Dice::new(96);
    let folder = Folder::new();
    for _ in 0..60 {
        let commands = valid_commands(&mut dice);
        let network = folder.file("one.net", bytes_of(&commands));
        let shown = String::from_utf8(written(&["show", &network])).expect("a text");
        let stated = Stated::by(&commands);
        let first = shown.lines().next().expect("a line");
        assert!(first.ends_with(&format!(" edition {}", stated.edition)));
        let mut calls = stated.calls.clone();
        calls.sort_by_key(|&(line, stop, offset)| (line, offset, stop));
        let periods = stated
            .periods
            .iter()
            .zip(0..)
            .map(|(period, line)| (line, *period));
        assert_eq!(numbers_of(&shown), (periods.collect(), calls.clone()));
        calls.sort_by_key(|&(line, stop, offset)| (stop, line, offset));
        assert_eq!(calls_at_stops(&shown), calls);
    }
}

/// Line, stop and offset of each call.
type Calls = Vec<(u8, u8, u16)>;

/// The periods, and the calls as they stand under their lines.
fn numbers_of(shown: &str) -> (Vec<(u8, u16)>, Calls) {
    let (mut periods, mut calls) = (Vec::new(), Vec::new());
    for row in shown.lines().skip(1) {
        let words: Vec<&str> = row.split_whitespace().collect();
        match words[..] {
            ["line", line, "every", period] => periods.push((number(line) as u8, number(period))),
            ["at", offset, .., "stop", stop] => {
                let line = periods.last().expect("a line").0;
                calls.push((line, number(stop) as u8, number(offset)));
            }
            _ => {}
        }
    }
    (periods, calls)
}

fn calls_at_stops(shown: &str) -> Calls {
    let (mut at, mut calls) = (0, Vec::new());
    for row in shown.lines().skip(1) {
        let words: Vec<&str> = row.split_whitespace().collect();
        match words[..] {
            ["stop", stop] => at = number(stop) as u8,
            ["line", line, "at", offset] => calls.push((number(line) as u8, at, number(offset))),
            _ => {}
        }
    }
    calls
}

fn number(word: &str) -> u16 {
    word.parse().expect("a number")
}
