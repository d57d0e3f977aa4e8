//! `exam board`.

use crate::common::{exam, exam_on, exam_with, Folder, Ran, HEX, NET};
use papers::files::{any_start, bytes_of, sheet, sheet_bytes, valid_commands, Dice, Stated};

/// Two lines of 15 and 20 that meet at the market, and a stop where none calls.
const MARKET: &str = "\
stop 0 Market
stop 5 Old Depot
stop 200 Far away
line Red every 15
  Market at 8
line Green every 20
  Market at 17
";

/// A board of a typed network and a sheet.
fn typed(network: &str, starts: &str, more: &[&str]) -> Ran {
    exam_on("board", (network, "--typed"), starts, more)
}

/// A board of the two lines and a sheet of zeros.
fn two_lines(more: &[&str]) -> Ran {
    let network = "4C000F 4C0014 4300000008 4301000011 45";
    typed(network, "0 0", more)
}

/// A board of the plan and a sheet of zeros.
fn market(more: &[&str]) -> Ran {
    exam_on("board", (MARKET, "--plan"), "0 0", more)
}

#[test]
fn arrivals_by_time_and_line() {
    let hour = "stop 0 from 0 length 60 arrivals 7\n\
                time  8  day 0  00:08  line 0\n\
                time 17  day 0  00:17  line 1\n\
                time 23  day 0  00:23  line 0\n\
                time 37  day 0  00:37  line 1\n\
                time 38  day 0  00:38  line 0\n\
                time 53  day 0  00:53  line 0\n\
                time 57  day 0  00:57  line 1\n";
    two_lines(&["0", "--from", "0", "--length", "60"]).printed(hour, 0);
    // Without a window it is one common cycle from minute 0.
    two_lines(&["0"]).printed(hour, 0);
    two_lines(&["00", "--from=+0"]).printed(hour, 0);
    let folder = Folder::new();
    let bytes = folder.file("zeros.bin", [0; 8]);
    for network in [HEX, NET] {
        exam(&["board", network, &bytes, "0", "--length", "60"]).printed(hour, 0);
    }
    let cycle = "stop 0 from 8 length 60 arrivals 7\ntime  8  day 0  00:08  line 0\n";
    assert!(two_lines(&["0", "--from", "8"]).out.starts_with(cycle));
    // The first minute is within, and the last is the one before first plus length.
    let one = "stop 0 from 8 length 9 arrivals 1\ntime 8  day 0  00:08  line 0\n";
    two_lines(&["0", "--from", "8", "--length", "9"]).printed(one, 0);
}

/// Two lines at one minute stand by line, whatever their offsets.
#[test]
fn lines_at_one_minute() {
    let network = "4C000A 4C0014 4300000009 4301000005 45";
    let board = "stop 0 from 0 length 20 arrivals 3\n\
                 time  5  day 0  00:05  line 0\n\
                 time  5  day 0  00:05  line 1\n\
                 time 15  day 0  00:15  line 0\n";
    typed(network, "6 0", &["0"]).printed(board, 0);
}

/// A loop's two calls at one minute are two arrivals.
#[test]
fn a_loop_stands_as_often_as_it_arrives() {
    for offsets in ["0003 000D", "0003 0003"] {
        let (one, other) = offsets.split_once(' ').expect("two offsets");
        let network = format!("4C000A 430000{one} 430000{other} 45");
        let board = "stop 0 from 0 length 10 arrivals 2\n\
                     time 3  day 0  00:03  line 0\n\
                     time 3  day 0  00:03  line 0\n";
        typed(&network, "0", &["0"]).printed(board, 0);
    }
    let ring = exam(&[
        "board",
        "samples/loop.plan",
        "samples/loop/perfect.sheet",
        "Market",
    ]);
    let of_ring = ring.out.matches("  line 0  Ring bus\n").count();
    assert_eq!((ring.status, of_ring), (0, 4), "{ring:?}");
}

/// Days are counted from that of minute 0, and the clock goes on before it.
#[test]
fn days_and_clock() {
    let before = "stop 0 from -20 length 20 arrivals 2\n\
                  time -7  day -1  23:53  line 0\n\
                  time -3  day -1  23:57  line 1\n";
    two_lines(&["0", "--from", "-20", "--length", "20"]).printed(before, 0);
    two_lines(&["0", "--from=-20", "--length=20"]).printed(before, 0);
    let night = "stop 0 from 1430 length 20 arrivals 3\n\
                 time 1433  day 0  23:53  line 0\n\
                 time 1437  day 0  23:57  line 1\n\
                 time 1448  day 1  00:08  line 0\n";
    two_lines(&["0", "--from", "1430", "--length", "20"]).printed(night, 0);
    let both = "stop 0 from -4 length 13 arrivals 2\n\
                time -3  day -1  23:57  line 1\n\
                time  8  day  0  00:08  line 0\n";
    two_lines(&["0", "--from", "-4", "--length", "13"]).printed(both, 0);
    let every_minute = "4C0001 4300000000 45";
    let days = "stop 0 from -1441 length 3 arrivals 3\n\
                time -1441  day -2  23:59  line 0\n\
                time -1440  day -1  00:00  line 0\n\
                time -1439  day -1  00:01  line 0\n";
    typed(every_minute, "7", &["0", "--from=-1441", "--length=3"]).printed(days, 0);
}

/// Both ends of 32 bits; a time may lie beyond.
#[test]
fn at_the_ends_of_32_bits() {
    let last = "stop 0 from 2147483647 length 11 arrivals 2\n\
                time 2147483648  day 1491308  02:08  line 0\n\
                time 2147483657  day 1491308  02:17  line 1\n";
    two_lines(&["0", "--from", "2147483647", "--length", "11"]).printed(last, 0);
    let first = "stop 0 from -2147483648 length 2 arrivals 1\n\
                 time -2147483647  day -1491309  21:53  line 0\n";
    two_lines(&["0", "--from", "-2147483648", "--length", "2"]).printed(first, 0);
}

#[test]
fn names_of_a_plan() {
    let board = "stop 0 from 0 length 20 arrivals 2  Market\n\
                 time  8  day 0  00:08  line 0  Red\n\
                 time 17  day 0  00:17  line 1  Green\n";
    for stop in ["0", "Market"] {
        market(&[stop, "--length", "20"]).printed(board, 0);
    }
    // Where a line has two digits.
    let lines = (0..11).map(|line| format!("line L{line} every 60\nMarket at {line}\n"));
    let folder = Folder::new();
    let plan = folder.file("many.plan", lines.collect::<String>());
    let sheet = folder.file("zeros.sheet", "0 ".repeat(11));
    let board = exam(&["board", &plan, &sheet, "Market"]);
    let rows = "time  9  day 0  00:09  line  9  L9\ntime 10  day 0  00:10  line 10  L10\n";
    assert!(board.out.ends_with(rows), "{board:?}");
}

/// A name that isn't there is nothing that the engine could be asked for.
#[test]
fn names_that_no_stop_has() {
    let no_stop = |stop: &str, words: &str| {
        market(&[stop]).said(
            "",
            2,
            &format!("exam: standard input has no stop {words}\n"),
        );
    };
    no_stop("market", "'market'; did you mean 'Market'?");
    no_stop("Old  Depot", "'Old  Depot'; did you mean 'Old Depot'?");
    no_stop("Church", "'Church'");
    no_stop("0x3", "'0x3'");
    no_stop("M\u{1B}[2J", "'M\\u{1b}[2J'");
    let words = "exam: standard input has no names, and the stop 'Market' isn't a number\n";
    two_lines(&["Market"]).said("", 2, words);
}

/// Nothing arrives: the board's own text line, and of a stop where no line calls a word
/// on standard error.
#[test]
fn empty_boards() {
    let empty = "stop 0 from 9 length 8 arrivals 0  Market\n";
    market(&["Market", "--from", "9", "--length", "8"]).printed(empty, 0);
    let none = "stop 0 from 8 length 0 arrivals 0  Market\n";
    market(&["0", "--from", "8", "--length", "0"]).printed(none, 0);
    let depot = "stop 5 from 0 length 60 arrivals 0  Old Depot\n";
    let words = "exam: no line calls at stop 5 'Old Depot'\n";
    for stop in ["5", "Old Depot"] {
        market(&[stop]).said(depot, 0, words);
    }
    let last = "stop 63 from 0 length 10080 arrivals 0\n";
    let words = "exam: no line calls at stop 63\n";
    two_lines(&["63", "--length", "10080"]).said(last, 0, words);
}

/// What is refused beside the file, in the engine's order: the sheet, the stop, the
/// length.
#[test]
fn refused() {
    let short = "exam: refused 15 at 0: the sheet hasn't one start for each line\n  \
                 lines: 2; sheet: 1 starts\n";
    let network = "4C000F 4C0014 4300000008 4301000011 45";
    for stop in ["0", "64"] {
        for length in ["60", "10081"] {
            let more = [stop, "--length", length];
            typed(network, "0", &more).said("refused 15 at 0\n", 1, short);
        }
    }
    for stop in ["64", "256", "4294967295"] {
        let words = format!(
            "exam: refused 8 at 0: the stop asked for is above 63\n  asked for: stop {stop}\n"
        );
        two_lines(&[stop]).said("refused 8 at 0\n", 1, &words);
        two_lines(&[stop, "--length", "10081"]).said("refused 8 at 0\n", 1, &words);
    }
    let far = "exam: refused 8 at 0: the stop asked for is above 63\n  \
               asked for: stop 200 'Far away'\n";
    market(&["Far away"]).said("refused 8 at 0\n", 1, far);
    for (stop, length) in [("0", "10081"), ("63", "4294967295")] {
        let words = format!(
            "exam: refused 22 at 0: the board is longer than 10,080 minutes\n  \
             asked for: {length} minutes\n"
        );
        two_lines(&[stop, "--length", length]).said("refused 22 at 0\n", 1, &words);
    }
}

/// A file's own ground 8 is explained by its bytes, and comes before that of the stop
/// that is asked for.
#[test]
fn refused_for_a_stop_of_the_file() {
    let network = "4C000F 4300400008 45";
    let words = "exam: refused 8 at 3: the stop is above 63\n  standard input, byte 3: \
                 43 00 40 00 08 (line 0, stop 64, offset 8)\n  text line 1: 4C000F 4300400008 45\n";
    for more in [&["64"][..], &["0", "--length", "5"]] {
        typed(network, "0", more).said("refused 8 at 3\n", 1, words);
    }
}

/// One sheet, from a file or standard input, and the example of help.
#[test]
fn sheets_for_a_board() {
    exam(&["board", HEX, "no.sheet", "0"]).told("", 2, &["no.sheet: there is no such file"]);
    exam(&["board", HEX, "samples", "0"]).told("", 2, &["samples is a folder, not a file"]);
    let words = ["board", HEX, "-", "0", "--length=1", "--sheet-numbers"];
    exam_with(&words, b"-8 5 # Anna").printed(
        "stop 0 from 0 length 1 arrivals 1\ntime 0  day 0  00:00  line 0\n",
        0,
    );
    let example = market(&["0", "--from=-10", "--length=20"]).out;
    let set_in: String = example.lines().map(|line| format!("  {line}\n")).collect();
    let help = exam(&["board", "--help"]).out;
    assert!(help.contains(&set_in), "no {set_in} in {help}");
}

/// Time and line of each arrival, minute by minute: a call arrives where the minute less
/// start and offset is a whole number of periods.
fn arrivals(stated: &Stated, starts: &[i32], stop: u8, window: (i32, u32)) -> Vec<(i64, u8)> {
    let (first, length) = (i64::from(window.0), i64::from(window.1));
    let mut arrivals = Vec::new();
    for time in first..first + length {
        for &(line, at, offset) in &stated.calls {
            let from = i64::from(starts[usize::from(line)]) + i64::from(offset);
            let period = i64::from(stated.periods[usize::from(line)]);
            if at == stop && (time - from) % period == 0 {
                arrivals.push((time, line));
            }
        }
    }
    arrivals.sort();
    arrivals
}

/// What a board's rows say, where the time of day is that of the minute.
fn said(board: &str) -> Vec<(i64, u8)> {
    let row = |row: &str| {
        let words: Vec<&str> = row.split_whitespace().collect();
        let ["time", time, "day", day, clock, "line", line] = words[..] else {
            panic!("'{row}' is no arrival");
        };
        let (hours, minutes) = clock.split_once(':').expect("hours and minutes");
        let [day, hours, minutes] = [day, hours, minutes].map(number);
        assert!((0..24).contains(&hours) && (0..60).contains(&minutes));
        assert_eq!(day * 1_440 + hours * 60 + minutes, number(time), "{row}");
        (number(time), number(line) as u8)
    };
    board.lines().skip(1).map(row).collect()
}

fn number(word: &str) -> i64 {
    word.parse().expect("a number")
}

#[test]
fn on_seeded_files() {
    let mut dice = Dice::new(97);
    let folder = Folder::new();
    let (mut most, mut empty) = (0, 0);
    for _ in 0..150 {
        let commands = valid_commands(&mut dice);
        let stated = Stated::by(&commands);
        let starts = sheet(&mut dice, stated.periods.len());
        let network = folder.file("one.net", bytes_of(&commands));
        let sheet = folder.file("one.bin", sheet_bytes(&starts));
        let stop = match dice.once_in(10) {
            true => dice.below(64) as u8,
            false => dice.pick(&stated.calls).1,
        };
        let first = any_start(&mut dice);
        let length = dice.pick(&[0, 1, 60, 300, 1_440, 10_080]);
        let words = [stop.to_string(), first.to_string(), length.to_string()];
        let [stop_word, first_word, length_word] = words.each_ref().map(String::as_str);
        let words = ["board", &network, &sheet, stop_word, "--from", first_word];
        let ran = exam(&[&words[..], &["--length", length_word]].concat());
        let expected = arrivals(&stated, &starts, stop, (first, length));
        let count = expected.len();
        let head = format!("stop {stop} from {first} length {length} arrivals {count}\n");
        assert!(ran.status == 0 && ran.out.starts_with(&head), "{ran:?}");
        assert_eq!(said(&ran.out), expected);
        let unserved = stated.calls.iter().all(|call| call.1 != stop);
        let words = format!("exam: no line calls at stop {stop}\n");
        assert_eq!(ran.err, if unserved { words } else { String::new() });
        most = most.max(count);
        empty += usize::from(count == 0);
    }
    assert!(most > 5_000 && empty > 20, "{most} {empty}");
}
