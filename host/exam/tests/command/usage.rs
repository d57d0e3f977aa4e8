//! Bad usage, and help.

use crate::common::{command, ended, exam, exam_with, Folder, NET, P9};

/// Each has its words, nothing on standard output, and the way to help.
fn all_are_told(cases: &[(&[&str], &str)]) {
    for (words, message) in cases {
        exam(words).told("", 2, &[message, "\ntry: exam"]);
    }
}

#[test]
fn bad_verbs() {
    all_are_told(&[
        (&[], "say what to do"),
        (&["rank"], "there is no verb 'rank'\n"),
        (&[""], "there is no verb ''\n"),
        (&["raet"], "no verb 'raet'; did you mean 'rate'?"),
        (&["Mark", NET], "no verb 'Mark'; did you mean 'mark'?"),
        (&["hlep"], "no verb 'hlep'; did you mean 'help'?"),
        (&["help", "rank"], "there is no verb 'rank'\n"),
        (&["--help", "arhive"], "did you mean 'archive'?"),
        (&["help", "best", "rate"], "'rate' is one too many"),
        (&["--version", "best"], "'best' is one too many"),
        (&["help", "--man", "x"], "'x' is one too many"),
        (
            &["help", "--completions"],
            "--completions wants a shell, bash or fish",
        ),
        (
            &["help", "--completions", "sh"],
            "--completions wants a shell, bash or fish",
        ),
    ]);
}

#[test]
fn options_before_the_verb() {
    let after = "stands before the verb; options come after it";
    all_are_told(&[
        (&["--typed"], &format!("'--typed' {after}")),
        (
            &["--budget", "5", "best", NET],
            &format!("'--budget' {after}"),
        ),
        (&["--budget=5", "best", NET], &format!("'--budget' {after}")),
        (
            &["--verison"],
            "no option '--verison'; did you mean '--version'?",
        ),
        (&["-x", "best", NET], "there is no option '-x'\n"),
    ]);
}

#[test]
fn bad_operands() {
    all_are_told(&[
        (&["best"], "'best' wants NETWORK; NETWORK is missing"),
        (
            &["best", NET, "b.net", "c"],
            "'best' wants NETWORK; 'b.net' is one too many",
        ),
        (
            &["rate", NET],
            "'rate' wants NETWORK SHEET-OR-FOLDER..; SHEET-OR-FOLDER is missing",
        ),
        (
            &["better", NET, "a.sheet"],
            "'better' wants NETWORK SHEET SHEET; SHEET is missing",
        ),
        (&["mark", NET], "'mark' wants NETWORK SHEET-OR-FOLDER"),
        (
            &["wanted"],
            "'wanted' wants NETWORK GAP; NETWORK is missing",
        ),
        (
            &["wanted", NET],
            "'wanted' wants NETWORK GAP; GAP is missing",
        ),
        (&["wanted", NET, "3", "4"], "'4' is one too many"),
        (&["archive"], "'archive' wants NETWORK"),
        (&["archive", NET, NET], "'archive' wants NETWORK"),
        (&["same", NET], "'same' wants NETWORK NETWORK"),
        (&["same", NET, NET, "c.net"], "'c.net' is one too many"),
        (&["rate", "-", "-"], "one file only"),
        (&["same", "-", "-", "--typed"], "one file only"),
    ]);
}

#[test]
fn bad_operands_of_an_explanation() {
    all_are_told(&[
        (
            &["explain", NET],
            "'explain' wants NETWORK SHEET; SHEET is missing",
        ),
        (
            &["explain", NET, "a.sheet", "b.sheet"],
            "'b.sheet' is one too many",
        ),
    ]);
}

#[test]
fn options_that_are_none() {
    all_are_told(&[
        (&["best", NET, "--fast"], "'best' has no option '--fast'\n"),
        (&["best", NET, "-q"], "no option '-q'"),
        (
            &["best", NET, "--budgte", "5"],
            "'--budgte'; did you mean '--budget'?",
        ),
        (
            &["best", NET, "--bugdet=5"],
            "'--bugdet=5'; did you mean '--budget'?",
        ),
        (
            &["best", NET, "-quiet"],
            "'-quiet'; did you mean '--quiet'?",
        ),
    ]);
}

#[test]
fn options_that_a_verb_has_not() {
    all_are_told(&[
        // What the verb hasn't isn't what was meant.
        (&["read", NET, "--qiet"], "'read' has no option '--qiet'\n"),
        (&["read", NET, "--quiet"], "no option '--quiet'\n"),
        (&["best", NET, "--rows"], "no option '--rows'"),
        (&["best", NET, "--sheet-bytes"], "no option '--sheet-bytes'"),
        (&["archive", NET, "--rows"], "no option '--rows'"),
        (&["read", NET, "--raw"], "no option '--raw'"),
        (&["same", NET, NET, "--raw"], "no option '--raw'"),
        (
            &["rate", NET, "a.sheet", "--budget", "1"],
            "'rate' searches nothing and has no budget",
        ),
        (&["archive", NET, "--budget=1"], "has no budget"),
        (&["wanted", NET, "3", "--sheet"], "no option '--sheet'"),
        (&["mark", NET, "a.sheet", "--key=b"], "no option '--key'"),
        (&["wanted", NET, "3", "--csv"], "no option '--csv'"),
        (&["rate", NET, "a.sheet", "--from=1"], "no option '--from'"),
        (
            &["board", NET, "a.sheet", "0", "--csv"],
            "no option '--csv'",
        ),
        (
            &["board", NET, "a.sheet", "0", "--budget=1"],
            "'board' searches nothing and has no budget",
        ),
    ]);
}

#[test]
fn options_that_cannot_be() {
    all_are_told(&[
        (&["best", NET, "--typed=no"], "--typed takes no value"),
        (
            &["best", NET, "--typed", "--bytes"],
            "--typed and --bytes contradict each other",
        ),
        (
            &["best", NET, "--bytes", "--typed"],
            "--bytes and --typed contradict each other",
        ),
        (
            &["best", NET, "--quiet", "--quiet"],
            "--quiet is given twice",
        ),
    ]);
}

#[test]
fn bad_budgets() {
    all_are_told(&[
        (&["best", NET, "--budget"], "--budget wants a number"),
        (
            &["best", NET, "--budget", "-1"],
            "the budget '-1' isn't a number of 0 to 4294967295",
        ),
        (
            &["best", NET, "--budget", "4294967296"],
            "budget '4294967296'",
        ),
        (&["best", NET, "--budget", "+5"], "budget '+5'"),
        (&["best", NET, "--budget="], "budget ''"),
        (&["best", NET, "--budget", "５"], "budget '５'"),
        (
            &["best", NET, "--budget=1", "--budget", "2"],
            "--budget is given twice",
        ),
    ]);
}

/// A gap that is no whole number of 16 bits is explained, also where it looks like
/// an option, and before any file is looked for.
#[test]
fn bad_gaps() {
    let gaps = [
        "-1",
        "-65535",
        "65536",
        "4294967296",
        "+5",
        "",
        " 3",
        "3.5",
        "0x3",
        "five",
        "max",
        "５",
        "-",
        NET,
    ];
    for gap in gaps {
        let words = format!("exam: the gap '{gap}' isn't a whole number of 0 to 65535\n");
        for network in [NET, "absent.net"] {
            exam(&["wanted", network, gap]).said(
                "",
                2,
                &format!("{words}try: exam wanted --help\n"),
            );
        }
    }
    exam(&["wanted", NET, "\u{1B}[2J"]).told("", 2, &["the gap '\\u{1b}[2J' isn't"]);
    all_are_told(&[
        (&["wanted", NET, "-x"], "'wanted' has no option '-x'\n"),
        (&["wanted", NET, "-5x"], "'wanted' has no option '-5x'\n"),
        (&["wanted", NET, "--", "-5"], "the gap '-5' isn't"),
        // What is no number elsewhere stays an option that isn't there.
        (&["best", NET, "-5"], "'best' has no option '-5'\n"),
    ]);
}

/// A stop that is no number of 32 bits and no name, also where it looks like an option,
/// and before any file is looked for.
#[test]
fn bad_stops() {
    for stop in [
        "-1",
        "-63",
        "4294967296",
        "+5",
        "",
        " 3",
        "3.5",
        "５",
        "-",
        "'",
    ] {
        let words = format!("exam: the stop '{stop}' is neither a number of 0 to 63 nor a name\n");
        let said = format!("{words}try: exam board --help\n");
        exam(&["board", "absent.net", "absent.sheet", stop]).said("", 2, &said);
    }
}

#[test]
fn bad_operands_of_a_board() {
    all_are_told(&[
        (
            &["board", NET, "a.sheet"],
            "'board' wants NETWORK SHEET STOP; STOP is missing",
        ),
        (&["board", NET], "NETWORK SHEET STOP; SHEET is missing"),
        (&["board", NET, "a.sheet", "0", "1"], "'1' is one too many"),
        (&["board", "-", "-", "0"], "one file only"),
        (
            &["board", NET, "a.sheet", "-x"],
            "'board' has no option '-x'\n",
        ),
        (
            &["board", NET, "a.sheet", "--", "-5"],
            "the stop '-5' is neither",
        ),
    ]);
}

/// Minutes and lengths that are no whole numbers of 32 bits.
#[test]
fn bad_windows() {
    let board = ["board", "absent.net", "absent.sheet", "0"];
    let range = "isn't a whole number of -2147483648 to 2147483647\n";
    for first in [
        "2147483648",
        "-2147483649",
        "",
        "-",
        "+-3",
        "1.5",
        "x",
        "５",
        "\u{2212}5",
    ] {
        let message = format!("exam: the first minute '{first}' {range}");
        exam(&[&board[..], &["--from", first]].concat()).told("", 2, &[&message]);
    }
    for length in ["4294967296", "-1", "+5", "", "1.5", "max", "５"] {
        let message = format!("exam: the length '{length}' isn't a whole number of 0 to 10080\n");
        exam(&[&board[..], &["--length", length]].concat()).told("", 2, &[&message]);
    }
    let told = |more: &[&str], message: &str| {
        exam(&[&board[..], more].concat()).told("", 2, &[message, "\ntry: exam board --help"]);
    };
    told(&["--from"], "--from wants a minute\n");
    told(&["--length"], "--length wants a number of minutes\n");
    told(&["--from=1", "--from", "2"], "--from is given twice\n");
    told(&["--form", "2"], "'--form'; did you mean '--from'?");
    told(&["--lenght=2"], "'--lenght=2'; did you mean '--length'?");
}

/// Behind `--` a name may begin with a dash; `-` alone stays standard input.
#[test]
fn names_that_begin_with_a_dash() {
    let folder = Folder::new();
    folder.file("--help", "4C000F 4300000008 45");
    folder.file("-s.sheet", "5");
    let there = |words: &[&str]| {
        let mut command = command(words);
        ended(
            command
                .current_dir(folder.path())
                .spawn()
                .expect("exam starts"),
        )
    };
    let words = ["rate", "--typed", "--", "--help", "-s.sheet"];
    there(&words).printed("gap 15 sum 15\n", 0);
    there(&["rate", "--typed", "./--help", "-s.sheet"]).told("", 2, &["no option '-s.sheet'"]);
    there(&["read", "--typed", "--", "--", "-x"]).told("", 2, &["'-x' is one too many"]);
    there(&["read", "--", "--typed"]).told("", 2, &["--typed: there is no such file"]);
    exam_with(&["read", "--typed", "--", "-"], P9.as_bytes()).told(
        "lines 2 stops 3 calls 6 cycle 60\n",
        0,
        &[],
    );
}

#[test]
fn bad_usage_of_plans() {
    let cases: [(&[&str], &str); 10] = [
        (&["show"], "'show' wants NETWORK"),
        (&["show", NET, NET], "'show' wants NETWORK"),
        (&["show", NET, "--raw"], "no option '--raw'"),
        (&["plan"], "'plan' wants NETWORK"),
        (&["plan", NET, "--raw"], "no option '--raw'"),
        (&["type"], "'type' wants NETWORK"),
        (&["type", NET, "--rows"], "no option '--rows'"),
        (&["best", NET, "--plan", "--typed"], "contradict"),
        (&["best", NET, "--bytes", "--plan"], "contradict"),
        (&["same", "-", "-", "--plan"], "one file only"),
    ];
    for (words, message) in cases {
        exam(words).told("", 2, &[message, "try: exam"]);
    }
}

#[test]
fn help_for_each_verb() {
    let overview = exam(&["--help"]);
    for words in [&["help"][..], &["-h"], &["--help"]] {
        exam(words).printed(&overview.out, 0);
    }
    let verbs = [
        "read", "show", "rate", "board", "draw", "classes", "best", "wanted", "better", "mark",
        "explain", "report", "archive", "same", "plan", "type",
    ];
    for verb in verbs {
        assert!(overview.out.contains(&format!("  exam {verb} NETWORK")));
        let help = exam(&[verb, "--help"]);
        assert_eq!((help.status, help.err.as_str()), (0, ""));
        assert!(help.out.starts_with(&format!("exam {verb} NETWORK")));
        assert!(help.out.contains("Exit status: 0 done; 1 refused"));
        let searches = ["best", "wanted", "mark", "explain", "report"].contains(&verb);
        assert_eq!(help.out.contains("--budget N"), searches);
        for option in ["  --from M ", "  --length N "] {
            let has_minutes = ["board", "draw"].contains(&verb);
            assert_eq!(help.out.contains(option), has_minutes);
        }
        assert_eq!(help.out.contains("  --circle STOP "), verb == "draw");
        assert_eq!(help.out.contains("  --key SHEET "), verb == "explain");
        let writes_bytes = ["archive", "type"].contains(&verb);
        assert_eq!(help.out.contains("  --raw "), writes_bytes);
        for form in ["--plan", "--typed", "--bytes"] {
            assert!(help.out.contains(&format!("  {form} ")), "{verb} {form}");
        }
        // Help comes also where operands are there.
        exam(&[verb, NET, "-h"]).printed(&help.out, 0);
        exam(&["help", verb]).printed(&help.out, 0);
    }
}

/// The columns are as wide as the longest entry wants, in every verb's help the
/// same.
#[test]
fn help_in_columns() {
    let overview = "
  exam read NETWORK                      lines, stops, calls and common cycle
  exam show NETWORK                      what was read, in decimal, for proofreading
  exam rate NETWORK SHEET-OR-FOLDER..    a sheet's rating: least gap, sum of gaps
  exam board NETWORK SHEET STOP          every arrival at a stop under a sheet
  exam draw NETWORK SHEET FILE.svg       a picture of a timetable
  exam classes NETWORK                   which stops always rate alike
  exam best NETWORK                      the best timetable
  exam wanted NETWORK GAP                a timetable with at least this gap, or none
  exam better NETWORK SHEET SHEET        the better of two sheets
  exam mark NETWORK SHEET-OR-FOLDER..    a sheet, or each of a folder, against the best
  exam explain NETWORK SHEET             where a sheet loses, and why
  exam report NETWORK FOLDER OUT.html    a sitting as one page, with pictures
  exam archive NETWORK                   the one file of a network that is kept
  exam same NETWORK NETWORK              whether two files are of one network
  exam plan NETWORK                      a network as a plan, with names and decimal numbers
  exam type NETWORK                      a plan in hexadecimal, or as bytes
  exam VERB --help                       more about a verb
  exam --version                         this command and its engine

NETWORK: a name";
    assert!(exam(&["--help"]).out.contains(overview));
}

/// The same of a verb's options.
#[test]
fn options_in_columns() {
    let options = "
Options:
  --plan            the network is a plan, whatever its name
  --typed           the network is typed text, whatever its name
  --bytes           the network is bytes, whatever its name
  --sheet-numbers   a sheet is whole numbers, whatever its name
  --sheet-bytes     a sheet is bytes, whatever its name
  --budget N        stop after N tries, 0 to 4294967295 or max (otherwise 1000000)
  --quiet           no sign of life on standard error during a long search
  --ranked          the largest marks first, then remainders, then by name
  --csv             print a record with a row for each sheet, as CSV
  --json            print a record with a row for each sheet, as JSON

Exit status: ";
    assert!(exam(&["mark", "--help"]).out.contains(options));
    let options = "
Options:
  --plan            the network is a plan, whatever its name
  --typed           the network is typed text, whatever its name
  --bytes           the network is bytes, whatever its name
  --rows            print the class row and the weight row, 64 numbers each

Exit status: ";
    assert!(exam(&["classes", "--help"]).out.contains(options));
    let options = "
  --sheet-bytes     a sheet is bytes, whatever its name
  --from M          begin at minute M, which may be negative (otherwise 0)
  --length N        take N minutes, 0 to 10080 (otherwise one common cycle)

Exit status: ";
    assert!(exam(&["board", "--help"]).out.contains(options));
    let options = "
  --length N        take N minutes, 0 to 10080 (otherwise one common cycle)
  --circle STOP     draw the arrivals at this stop on a circle

Exit status: ";
    assert!(exam(&["draw", "--help"]).out.contains(options));
}
