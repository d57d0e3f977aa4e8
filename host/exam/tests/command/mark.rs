//! `exam mark` of one sheet.

use crate::common::{exam, exam_with, Folder, HEX, P9};

#[test]
fn mark_prints_both_ratings() {
    let folder = Folder::new();
    let zeros = folder.file("zeros.sheet", "0 0");
    let good = folder.file("good.sheet", "0 3");
    let line = "gap 2 sum 2 best gap 2 sum 2 equal mark 100 remainder 0 tries 21\n";
    exam(&["mark", HEX, &good]).printed(line, 0);
    let line = "gap 1 sum 1 best gap 2 sum 2 below mark 50 remainder 0 tries 21\n";
    exam(&["mark", HEX, &zeros]).printed(line, 0);
    exam_with(&["mark", HEX, "-", "--sheet-numbers"], b"0 0").printed(line, 0);
    exam_with(&["mark", HEX, "-", "--sheet-bytes"], &[0; 8]).printed(line, 0);
    let line = "undecided gap 1 sum 1 tries 20\n";
    exam(&["mark", HEX, &zeros, "--budget", "20"]).told(line, 3, &["the budget"]);
}

/// The bound is 1 + 20, by the period after the first.
#[test]
fn mark_undecided_says_which_budget_suffices() {
    let folder = Folder::new();
    let zeros = folder.file("zeros.sheet", "0 0");
    let ran = exam(&["mark", HEX, &zeros, "--budget", "20"]);
    let words = "exam: the budget was used up before the best timetable was known (--budget N)\n  \
                 a budget of 21 always suffices for this network\n";
    assert_eq!(ran.err, words);
    let decided = exam(&["mark", HEX, &zeros, "--budget", "21"]);
    decided.printed(
        "gap 1 sum 1 best gap 2 sum 2 below mark 50 remainder 0 tries 21\n",
        0,
    );
}

/// Of one sheet there is nothing else to say, with signs of life or without.
#[test]
fn mark_of_one_sheet_quietly() {
    let folder = Folder::new();
    let zeros = folder.file("zeros.sheet", "0 0");
    let line = "gap 1 sum 1 best gap 2 sum 2 below mark 50 remainder 0 tries 21\n";
    exam(&["mark", HEX, &zeros, "--quiet"]).printed(line, 0);
    exam(&["mark", "--quiet", HEX, &zeros, "--budget=max"]).printed(line, 0);
}

/// Marks sheets, each by its starts, and compares the lines from the sheet's gap on.
fn marked(network: &str, lines: &[(&str, &str)]) {
    let folder = Folder::new();
    let network = folder.file("a.hex", network);
    for (starts, line) in lines {
        let sheet = folder.file("a.sheet", starts);
        exam(&["mark", &network, &sheet]).printed(&format!("gap {line}\n"), 0);
    }
}

/// The marks of cases that can be worked out by hand: by 3, by 12 and by 720.
#[test]
fn marks_out_of_a_hundred() {
    let three = "4C000A 4C000A 4C000A 4300000000 4301000000 4302000000 45";
    let lines = [
        (
            "0 1 5",
            "1 sum 1 best gap 3 sum 3 below mark 33 remainder 1 tries 51",
        ),
        (
            "0 2 5",
            "2 sum 2 best gap 3 sum 3 below mark 66 remainder 2 tries 51",
        ),
        (
            "0 0 0",
            "0 sum 0 best gap 3 sum 3 below mark 0 remainder 0 tries 51",
        ),
    ];
    marked(three, &lines);
    let lone = "4C003C 4C003C 4C000C 4300000000 4301000000 4302010000 45";
    let line = "5 sum 17 best gap 12 sum 42 below mark 41 remainder 8 tries 433";
    marked(lone, &[("0 5 0", line)]);
    let day = "4C05A0 4C05A0 4300000000 4301000000 45";
    let lines = [
        (
            "0 719",
            "719 sum 719 best gap 720 sum 720 below mark 99 remainder 620 tries 1441",
        ),
        (
            "0 1",
            "1 sum 1 best gap 720 sum 720 below mark 0 remainder 100 tries 1441",
        ),
    ];
    marked(day, &lines);
}

/// Sums don't enter: a mark of 100 isn't yet the best, and beside a best least gap of
/// 0 there is no other mark.
#[test]
fn a_hundred_and_below() {
    let line = "3 sum 10 best gap 3 sum 11 below mark 100 remainder 0 tries 31";
    marked(P9, &[("0 3", line)]);
    let line = "0 sum 0 best gap 0 sum 0 equal mark 100 remainder 0 tries 2";
    marked("4C0001 4C0001 4300000000 4301000000 45", &[("0 3", line)]);
    let network = "4C0001 4C0001 4C0006 4C0006 4300000000 4301000000 4300010000 4302010000 \
                   4302020000 4303020000 45";
    let line = "0 sum 0 best gap 0 sum 3 below mark 100 remainder 0 tries 14";
    marked(network, &[("0 0 0 0", line)]);
}
