//! `exam best`.

use crate::common::{exam, exam_with, Folder, BEST_LINE, HEX, NET, P9};
use papers::files::{any_file, dense_file, Dice};
use papers::sections::best::best;

#[test]
fn best_prints_the_papers_line() {
    exam(&["best", NET]).printed(BEST_LINE, 0);
    exam(&["best", HEX]).printed(BEST_LINE, 0);
    exam(&["best", HEX, "--budget", "21"]).printed(BEST_LINE, 0);
    exam(&["best", "--budget=4294967295", HEX]).printed(BEST_LINE, 0);
    exam(&["best", "--budget", "max", HEX]).printed(BEST_LINE, 0);
    exam_with(&["best", "-", "--typed"], P9.as_bytes())
        .printed("gap 3 sum 11 tries 31 starts 0 4\n", 0);
}

/// P4, P5 and P6 of document 01.
#[test]
fn best_stopped() {
    let words = [
        "the budget",
        "--budget N",
        "  a budget of 21 always suffices",
    ];
    let line = "stopped gap 2 sum 2 tries 20 starts 0 3\n";
    exam(&["best", NET, "--budget", "20"]).told(line, 3, &words);
    let line = "stopped gap 1 sum 1 tries 2 starts 0 0\n";
    exam(&["best", NET, "--budget", "2"]).told(line, 3, &words);
    exam(&["best", NET, "--budget", "1"]).told("stopped tries 1\n", 3, &words);
    exam(&["best", NET, "--budget", "0"]).told("stopped tries 0\n", 3, &words);
}

/// Which of two budgets was meant nobody says.
#[test]
fn bad_budgets() {
    exam(&["best", NET, "--budget", "MAX"]).told("", 2, &["budget 'MAX'", "or max"]);
    for second in [&["--budget", "20"][..], &["--budget=max"]] {
        let words = [&["best", NET, "--budget", "max"], second].concat();
        exam(&words).told("", 2, &["--budget is given twice", "try: exam best --help"]);
    }
}

/// A large budget is searched in stages: the answer is that of one call, where a
/// stage finishes, where the last one does and where none does.
#[test]
fn best_with_a_large_budget() {
    let town = "gap 3 sum 201 tries 3080311 starts 0 5 9 2 7 17 0 4 10\n";
    for budget in ["20000000", "40000000", "max"] {
        let ran = exam(&["best", "samples/town.hex", "--budget", budget]);
        assert_eq!((ran.out.as_str(), ran.status), (town, 0));
    }
    let file = dense_file(&mut Dice::new(3), 16, 64);
    let words = ["best", "-", "--bytes", "--budget", "10000000"];
    let ran = exam_with(&words, &file);
    let quiet = exam_with(&[&words[..], &["--quiet"]].concat(), &file);
    assert_eq!((ran.out.as_str(), ran.status), (quiet.out.as_str(), 3));
    assert!(ran
        .err
        .contains("tries always suffice for this network, more than"));
}

/// The best timetable as a sheet, which marks as equal.
#[test]
fn best_as_a_sheet() {
    let key = "# the best of the network with crc32 aced792e: gap 2 sum 2, tries 21\n0 3\n";
    exam(&["best", HEX, "--sheet"]).printed(key, 0);
    let folder = Folder::new();
    for name in ["one_line", "two_lines", "valley", "village", "town"] {
        let network = format!("samples/{name}.hex");
        let printed = exam(&["best", &network, "--sheet", "--quiet", "--budget", "max"]);
        let sheet = folder.file("key.sheet", &printed.out);
        let marked = exam(&["mark", &network, &sheet, "--quiet", "--budget", "max"]).out;
        assert!(
            marked.contains(" equal mark 100 remainder 0 tries "),
            "{marked}"
        );
        let rating = exam(&["rate", &network, &sheet]).out;
        assert!(printed
            .out
            .contains(&format!(": {}, tries ", rating.trim())));
    }
}

/// What may be beaten is no key.
#[test]
fn no_sheet_of_a_stopped_search() {
    let words = "exam: no sheet: stopped gap 2 sum 2 tries 20 starts 0 3\n\
                 exam: the budget is used up; there may be a better timetable (--budget N)\n  \
                 a budget of 21 always suffices for this network\n";
    exam(&["best", HEX, "--sheet", "--budget", "20"]).said("", 3, words);
    exam(&["best", HEX, "--sheet", "--budget", "1"]).told("", 3, &["no sheet: stopped tries 1\n"]);
    let refused = ["refused 5 at 0: the period"];
    exam_with(&["best", "--sheet", "--typed", "-"], b"4C05A1").told(
        "refused 5 at 0\n",
        1,
        &refused,
    );
}

/// The same line as document 01's program for files of every kind.
#[test]
fn best_on_seeded_files() {
    let mut dice = Dice::new(91);
    let mut refused = 0;
    for _ in 0..150 {
        let file = any_file(&mut dice);
        let ran = exam_with(&["best", "-", "--bytes", "--quiet"], &file);
        let line = best(&file);
        assert_eq!(ran.out, line);
        let status = match line.split(' ').next() {
            Some("refused") => 1,
            Some("stopped") => 3,
            _ => 0,
        };
        assert_eq!(ran.status, status, "{line}");
        refused += usize::from(status == 1);
    }
    assert!((30..120).contains(&refused), "{refused} refused");
}
