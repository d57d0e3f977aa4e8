//! `exam mark --ranked`: the largest mark first.

use crate::common::{exam, Folder, HEX};
use crate::parsed::{csv, json, Fields};
use papers::files::{any_sheet, Dice};
use papers::small::small_file_for_gaps;
use std::cmp::Reverse;

/// P7 of document 01: three lines of 10 minutes at one stop, whose best least gap is 3.
const P7: &str = "4C000A 4C000A 4C000A 4300000000 4301000000 4302000000 45";

/// Sheets of every kind for that network, which in name order aren't ranked.
fn hall() -> Folder {
    let folder = Folder::new();
    for (name, content) in [
        ("anna.sheet", "0 0 0"),
        ("ben.sheet", "0 2 5"),
        ("carl.sheet", "0"),
        ("dora.sheet", "0 1 5"),
        ("emil.sheet", "0 3 6"),
        ("finn.sheet", "x"),
        ("gina.sheet", "3 1 5"),
        ("hugo.sheet", "6 0 3"),
    ] {
        folder.file(name, content);
    }
    folder
}

const LINES: &str = "\
emil.sheet: gap 3 sum 3 best gap 3 sum 3 equal mark 100 remainder 0 tries 51
hugo.sheet: gap 3 sum 3 best gap 3 sum 3 equal mark 100 remainder 0 tries 51
ben.sheet: gap 2 sum 2 best gap 3 sum 3 below mark 66 remainder 2 tries 51
gina.sheet: gap 2 sum 2 best gap 3 sum 3 below mark 66 remainder 2 tries 51
dora.sheet: gap 1 sum 1 best gap 3 sum 3 below mark 33 remainder 1 tries 51
anna.sheet: gap 0 sum 0 best gap 3 sum 3 below mark 0 remainder 0 tries 51
carl.sheet: refused 15 at 0
finn.sheet: unreadable
";

/// A folder by its marks; the same lines as in name order, the same tally, and the
/// same status.
#[test]
fn a_folder_by_its_marks() {
    let (home, folder) = (Folder::new(), hall());
    let network = home.file("p7.hex", P7);
    let words = ["mark", &network, &folder.name()];
    let ranked = exam(&[&words[..], &["--ranked"]].concat());
    let pieces = ["8 sheets: 2 equal, 4 below, 1 refused, 1 unreadable\n"];
    ranked.told(LINES, 2, &pieces);
    let by_name = exam(&words);
    assert_eq!((by_name.status, &by_name.err), (2, &ranked.err));
    let mut sorted: Vec<&str> = LINES.lines().collect();
    sorted.sort();
    assert_eq!(by_name.out.lines().collect::<Vec<&str>>(), sorted);
}

/// Borderline sheets: where the best least gap is above 100, several have one mark, and
/// the remainder ranks them. Two lines of a day can be 720 minutes apart.
#[test]
fn borderline_sheets_by_their_remainders() {
    let (home, folder) = (Folder::new(), Folder::new());
    let network = home.file("day.hex", "4C05A0 4C05A0 4300000000 4301000000 45");
    for (name, gap) in [("a", 713), ("b", 719), ("c", 712), ("d", 714)] {
        folder.file(&format!("{name}.sheet"), format!("0 {gap}"));
    }
    let ranked = exam(&["mark", &network, &folder.name(), "--ranked"]);
    let of = |name: &str, gap: u32, rest: &str| {
        format!(
            "{name}.sheet: gap {gap} sum {gap} best gap 720 sum 720 below mark {rest} tries 1441\n"
        )
    };
    let lines = [
        of("b", 719, "99 remainder 620"),
        of("d", 714, "99 remainder 120"),
        of("a", 713, "99 remainder 20"),
        of("c", 712, "98 remainder 640"),
    ];
    ranked.told(&lines.concat(), 0, &["4 sheets: 4 below\n"]);
}

/// Sums don't enter: of one mark and remainder it is by name, the one that is below
/// before those that are equal, as in name order.
#[test]
fn below_before_equal_by_name() {
    let words = ["mark", "samples/village.hex", "samples/village"];
    let ranked = exam(&[&words[..], &["--ranked"]].concat());
    let kinds: Vec<&str> = ranked
        .out
        .lines()
        .filter_map(|line| line.split(' ').nth(10))
        .collect();
    assert_eq!(kinds, ["below", "equal", "equal"]);
    assert_eq!(ranked.out, exam(&words).out);
}

/// Several operands too, by the names that they have there.
#[test]
fn several_sheets_by_their_marks() {
    let folder = Folder::new();
    let [zeros, best, short] = [("c", "0 0"), ("b", "0 3"), ("a", "0")]
        .map(|(name, starts)| folder.file(&format!("{name}.sheet"), starts));
    let room = Folder::new();
    let other = room.file("a.sheet", "1 1");
    let mut below = [&zeros, &other];
    below.sort();
    let of = |name: &str, rest: &str| format!("{name}: gap {rest} tries 21\n");
    let equal = of(&best, "2 sum 2 best gap 2 sum 2 equal mark 100 remainder 0");
    let below = below.map(|name| of(name, "1 sum 1 best gap 2 sum 2 below mark 50 remainder 0"));
    let lines = format!("{equal}{}{short}: refused 15 at 0\n", below.concat());
    let words = ["mark", HEX, &zeros, &short, &room.name(), &best, "--ranked"];
    exam(&words).told(&lines, 1, &["4 sheets: 1 equal, 2 below, 1 refused\n"]);
}

/// Undecided sheets have no mark: they stand among those that are refused or can't be
/// read, by name.
#[test]
fn without_marks_by_name() {
    let (home, folder) = (Folder::new(), hall());
    let network = home.file("p7.hex", P7);
    let words = ["mark", &network, &folder.name(), "--budget", "50"];
    let by_name = exam(&words);
    assert!(by_name
        .out
        .starts_with("anna.sheet: undecided gap 0 sum 0 tries 50\n"));
    let ranked = exam(&[&words[..], &["--ranked"]].concat());
    assert_eq!((ranked.out, ranked.status), (by_name.out, by_name.status));
}

/// Of one sheet there is nothing to rank, and ranking is of marks.
#[test]
fn of_one_sheet_and_of_other_verbs() {
    let sheet = "samples/two_lines/beaten.sheet";
    let line = "gap 1 sum 1 best gap 2 sum 2 below mark 50 remainder 0 tries 21\n";
    exam(&["mark", HEX, sheet, "--ranked"]).printed(line, 0);
    let words = "'rate' has no option '--ranked'\n";
    exam(&["rate", HEX, sheet, "--ranked"]).told("", 2, &[words]);
    exam(&["best", HEX, "--ranked"]).told("", 2, &["no option '--ranked'"]);
    let help = exam(&["mark", "--help"]).out;
    assert!(help.contains("\n  --ranked  "), "{help}");
    assert!(help.contains("Sums don't enter"), "{help}");
}

fn number(row: &Fields, name: &str) -> Option<u32> {
    let text = row[name].as_ref();
    text.map(|text| text.parse().expect("a number"))
}

/// Rows beside each other that stand so by their marks.
fn parted(rows: &[Fields]) -> usize {
    let marks = |pair: &&[Fields]| {
        let [one, other] = [0, 1].map(|at| number(&pair[at], "mark"));
        other.is_some() && one > other
    };
    rows.windows(2).filter(marks).count()
}

/// The record of seeded halls: the rows are those in name order, and their order is
/// that of mark, remainder and name.
#[test]
fn records_by_their_marks() {
    let mut dice = Dice::new(310);
    let (mut moved, mut by_mark) = (0, 0);
    for _ in 0..20 {
        let (file, net) = small_file_for_gaps(&mut dice, 2_000);
        let (home, folder) = (Folder::new(), Folder::new());
        let network = home.file("a.net", &file);
        for number in 10..22 {
            let starts = any_sheet(&mut dice, net.lines());
            let words: Vec<String> = starts.iter().map(i32::to_string).collect();
            folder.file(&format!("{number}.sheet"), words.join(" "));
        }
        let folder = folder.name();
        let printed =
            |form, more: &[&str]| exam(&[&["mark", &network, &folder, form], more].concat()).out;
        let rows = csv(&printed("--csv", &["--ranked"]));
        assert_eq!(rows, json(&printed("--json", &["--ranked"])));
        let mut sorted = csv(&printed("--csv", &[]));
        moved += usize::from(rows != sorted);
        sorted.sort_by_key(|row| {
            let marks = ["mark", "remainder"].map(|name| Reverse(number(row, name)));
            (marks, row["name"].clone())
        });
        assert_eq!((rows.len(), &rows), (12, &sorted));
        by_mark += parted(&rows);
    }
    assert!(
        moved > 10 && by_mark > 20,
        "{moved} of 20 halls are ranked otherwise than by name, {by_mark} rows by marks"
    );
}
