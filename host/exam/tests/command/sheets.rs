//! Several sheets at once: folders, lists of sheets, the tally.

use crate::common::{command, ended, exam, exam_with, Folder, HEX, ROOT};
use engine::{Ground, Sheet};
use papers::files::{any_budget, any_sheet, Dice};
use papers::small::small_file;
use std::ffi::OsStr;
use std::os::unix::ffi::OsStrExt;
use std::os::unix::fs::symlink;

const USED_UP: &str = "\
exam: the budget was used up before the best timetable was known (--budget N)
  a budget of 21 always suffices for this network
";

/// Three sheets that fit.
fn three_sheets() -> Folder {
    let folder = Folder::new();
    folder.file("b.sheet", "0 0");
    folder.file("a.sheet", "0 3");
    folder.file("C.bin", [0; 8]);
    folder
}

#[test]
fn mark_of_a_folder() {
    let folder = three_sheets();
    let lines = "C.bin: gap 1 sum 1 best gap 2 sum 2 below mark 50 remainder 0 tries 21\n\
                 a.sheet: gap 2 sum 2 best gap 2 sum 2 equal mark 100 remainder 0 tries 21\n\
                 b.sheet: gap 1 sum 1 best gap 2 sum 2 below mark 50 remainder 0 tries 21\n";
    exam(&["mark", HEX, &folder.name()]).said(lines, 0, "3 sheets: 1 equal, 2 below\n");
    // Hidden files aren't sheets.
    folder.file(".hidden", "x");
    exam(&["mark", HEX, &folder.name()]).said(lines, 0, "3 sheets: 1 equal, 2 below\n");
}

/// Undecided, refused, unreadable: the gravest is the status.
#[test]
fn mark_of_a_folder_with_faults() {
    let folder = three_sheets();
    let undecided = "C.bin: undecided gap 1 sum 1 tries 3\n\
                     a.sheet: undecided gap 2 sum 2 tries 3\n\
                     b.sheet: undecided gap 1 sum 1 tries 3\n";
    let said = format!("{USED_UP}3 sheets: 3 undecided\n");
    exam(&["mark", HEX, &folder.name(), "--budget", "3"]).said(undecided, 3, &said);
    folder.file("e.sheet", "0");
    let refused = format!("{undecided}e.sheet: refused 15 at 0\n");
    let words = format!("e.sheet: refused 15 at 0: {}", Ground::SheetLength.words());
    let said = format!(
        "exam: {words}\n  lines: 2; sheet: 1 starts\n{USED_UP}4 sheets: 3 undecided, 1 refused\n"
    );
    exam(&["mark", HEX, &folder.name(), "--budget", "3"]).said(&refused, 1, &said);
    folder.file("f.sheet", "0 x");
    folder.file("notes", "0 3");
    // Reading this one would never end.
    symlink("/dev/zero", folder.path().join("zeros.bin")).expect("a link");
    let unreadable =
        format!("{refused}f.sheet: unreadable\nnotes: unreadable\nzeros.bin: unreadable\n");
    let words = [
        "zeros.bin is no plain file",
        "line 1: 'x' is no whole number",
        "notes: say --sheet-numbers",
        "7 sheets: 3 undecided, 1 refused, 3 unreadable\n",
    ];
    exam(&["mark", HEX, &folder.name(), "--budget", "3"]).told(&unreadable, 2, &words);
}

#[test]
fn mark_of_a_folder_without_marks() {
    let folder = Folder::new();
    exam(&["mark", HEX, &folder.name()]).told("", 2, &["there is no sheet in this folder"]);
    folder.file("a.sheet", "0 3");
    folder.file("b.sheet", "0 3");
    let bad = Folder::new();
    let network = bad.file("bad.hex", "4C000F 4300000008");
    let words = ["refused 1 at 8: the file ends where a command is due"];
    exam(&["mark", &network, &folder.name()]).told("refused 1 at 8\n", 1, &words);
}

/// Each line is that of the sheet marked alone, and the order that of the names.
#[test]
fn mark_of_a_full_hall() {
    let folder = Folder::new();
    let mut dice = Dice::new(93);
    let mut expected = String::new();
    for number in 100..160 {
        let starts = [0, 1, 2, 3].map(|_| (dice.below(200) as i32 - 100).to_string());
        let path = folder.file(&format!("{number}.sheet"), starts.join(" "));
        let alone = exam(&["mark", "samples/village.hex", &path]);
        assert_eq!(alone.status, 0, "{alone:?}");
        expected += &format!("{number}.sheet: {}", alone.out);
    }
    let ran = exam(&["mark", "samples/village.hex", &folder.name()]);
    ran.told(&expected, 0, &["60 sheets: "]);
}

/// What each sheet has by itself, by the engine's mark call, on seeded networks.
#[test]
fn mark_of_seeded_folders() {
    let mut dice = Dice::new(307);
    for _ in 0..40 {
        let folder = Folder::new();
        let (file, net) = small_file(&mut dice, 2_000);
        let home = Folder::new();
        let network = home.file("a.net", &file);
        let budget = any_budget(&mut dice);
        let mut expected = String::new();
        for number in 10..20 {
            let starts = any_sheet(&mut dice, net.lines());
            let words: Vec<String> = starts.iter().map(i32::to_string).collect();
            folder.file(&format!("{number}.sheet"), words.join("\n"));
            let mark = engine::mark(&file, &Sheet::of_starts(&starts), budget);
            expected += &format!("{number}.sheet: {}\n", line(mark));
        }
        let budget = budget.to_string();
        let ran = exam(&["mark", &network, &folder.name(), "--budget", &budget]);
        assert_eq!(ran.out, expected);
        assert!(ran.err.contains("10 sheets: "), "{ran:?}");
    }
}

/// The sheets of the samples, those that are text.
#[test]
fn mark_of_the_samples() {
    for (name, count) in [
        ("one_line", 1),
        ("two_lines", 3),
        ("valley", 2),
        ("village", 4),
        ("town", 4),
    ] {
        let text = std::fs::read(format!("{ROOT}/samples/{name}.hex")).expect("a sample");
        let network = engine::typed::read(&text).expect("a typed network");
        let printed = exam(&[
            "mark",
            &format!("samples/{name}.hex"),
            &format!("samples/{name}"),
            "--budget=max",
        ]);
        let mut compared = 0;
        for printed in printed.out.lines().filter(|line| line.contains(".sheet: ")) {
            let (sheet, said) = printed.split_once(": ").expect("a name");
            let text = std::fs::read_to_string(format!("{ROOT}/samples/{name}/{sheet}"));
            let starts = starts(&text.expect("a sheet"));
            let mark = engine::mark(network.bytes(), &Sheet::of_starts(&starts), u32::MAX);
            assert_eq!(said, line(mark), "{name}/{sheet}");
            compared += 1;
        }
        assert_eq!(compared, count, "{name}");
    }
}

fn starts(text: &str) -> Vec<i32> {
    let lines = text.lines().filter_map(|line| line.split('#').next());
    let words = lines.flat_map(str::split_whitespace);
    words.map(|word| word.parse().expect("a start")).collect()
}

fn line(mark: Result<engine::Mark, engine::Refusal>) -> String {
    match mark {
        Ok(engine::Mark::Decided {
            sheet,
            best,
            equal,
            hundred,
            tries,
        }) => {
            let word = if equal { "equal" } else { "below" };
            let (gap, sum) = (sheet.least, sheet.sum);
            let best = format!("best gap {} sum {}", best.least, best.sum);
            let hundred = format!("mark {} remainder {}", hundred.mark, hundred.remainder);
            format!("gap {gap} sum {sum} {best} {word} {hundred} tries {tries}")
        }
        Ok(engine::Mark::Undecided { sheet, tries }) => {
            let (gap, sum) = (sheet.least, sheet.sum);
            format!("undecided gap {gap} sum {sum} tries {tries}")
        }
        Err(refusal) => refusal.to_string(),
    }
}

#[test]
fn sheets_and_folders_mixed() {
    let folder = Folder::new();
    let one = folder.file("one.sheet", "0 3");
    let room = Folder::new();
    let [b, a] = ["b.sheet", "a.sheet"].map(|name| room.file(name, "0 0"));
    let lines = format!(
        "{one}: gap 2 sum 2 best gap 2 sum 2 equal mark 100 remainder 0 tries 21\n\
         {a}: gap 1 sum 1 best gap 2 sum 2 below mark 50 remainder 0 tries 21\n\
         {b}: gap 1 sum 1 best gap 2 sum 2 below mark 50 remainder 0 tries 21\n\
         no.sheet: unreadable\n\
         standard input: refused 15 at 0\n"
    );
    let words = [
        "mark",
        HEX,
        &one,
        &room.name(),
        "no.sheet",
        "-",
        "--sheet-numbers",
    ];
    let pieces = [
        "exam: no.sheet: there is no such file\n",
        "exam: standard input: refused 15 at 0: the sheet hasn't one start for each line\n",
        "  lines: 2; sheet: 3 starts\n",
        "5 sheets: 1 equal, 2 below, 1 refused, 1 unreadable\n",
    ];
    exam_with(&words, b"0 1 2").told(&lines, 2, &pieces);
    let lines = format!("{one}: gap 2 sum 2\n{a}: gap 1 sum 1\n{one}: gap 2 sum 2\n");
    exam(&["rate", HEX, &one, &a, &one]).said(&lines, 0, "3 sheets: 3 rated\n");
}

#[test]
fn rate_of_a_folder() {
    let folder = Folder::new();
    folder.file("a.sheet", "0 3");
    exam(&["rate", HEX, &folder.name()]).said("a.sheet: gap 2 sum 2\n", 0, "1 sheet: 1 rated\n");
    folder.file("b.sheet", "0");
    folder.file("c.sheet", "x");
    let lines = "a.sheet: gap 2 sum 2\nb.sheet: refused 15 at 0\nc.sheet: unreadable\n";
    let pieces = [
        "sheet: 1 starts",
        "3 sheets: 1 rated, 1 refused, 1 unreadable\n",
    ];
    exam(&["rate", HEX, &folder.name()]).told(lines, 2, &pieces);
    let network = Folder::new().file("bad.hex", "4C000F 4300000008");
    exam(&["rate", &network, &folder.name()]).told("", 2, &["there is no such file"]);
}

/// Nothing is passed over in silence, and an empty room doesn't keep the others
/// from their marks.
#[test]
fn folders_within_folders_and_empty_ones() {
    let folder = Folder::new();
    let sheet = folder.file("a.sheet", "0 3");
    let within = folder.path().join("d.sheet");
    std::fs::create_dir(&within).expect("a folder");
    let line = "a.sheet: gap 2 sum 2 best gap 2 sum 2 equal mark 100 remainder 0 tries 21\n";
    let left_out = format!(
        "exam: {} is a folder; no sheet in it is taken\n",
        within.display()
    );
    let said = format!("{left_out}1 sheet: 1 equal\n");
    exam(&["mark", HEX, &folder.name()]).said(line, 0, &said);
    let empty = Folder::new();
    let line = format!("{sheet}: gap 2 sum 2\n");
    let said = format!(
        "{left_out}exam: {}: there is no sheet in this folder\n1 sheet: 1 rated\n",
        empty.name()
    );
    exam(&["rate", HEX, &empty.name(), &folder.name()]).said(&line, 2, &said);
}

/// Where no sheet fits, nothing is searched for: this search would take hours.
#[test]
fn no_search_where_no_sheet_fits() {
    let folder = Folder::new();
    folder.file("a.sheet", "0 3");
    let network = Folder::new();
    let calls: String = (0..16)
        .map(|line| format!("43 {line:02X} 00 0000\n"))
        .collect();
    let text = format!("{}{calls}45", "4C 05A0\n".repeat(16));
    let network_file = network.file("days.hex", text);
    let ran = exam(&["mark", &network_file, &folder.name(), "--budget", "max"]);
    ran.told("a.sheet: refused 15 at 0\n", 1, &["1 sheet: 1 refused\n"]);
}

/// A name never sends what a terminal would obey.
#[test]
fn names_with_control_characters() {
    let folder = Folder::new();
    let name = OsStr::from_bytes(b"a\x1B[2J\n\xFF.sheet");
    std::fs::write(folder.path().join(name), "0 x\x1B[2J").expect("a file");
    let ran = exam(&["mark", HEX, &folder.name()]);
    assert!(ran.out.ends_with(".sheet: unreadable\n"), "{ran:?}");
    assert_eq!((ran.status, ran.out.lines().count()), (2, 1));
    assert!(ran.err.ends_with("\n1 sheet: 1 unreadable\n"));
    assert!(!ran.out.contains('\u{1B}') && !ran.err.contains('\u{1B}'));
    let path = folder.path().join(name);
    let mut both = command(&["rate", HEX, "samples/two_lines/perfect.sheet"]);
    let ran = ended(both.arg(path).spawn().expect("exam starts"));
    assert!(!ran.out.contains('\u{1B}') && !ran.err.contains('\u{1B}'));
    assert_eq!((ran.status, ran.out.lines().count()), (2, 2));
}
