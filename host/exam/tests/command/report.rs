//! `exam report`: the page, what is on it, and when there is none.

use crate::common::xml::{checked, Element};
use crate::common::{command, ended, exam, exam_with, Folder, Ran, HEX, ROOT};
use engine::{Mark, Refusal, Sheet};
use papers::files::{any_sheet, sheet_bytes, Dice};
use papers::small::small_file_for_gaps;
use std::ffi::OsStr;
use std::os::unix::ffi::OsStrExt;

const VILLAGE: [&str; 2] = ["samples/village.plan", "samples/village"];

/// A page as XML, in which nothing is loaded from elsewhere.
pub fn read(page: &str) -> Element {
    let root = page.strip_prefix("<!DOCTYPE html>\n").expect("a doctype");
    let plain = root.replace("xmlns=\"http://www.w3.org/2000/svg\"", "");
    for piece in [
        "http", "src=", "@import", "url(", "<link", "<iframe", "srcset", "data:",
    ] {
        assert!(!plain.contains(piece), "{piece} in {page}");
    }
    let root = checked(root);
    assert_eq!((root.name.as_str(), root.get("lang")), ("html", Some("en")));
    for name in ["title", "header", "nav", "main", "h1"] {
        assert_eq!(
            root.named(name)
                .iter()
                .filter(|it| !in_picture(&root, it))
                .count(),
            1,
            "{name}"
        );
    }
    root
}

/// Whether an element is part of a picture.
fn in_picture(root: &Element, element: &Element) -> bool {
    let pictures = root.named("svg");
    pictures
        .iter()
        .any(|svg| svg.all().any(|part| std::ptr::eq(part, element)))
}

/// The page of a network and sheets, on standard output.
fn page(network: &str, sheets: &str, more: &[&str]) -> (Element, Ran) {
    let ran = exam(&[&["report", network, sheets, "-"], more].concat());
    (read(&ran.out), ran)
}

/// All text of an element, whatever is within it.
fn words(element: &Element) -> String {
    let texts: Vec<String> = element.all().map(Element::text).collect();
    texts.concat()
}

/// The sections of the sheets, in order.
fn sections(root: &Element) -> Vec<&Element> {
    root.of_class("sheet")
}

/// The line of `exam mark` in a section.
fn line(section: &Element) -> String {
    let codes = section.named("code");
    assert_eq!(codes.len(), 1, "{section:?}");
    codes[0].text()
}

/// The rows of the table of all sheets, as texts.
fn rows(root: &Element) -> Vec<Vec<String>> {
    let tables = root.named("table");
    let table = tables.iter().find(|table| table.get("id") == Some("marks"));
    let rows = table.expect("the table").named("tr");
    let cells = |row: &&Element| row.elements().map(words).collect();
    rows.iter().map(cells).collect()
}

fn row(cells: &[&str]) -> Vec<String> {
    cells.iter().map(|cell| cell.to_string()).collect()
}

#[test]
fn the_village() {
    let [network, sheets] = VILLAGE;
    let (root, ran) = page(network, sheets, &[]);
    let said =
        "exam: too_short.sheet: refused 15 at 0: the sheet hasn't one start for each line\n  \
                lines: 4; sheet: 3 starts\n4 sheets: 2 equal, 1 below, 1 refused\n";
    assert_eq!((ran.status, ran.err.as_str()), (1, said));
    let expected = [
        row(&["Sheet", "Status", "Gap", "Sum", "Mark", "Remainder"]),
        row(&["beaten.sheet", "below", "3", "125", "100", "0"]),
        row(&["other_days.sheet", "equal", "3", "126", "100", "0"]),
        row(&["perfect.sheet", "equal", "3", "126", "100", "0"]),
        row(&["too_short.sheet", "refused", "", "", "", ""]),
    ];
    assert_eq!(rows(&root), expected);
    // The key, and the three that are rated.
    assert_eq!((root.named("svg").len(), sections(&root).len()), (4, 4));
    let marked = exam(&["mark", network, sheets]).out;
    let lines: Vec<String> = sections(&root).into_iter().map(line).collect();
    let marked: Vec<&str> = marked
        .lines()
        .filter_map(|line| Some(line.split_once(": ")?.1))
        .collect();
    assert_eq!(lines, marked);
}

/// What the heading and the sections say, word by word.
#[test]
fn the_words_of_the_page() {
    let [network, sheets] = VILLAGE;
    let (root, _) = page(network, sheets, &[]);
    let texts = words(&root);
    for piece in [
        "Marks for village.plan",
        "4 sheets: 2 equal, 1 below, 1 refused",
        "Common cycle60 minutes",
        "Edition1",
        "CRC-32e8d406b1",
        "Budget1000000 tries",
        "Search1691 tries",
        "gap 3 sum 126 tries 1691",
        "Mark 100, remainder 0: below",
        "No mark: refused",
        "lines: 4; sheet: 3 starts",
        "1 'Market bus'30at 2 stop 4 'Mill'",
        "0 'Church'line 0 'School bus' at 0line 3 'Quarry bus' at 20",
    ] {
        assert!(texts.contains(piece), "no '{piece}' in {texts}");
    }
    assert!(texts.contains(&format!("Engine{}", engine::VERSION)));
    // What decides stands there as `exam explain` says it, and where the sheet loses.
    let beaten = sections(&root)[0];
    let sheet = format!("{sheets}/beaten.sheet");
    let explained = exam(&["explain", network, &sheet]).out;
    let sentences: Vec<&str> = explained.lines().skip(2).take(3).collect();
    assert_eq!(sentences.len(), 3);
    assert!(words(beaten).contains(&sentences.join(" ")), "{beaten:?}");
    let losses = beaten.named("tbody");
    let losses: Vec<String> = losses[0].named("tr").into_iter().map(words).collect();
    let expected = "0 'Church'2930time 31, day 0, 00:31, line 3 'Quarry bus'\
                    time 60, day 0, 01:00, line 0 'School bus'";
    assert_eq!(losses, [expected]);
    let perfect = words(sections(&root)[2]);
    assert!(
        perfect.contains("At no stop is its gap smaller than the key's."),
        "{perfect}"
    );
}

/// The key's section has the rating, the starts and the picture of the best timetable.
#[test]
fn the_key_is_that_of_the_search() {
    let (root, _) = page("samples/two_lines.hex", "samples/two_lines", &[]);
    let keys = root.named("section");
    let key = keys.iter().find(|section| section.get("id") == Some("key"));
    let key = key.expect("a section");
    let texts = words(key);
    for piece in ["gap 2 sum 2 tries 21", "Starts in line order: 0 3"] {
        assert!(texts.contains(piece), "no '{piece}' in {texts}");
    }
    assert_eq!(key.named("svg").len(), 1);
}

/// Without a key the ratings and pictures are there, and the words.
#[test]
fn undecided() {
    let [network, sheets] = VILLAGE;
    let (root, ran) = page(network, sheets, &["--budget", "5"]);
    let used_up =
        "exam: the budget was used up before the best timetable was known (--budget N)\n  \
                   a budget of 36631 always suffices for this network\n\
                   4 sheets: 3 undecided, 1 refused\n";
    assert!(ran.status == 1 && ran.err.ends_with(used_up), "{ran:?}");
    assert_eq!(
        rows(&root)[1],
        row(&["beaten.sheet", "undecided", "3", "125", "", ""])
    );
    // No picture of a key.
    assert_eq!(root.named("svg").len(), 3);
    let texts = words(&root);
    for piece in [
        "so that there is no key and no sheet has a mark.",
        "a budget of 36631 always suffices for this network",
        "No mark: undecided",
        "Undecided: the best timetable isn't known, so that there is no key.",
    ] {
        assert!(texts.contains(piece), "no '{piece}' in {texts}");
    }
    assert!(!texts.contains("smaller than the key's"), "{texts}");
    let alone = exam(&[
        "report",
        network,
        "samples/village/beaten.sheet",
        "-",
        "--budget=5",
    ]);
    assert_eq!(alone.status, 3, "{alone:?}");
}

/// What is written, and what is printed of it.
#[test]
fn the_file() {
    let folder = Folder::new();
    let out = format!("{}/sitting.html", folder.name());
    let [network, sheets] = VILLAGE;
    let ran = exam(&["report", network, sheets, &out]);
    let line = format!("{out}: 4 sheets: 2 equal, 1 below, 1 refused\n");
    ran.told(&line, 1, &["exam: too_short.sheet: refused 15 at 0"]);
    let written = std::fs::read_to_string(&out).expect("the page");
    assert_eq!(written, exam(&["report", network, sheets, "-"]).out);
    // It is written over; capitals are as good.
    let ran = exam(&["report", network, "samples/village/perfect.sheet", &out]);
    ran.printed(&format!("{out}: 1 sheet: 1 equal\n"), 0);
    let page = std::fs::read_to_string(&out).expect("the page");
    assert_eq!(sections(&read(&page)).len(), 1);
    let capitals = format!("{}/A.HTML", folder.name());
    exam(&[
        "report",
        network,
        "samples/village/perfect.sheet",
        &capitals,
    ])
    .told(&format!("{capitals}: 1 sheet: 1 equal\n"), 0, &[]);
    let nowhere = format!("{}/no/a.html", folder.name());
    let words = format!("exam: {nowhere} can't be written: there is no such folder\n");
    exam(&["report", network, "samples/village/perfect.sheet", &nowhere]).said("", 2, &words);
}

/// A page among the sheets would be taken for a sheet the next time.
#[test]
fn not_among_the_sheets() {
    let folder = Folder::new();
    folder.file("a.sheet", "0 3");
    let name = folder.name();
    let other = Folder::new();
    let link = other.path().join("link");
    std::os::unix::fs::symlink(folder.path(), &link).expect("a link");
    let link = link.to_str().expect("a plain name");
    let pages = [format!("{name}/a.html"), format!("{link}/a.html")];
    for (sheets, page) in [
        (&name[..], &pages[0]),
        (&name[..], &pages[1]),
        (link, &pages[0]),
    ] {
        let words = format!(
            "exam: {page} would stand among the sheets of {sheets}, where every file is taken \
             for one: name another folder\n"
        );
        exam(&["report", HEX, sheets, page]).said("", 2, &words);
        assert!(!std::path::Path::new(page).exists());
    }
    // Beside one sheet that is named as such it may stand.
    let sheet = format!("{name}/a.sheet");
    let printed = format!("{}: 1 sheet: 1 equal\n", pages[0]);
    exam(&["report", HEX, &sheet, &pages[0]]).printed(&printed, 0);
}

/// Nothing is written where there is nothing to write of.
#[test]
fn no_file() {
    let folder = Folder::new();
    let out = format!("{}/a.html", folder.name());
    let network = folder.file("bad.hex", "4C000F 4300000008");
    let ran = exam(&["report", &network, "samples/village", &out]);
    ran.told(
        "refused 1 at 8\n",
        1,
        &["the file ends where a command is due"],
    );
    let empty = Folder::new();
    let ran = exam(&["report", HEX, &empty.name(), &out]);
    ran.told("", 2, &["there is no sheet in this folder"]);
    exam(&["report", HEX, "no.sheet", &out]).told("", 2, &["no.sheet: there is no such file"]);
    let bad = folder.file("bad.sheet", "0 x");
    exam(&["report", HEX, &bad, &out]).told("", 2, &["'x' is no whole number"]);
    let short = folder.file("short.sheet", "0");
    let ran = exam(&["report", HEX, &short, &out]);
    ran.told("refused 15 at 0\n", 1, &["lines: 2; sheet: 1 starts"]);
    assert!(!std::path::Path::new(&out).exists());
}

#[test]
fn bad_usage() {
    let good = "samples/village/perfect.sheet";
    for name in ["a.sheet", good, "html", "a.htm", ""] {
        let words = format!(
            "exam: a page isn't written to '{name}': let the name end in .html, so that no slip \
             overwrites a sheet, or say - for standard output\ntry: exam report --help\n"
        );
        exam(&["report", HEX, good, name]).said("", 2, &words);
    }
    let told = |words: &[&str], message: &str| {
        exam(&[&["report"], words].concat()).told("", 2, &[message, "\ntry: exam report --help"]);
    };
    let wants = "'report' wants NETWORK FOLDER OUT.html; ";
    told(&[HEX, good], &format!("{wants}OUT.html is missing"));
    told(
        &[HEX, good, good, "a.html"],
        &format!("{wants}'a.html' is one too many"),
    );
    told(&["-", "-", "a.html"], "one file only");
    told(&[HEX, good, "a.html", "--csv"], "no option '--csv'");
}

/// A sheet from standard input, a page to standard output.
#[test]
fn streams() {
    let words = ["report", HEX, "-", "-", "--sheet-numbers"];
    let ran = exam_with(&words, b"0 0");
    assert_eq!((ran.status, ran.err.as_str()), (0, "1 sheet: 1 below\n"));
    let expected = row(&["standard input", "below", "1", "1", "50", "0"]);
    assert_eq!(rows(&read(&ran.out))[1], expected);
}

/// Names with all that markup is made of, long ones, and one that is no text.
#[test]
fn names() {
    let folder = Folder::new();
    let home = Folder::new();
    let long = "x".repeat(60);
    let plan = format!(
        "stop 9 <none> & 'nobody'\nstop 0 <b>Market</b> & \"co\"\nstop 1 {long}\n\
         line </script><i>1 every 15\n  <b>Market</b> & \"co\" at 8\n  {long} at 9\n\
         line ]]> &amp; every 20\n  <b>Market</b> & \"co\" at 17\n"
    );
    let network = home.file("<n> & \"w\".plan", plan);
    folder.file("a<b>&\"c'.sheet", "0 0");
    folder.file(&format!("{}.sheet", "n".repeat(200)), "0 3");
    folder.file("<script>.sheet", "0 <i>x</i>");
    let odd = folder
        .path()
        .join(OsStr::from_bytes(b"odd\xFF\x1B[2J.sheet"));
    std::fs::write(odd, "0 0").expect("a file");
    let (root, ran) = page(&network, &folder.name(), &[]);
    assert_eq!(ran.status, 2, "{ran:?}");
    let texts = words(&root);
    let nested = "n".repeat(200) + ".sheet";
    for piece in [
        "Marks for <n> & \"w\".plan",
        "a<b>&\"c'.sheet",
        "odd\\xFF\\u{1b}[2J.sheet",
        &nested,
        "<script>.sheet, text line 1: '<i>x</i>' is no whole number",
        "</script><i>1",
        "]]> &amp;",
        "<b>Market</b> & \"co\"",
        "<none> & 'nobody'",
        "no line calls here",
        &long,
    ] {
        assert!(texts.contains(piece), "no '{piece}' in {texts}");
    }
    // The page's own script is the only one.
    assert_eq!((root.named("script").len(), root.named("i").len()), (1, 0));
    assert_eq!(sections(&root).len(), 4);
}

/// Folders within the folder are left out, as by `exam mark`.
#[test]
fn folders_within() {
    let folder = Folder::new();
    folder.file("a.sheet", "0 3");
    folder.file(".hidden", "x");
    std::fs::create_dir(folder.path().join("b")).expect("a folder");
    let ran = exam(&["report", HEX, &folder.name(), "-"]);
    let within = format!(
        "exam: {}/b is a folder; no sheet in it is taken\n",
        folder.name()
    );
    assert_eq!(
        (ran.status, ran.err),
        (0, format!("{within}1 sheet: 1 equal\n"))
    );
    assert_eq!(sections(&read(&ran.out)).len(), 1);
}

/// Of a network whose pictures nobody could read there are none, and words in their place.
#[test]
fn too_many_marks() {
    let folder = Folder::new();
    let calls: String = (0..64).map(|stop| format!("4300{stop:02X}0000 ")).collect();
    let network = folder.file("dense.hex", format!("4C0001 4C05A0 {calls} 4301000000 45"));
    let sheet = folder.file("a.sheet", "0 0");
    let (root, ran) = page(&network, &sheet, &[]);
    assert_eq!((ran.status, root.named("svg").len()), (0, 0));
    let words = words(&root);
    let none = "There is no picture here: it would have 92161 marks.";
    assert_eq!(words.matches(none).count(), 2, "{words}");
}

/// A sheet's row behind its name, by the engine's own call.
fn cells(mark: &Result<Mark, Refusal>) -> Vec<String> {
    match mark {
        Ok(Mark::Decided {
            sheet,
            equal,
            hundred,
            ..
        }) => {
            let word = if *equal { "equal" } else { "below" };
            let numbers = [sheet.least, sheet.sum, hundred.mark, hundred.remainder];
            let numbers = numbers.map(|number| number.to_string());
            [word.to_string()].into_iter().chain(numbers).collect()
        }
        Ok(Mark::Undecided { .. }) => panic!("a small network"),
        Err(_) => row(&["refused", "", "", "", ""]),
    }
}

/// On seeded networks a sheet has the mark of the engine's own call, a section, and a
/// picture where it is rated; the page is well-formed every time.
#[test]
fn on_seeded_files() {
    let mut dice = Dice::new(316);
    let (mut rated, mut refused) = (0, 0);
    for _ in 0..25 {
        let folder = Folder::new();
        let home = Folder::new();
        let (file, net) = small_file_for_gaps(&mut dice, 2_000);
        let network = home.file("one.net", &file);
        let mut expected = Vec::new();
        for number in 10..16 {
            let starts = any_sheet(&mut dice, net.lines());
            folder.file(&format!("{number}.bin"), sheet_bytes(&starts));
            expected.push(engine::mark(&file, &Sheet::of_starts(&starts), 1_000_000));
        }
        let (root, ran) = page(&network, &folder.name(), &[]);
        assert!(ran.status <= 1, "{ran:?}");
        let pictures = expected.iter().filter(|mark| mark.is_ok()).count();
        assert_eq!(root.named("svg").len(), pictures + 1);
        assert_eq!(sections(&root).len(), expected.len());
        for (row, mark) in rows(&root).iter().skip(1).zip(&expected) {
            assert_eq!(row[1..], cells(mark));
        }
        rated += pictures;
        refused += expected.len() - pictures;
    }
    assert!(rated > 100 && refused > 10, "{rated} {refused}");
}

/// The page is the same wherever it is made: no clock is on it.
#[test]
fn the_same_page_again() {
    let run = || {
        let mut command = command(&["report", HEX, "samples/two_lines", "-", "--quiet"]);
        ended(command.current_dir(ROOT).spawn().expect("exam starts")).out
    };
    assert_eq!(run(), run());
}
