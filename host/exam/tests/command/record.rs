//! `--csv` and `--json`: the record of rate and mark, read back.

use crate::common::{exam, Folder, HEX};
use crate::parsed::{csv, json, Fields};
use engine::{Mark, Sheet};
use papers::files::{any_budget, any_sheet, Dice};
use papers::small::small_file;
use std::ffi::OsStr;
use std::os::unix::ffi::OsStrExt;

/// The fields of a row that has values for some.
fn row(values: &[(&str, &str)]) -> Fields {
    let names = [
        "name",
        "status",
        "gap",
        "sum",
        "best_gap",
        "best_sum",
        "tries",
        "refusal",
        "place",
        "budget",
        "network_crc32",
        "engine",
        "name_bytes",
        "mark",
        "remainder",
    ];
    let of = |name: &str| {
        let given = values.iter().find(|(given, _)| *given == name);
        given.map(|(_, value)| value.to_string())
    };
    let engine = (String::from("engine"), Some(engine::VERSION.to_string()));
    let fields = names.iter().map(|name| (name.to_string(), of(name)));
    fields.chain([engine]).collect()
}

/// The record in both forms, which say the same.
fn record(words: &[&str], status: i32) -> (Vec<Fields>, String) {
    let as_csv = exam(&[words, &["--csv"]].concat());
    let as_json = exam(&[words, &["--json"]].concat());
    assert_eq!((as_csv.status, as_json.status), (status, status));
    assert_eq!(as_csv.err, as_json.err);
    let rows = csv(&as_csv.out);
    assert_eq!(rows, json(&as_json.out));
    (rows, as_csv.err)
}

const CRC: (&str, &str) = ("network_crc32", "aced792e");
const USUAL: (&str, &str) = ("budget", "1000000");

/// A name with its word, a rating whose gap and sum are one number, and a mark.
fn rated<'a>(name: &'a str, word: &'a str, gap: &'a str, mark: &'a str) -> Vec<(&'a str, &'a str)> {
    let named = [("name", name), ("status", word)];
    let numbers = [
        ("gap", gap),
        ("sum", gap),
        ("mark", mark),
        ("remainder", "0"),
    ];
    [&named[..], &numbers].concat()
}

#[test]
fn a_row_for_each_sheet() {
    let folder = Folder::new();
    folder.file("a, \"b\".sheet", "0 3");
    folder.file("b.sheet", "0 0");
    folder.file("c.sheet", "0");
    folder.file("d.sheet", "x");
    let (rows, said) = record(&["mark", HEX, &folder.name()], 2);
    let best = [("best_gap", "2"), ("best_sum", "2"), ("tries", "21")];
    let marked = |values: &[(&str, &str)]| row(&[values, &best, &[CRC, USUAL]].concat());
    let refused = [
        ("name", "c.sheet"),
        ("status", "refused"),
        ("refusal", "15"),
        ("place", "0"),
    ];
    let unreadable = [("name", "d.sheet"), ("status", "unreadable")];
    let expected = [
        marked(&rated("a, \"b\".sheet", "equal", "2", "100")),
        marked(&rated("b.sheet", "below", "1", "50")),
        row(&[&refused[..], &[CRC, USUAL]].concat()),
        row(&[&unreadable[..], &[CRC, USUAL]].concat()),
    ];
    assert_eq!(rows, expected);
    assert!(said.ends_with("4 sheets: 1 equal, 1 below, 1 refused, 1 unreadable\n"));
    assert!(said.contains("  lines: 2; sheet: 1 starts\n"));
}

#[test]
fn of_one_sheet_and_of_rate() {
    let sheet = "samples/two_lines/perfect.sheet";
    let words = ["mark", HEX, sheet, "--budget", "20"];
    let (rows, said) = record(&words, 3);
    let rated = [("name", sheet), ("gap", "2"), ("sum", "2"), CRC];
    let undecided = [("status", "undecided"), ("tries", "20"), ("budget", "20")];
    assert_eq!(rows, [row(&[&rated[..], &undecided].concat())]);
    assert!(said.starts_with("exam: the budget was used up") && !said.contains("1 sheet"));
    let (rows, said) = record(&["rate", HEX, sheet], 0);
    assert_eq!(rows, [row(&[&rated[..], &[("status", "rated")]].concat())]);
    assert_eq!(said, "");
}

#[test]
fn two_forms_at_once_and_verbs_without_a_record() {
    let forms = ["--csv", "--json"];
    exam(&[&["rate", HEX, "a.sheet"][..], &forms].concat()).told("", 2, &["contradict"]);
    for form in forms {
        let words = format!("no option '{form}'");
        exam(&["better", HEX, "a.sheet", "b.sheet", form]).told("", 2, &[&words]);
        exam(&["best", HEX, form]).told("", 2, &[&words]);
    }
}

/// Every sheet of a refused network is refused, as the engine refuses it. There
/// is no archive form then, and no checksum.
#[test]
fn of_a_refused_network() {
    let folder = Folder::new();
    folder.file("a.sheet", "0 3");
    folder.file("b.sheet", "0");
    let home = Folder::new();
    let network = home.file("bad.hex", "4C000F 4300000008");
    let (rows, said) = record(&["mark", &network, &folder.name()], 1);
    let refused = [
        ("status", "refused"),
        ("refusal", "1"),
        ("place", "8"),
        USUAL,
    ];
    let of = |name| row(&[&[("name", name)], &refused[..]].concat());
    assert_eq!(rows, [of("a.sheet"), of("b.sheet")]);
    let words = "refused 1 at 8: the file ends where a command is due";
    assert_eq!(said.matches(words).count(), 1, "{said}");
    // A record without sheets is a record too.
    let empty = Folder::new();
    let (rows, said) = record(&["mark", HEX, &empty.name()], 2);
    assert_eq!(rows, []);
    assert!(said.contains("there is no sheet in this folder"));
}

/// A name that is no text comes back by its bytes; JSON has one with control
/// characters as it is.
#[test]
fn names_of_every_kind() {
    let folder = Folder::new();
    let names: [&[u8]; 4] = [
        b"\x1Bx\n.sheet",
        b"=1+1,\".sheet",
        b"\xFF.sheet",
        "ü \u{9B}.sheet".as_bytes(),
    ];
    for name in names {
        let path = folder.path().join(OsStr::from_bytes(name));
        std::fs::write(path, "0 3").expect("a file");
    }
    let [as_csv, as_json] =
        ["--csv", "--json"].map(|form| exam(&["rate", HEX, &folder.name(), form]));
    let mut sorted = names;
    sorted.sort();
    for (rows, is_json) in [(csv(&as_csv.out), false), (json(&as_json.out), true)] {
        for (row, name) in rows.iter().zip(sorted) {
            let shown = row["name"].clone().expect("a name");
            let hex: String = name.iter().map(|byte| format!("{byte:02x}")).collect();
            match &row["name_bytes"] {
                None => assert_eq!(shown.as_bytes(), name),
                Some(bytes) => assert_eq!(*bytes, hex),
            }
            let text = String::from_utf8_lossy(name);
            let replaced = text.replace(char::is_control, "?");
            assert_eq!(shown, if is_json { text.into_owned() } else { replaced });
        }
    }
    for out in [
        as_csv.out.replace("\r\n", ""),
        as_json.out.replace('\n', ""),
    ] {
        assert!(!out.contains(char::is_control));
    }
}

/// Every number is the one that the engine's mark call answers.
#[test]
fn of_seeded_networks() {
    let mut dice = Dice::new(308);
    for _ in 0..25 {
        let (file, net) = small_file(&mut dice, 2_000);
        let (home, folder) = (Folder::new(), Folder::new());
        let network = home.file("a.net", &file);
        let budget = any_budget(&mut dice);
        let mut marks = Vec::new();
        for number in 10..16 {
            let starts = any_sheet(&mut dice, net.lines());
            let words: Vec<String> = starts.iter().map(i32::to_string).collect();
            folder.file(&format!("{number}.sheet"), words.join(" "));
            marks.push(engine::mark(&file, &Sheet::of_starts(&starts), budget));
        }
        let budget = budget.to_string();
        let words = [
            "mark",
            &network,
            &folder.name(),
            "--budget",
            &budget,
            "--csv",
        ];
        let rows = csv(&exam(&words).out);
        assert_eq!(rows.len(), 6);
        for (row, mark) in rows.iter().zip(marks) {
            assert_eq!(row["budget"].as_deref(), Some(budget.as_str()));
            says(row, mark);
        }
    }
}

/// The fields of a row beside the mark call's answer.
fn says(row: &Fields, mark: Result<Mark, engine::Refusal>) {
    let names = "gap sum best_gap best_sum tries mark remainder refusal place";
    let fields = names.split(' ').map(|name| {
        let text = row[name].as_ref();
        text.map(|text| text.parse().expect("a number"))
    });
    let fields: Vec<Option<u32>> = fields.collect();
    let (word, numbers, refusal) = match mark {
        Ok(Mark::Decided {
            sheet,
            best,
            equal,
            hundred,
            tries,
        }) => {
            let [gap, sum] = [sheet.least, sheet.sum].map(Some);
            let [best_gap, best_sum, tries] = [best.least, best.sum, tries].map(Some);
            let [mark, remainder] = [hundred.mark, hundred.remainder].map(Some);
            let word = if equal { "equal" } else { "below" };
            let numbers = [gap, sum, best_gap, best_sum, tries, mark, remainder];
            (word, numbers, [None; 2])
        }
        Ok(Mark::Undecided { sheet, tries }) => {
            let [gap, sum, tries] = [sheet.least, sheet.sum, tries].map(Some);
            let numbers = [gap, sum, None, None, tries, None, None];
            ("undecided", numbers, [None; 2])
        }
        Err(refusal) => {
            let refusal = [refusal.ground.number(), refusal.place].map(Some);
            ("refused", [None; 7], refusal)
        }
    };
    assert_eq!(row["status"].as_deref(), Some(word));
    assert_eq!(fields, [&numbers[..], &refusal].concat());
}

/// Where fields stand is for those that read them by place: mark and remainder come
/// behind all that were there before them.
#[test]
fn marks_stand_behind_the_older_fields() {
    let sheet = "samples/two_lines/beaten.sheet";
    let heading = "name,status,gap,sum,best_gap,best_sum,tries,refusal,place,budget,\
                   network_crc32,engine,name_bytes,mark,remainder\r\n";
    let engine = engine::VERSION;
    let row = format!("{sheet},below,1,1,2,2,21,,,1000000,aced792e,{engine},,50,0\r\n");
    exam(&["mark", HEX, sheet, "--csv"]).printed(&format!("{heading}{row}"), 0);
    // A rating is no mark.
    let row = format!("{sheet},rated,1,1,,,,,,,aced792e,{engine},,,\r\n");
    exam(&["rate", HEX, sheet, "--csv"]).printed(&format!("{heading}{row}"), 0);
    let ran = exam(&["rate", HEX, sheet, "--json"]);
    let end = "\"name_bytes\": null, \"mark\": null, \"remainder\": null}\n]\n";
    assert!(ran.out.ends_with(end), "{ran:?}");
}
