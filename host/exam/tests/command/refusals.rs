//! Refusals: the paper's line, the words for each ground, and the command at fault.

use crate::common::{exam, exam_with, typed, Folder, HEX};
use engine::Ground;
use papers::files::{faulty_file, Dice, GROUNDS};

/// Each ground of a file by every verb that reads one, as bytes and typed: the
/// paper's line alone on standard output, the words and the bytes at the place
/// on standard error.
#[test]
fn words_for_each_ground_of_the_file() {
    let mut dice = Dice::new(92);
    for ground in GROUNDS {
        let faulty = faulty_file(&mut dice, ground);
        let line = format!("refused {ground} at {}\n", faulty.place);
        let words = Ground::ALL[usize::from(ground) - 1].words();
        let place = match faulty.bytes.get(faulty.place) {
            Some(byte) => format!("byte {}: {byte:02X}", faulty.place),
            None => format!("nothing behind its {} bytes", faulty.place),
        };
        let pieces = [line.trim(), words, &place];
        let text = typed(&faulty.bytes);
        for verb in ["read", "classes", "best", "archive"] {
            let bytes = &faulty.bytes;
            exam_with(&[verb, "-", "--bytes"], bytes).told(&line, 1, &pieces);
            exam_with(&[verb, "-", "--typed"], text.as_bytes()).told(&line, 1, &pieces);
        }
        for gap in ["0", "65535"] {
            let words = ["wanted", "-", gap, "--bytes"];
            exam_with(&words, &faulty.bytes).told(&line, 1, &pieces);
        }
        let folder = Folder::new();
        let network = folder.file("faulty.net", &faulty.bytes);
        let sheet = folder.file("any.sheet", "0 1 2");
        for verb in ["rate", "mark", "explain"] {
            exam(&[verb, &network, &sheet]).told(&line, 1, &pieces);
        }
        exam(&["explain", &network, &sheet, "--key", &sheet]).told(&line, 1, &pieces);
        exam(&["report", &network, &sheet, "-"]).told(&line, 1, &pieces);
        // The file comes before the sheet, the stop and the length.
        exam(&["board", &network, &sheet, "0"]).told(&line, 1, &pieces);
        let unfit = ["board", &network, &sheet, "64", "--length", "10081"];
        exam(&unfit).told(&line, 1, &pieces);
        exam(&["archive", "--raw", &network]).told(&line, 1, &pieces);
        exam(&["same", HEX, &network]).told(&line, 1, &pieces);
    }
}

/// A ride in edition 2: which edition it is, and what to type in its place. In edition 1
/// it is refused without.
#[test]
fn words_for_a_retired_ride() {
    let remedy = "edition 2 has no 46: state the call by 43, its minutes from the line's start";
    let typed = b"56 02\n4C 000F\n43 00 00 0008\n46 00 01 0005\n45\n";
    let pieces = [
        "(line 0, stop 1, ride 5)",
        remedy,
        "text line 4: 46 00 01 0005",
    ];
    exam_with(&["read", "-", "--typed"], typed).told("refused 19 at 10\n", 1, &pieces);
    let first = b"56 01 4C 000F 46 00 01 0005 45";
    let ran = exam_with(&["read", "-", "--typed"], first);
    assert_eq!((&ran.out[..], ran.status), ("refused 11 at 5\n", 1));
    assert!(!ran.err.contains("has no 46"), "{ran:?}");
}

#[test]
fn words_for_a_sheet_of_the_wrong_length() {
    let folder = Folder::new();
    let pieces = [
        "refused 15 at 0",
        Ground::SheetLength.words(),
        "lines: 2; sheet: 3 starts",
    ];
    let long = folder.file("long.sheet", "0 3 5");
    let empty = folder.file("empty.sheet", "# nothing\n");
    for verb in ["rate", "mark", "explain"] {
        exam(&[verb, HEX, &long]).told("refused 15 at 0\n", 1, &pieces);
        exam(&[verb, HEX, &empty]).told("refused 15 at 0\n", 1, &["sheet: 0 starts"]);
    }
    exam(&["board", HEX, &long, "0"]).told("refused 15 at 0\n", 1, &pieces);
    let odd = folder.file("odd.bin", [0; 7]);
    exam(&["rate", HEX, &odd]).told("refused 15 at 0\n", 1, &["sheet: 7 bytes"]);
}

/// Texts, and what is said of the command at fault.
const AT_FAULT: [(&str, &str); 15] = [
    ("4C000F", "nothing behind its 3 bytes"),
    ("4C000F 99", "byte 3: 99\n"),
    ("4C000F 4300", "byte 3: 43 00\n"),
    ("4C05A1 45", "byte 0: 4C 05 A1 (line 0, period 1441)\n"),
    (
        "4C000F 4600000001",
        "byte 3: 46 00 00 00 01 (line 0, stop 0, ride 1)\n",
    ),
    ("4C000F 45", "byte 3: 45 (the end)\n  line 0 never calls\n"),
    ("45", "byte 0: 45 (the end)\n  there is no line\n"),
    ("4C000F 4300000008 45 43", "byte 9: 43\n"),
    ("4C000F 4300000008 45 5602", "byte 9: 56\n"),
    ("5600 4C000F", "byte 0: 56 00 (edition 0)\n"),
    ("4C000F 5602", "byte 3: 56 02 (edition 2)\n"),
    ("4C000F 56", "byte 3: 56\n"),
    (
        "5602 4C000F 4600000001",
        "byte 5: 46 00 00 00 01 (line 0, stop 0, ride 1)\n",
    ),
    ("5602 4C05A1 45", "byte 2: 4C 05 A1 (line 0, period 1441)\n"),
    (
        "5602 4C000F 45",
        "byte 5: 45 (the end)\n  line 0 never calls\n",
    ),
];

/// The whole message, with the command's bytes, what they say and the line.
#[test]
fn the_command_at_fault_is_shown() {
    let folder = Folder::new();
    let text = "# A note\r\n4C 000F # line 0\r\n\r\n  43 0040 0008 # stop 64\r\n45";
    let network = folder.file("fault.hex", text);
    let message = format!(
        "exam: refused 8 at 3: the stop is above 63\n  {network}, byte 3: 43 00 40 00 08 (line 0, \
         stop 64, offset 8)\n  text line 4: 43 0040 0008 # stop 64\n"
    );
    let ran = exam(&["read", &network]);
    ran.told("refused 8 at 3\n", 1, &[]);
    assert_eq!(ran.err, message);
    for (text, piece) in AT_FAULT {
        let ran = exam_with(&["best", "--typed", "-"], text.as_bytes());
        assert_eq!(ran.status, 1);
        assert!(ran.err.contains(piece), "no '{piece}' in {ran:?}");
        assert!(
            ran.err.ends_with(&format!("  text line 1: {text}\n")),
            "{ran:?}"
        );
    }
    // Nothing was typed, so that there is no line to show.
    let ran = exam_with(&["best", "--typed", "-"], b"# nothing\n");
    ran.told("refused 1 at 0\n", 1, &["nothing behind its 0 bytes\n"]);
    assert!(!ran.err.contains("text line"));
}

/// Where a pair is missing, the command takes one of the next text line, and
/// that begins with the rest of it.
#[test]
fn a_missing_pair_is_not_the_next_text_lines_fault() {
    let said = |text: &str| {
        let ran = exam_with(&["read", "--typed", "-"], text.as_bytes());
        assert_eq!(ran.status, 1, "{ran:?}");
        ran.err
    };
    let rest = "43 00 00 0008\n43 01 00 0011\n45\n";
    let missing = said(&format!("4C 000F\n4C 00 # every 20\n{rest}"));
    let message =
        "exam: refused 2 at 6: unknown command\n  standard input, byte 6: 00\n  text line \
                   3: 43 00 00 0008\n  the command of text line 2 takes its last bytes from text \
                   line 3\n";
    assert_eq!(missing, message);
    // The refusal comes later than the missing pair: the first command is named.
    let missing = said("4C 000F\n4C 0014\n43 00 00\n\n43 01 00 0011\n45\n");
    let run_over = "the command of text line 3 takes its last bytes from text line 5\n";
    assert!(missing.ends_with(run_over), "{missing}");
    // The refused command itself.
    let missing = said("4C 05\nA1 45");
    assert!(missing.starts_with("exam: refused 5 at 0"), "{missing}");
    let run_over = "the command of text line 1 takes its last bytes from text line 2\n";
    assert!(missing.ends_with(run_over), "{missing}");
    // Nothing runs over, or only behind the refused command.
    for text in [
        "4C 05A1\n45",
        "4C 05A1\n43 00 00\n00 08",
        "4C000F 4300000008 45\n4C\n000F",
    ] {
        assert!(!said(text).contains("takes its last bytes"), "{text}");
    }
}

/// Ground 13: which line never calls.
#[test]
fn the_line_that_never_calls() {
    let cases = [
        (
            "4C000F\n4C0014\n4300000008\n45",
            "line 1 never calls\n  text line 2: 4C0014\n",
        ),
        (
            "4C000F\n4C0014\n4301000008\n45",
            "line 0 never calls\n  text line 1: 4C000F\n",
        ),
        (
            "4C000F\n4C0014\n4C0014\n4300000008\n4600010008\n4302000008\n45",
            "line 1 never calls\n  text line 2: 4C0014\n",
        ),
        ("# no line\n45", "there is no line\n  text line 2: 45\n"),
    ];
    for (text, piece) in cases {
        let ran = exam_with(&["best", "--typed", "-"], text.as_bytes());
        assert_eq!(ran.status, 1, "{ran:?}");
        assert!(ran.err.ends_with(piece), "no '{piece}' in {ran:?}");
    }
    let bytes = [0x4C, 0, 15, 0x45];
    let pieces = ["line 0 never calls\n"];
    exam_with(&["read", "--bytes", "-"], &bytes).told("refused 13 at 3\n", 1, &pieces);
}

/// What a file holds moves no cursor.
#[test]
fn control_characters_are_not_printed() {
    let ran = exam_with(&["read", "--typed", "-"], b"45 # \x1B[2J\x07\xC2\x9B");
    ran.told(
        "refused 13 at 0\n",
        1,
        &["text line 1: 45 # \\u{1b}[2J\\u{7}\\u{9b}\n"],
    );
    let ran = exam_with(&["read", "--plan", "-"], b"line \x1B[2J every 5");
    ran.told(
        "",
        2,
        &["the name '\\u{1b}[2J' has a character that can't be seen"],
    );
    let long = format!("45 # {}", "x".repeat(10_000));
    let ran = exam_with(&["read", "--typed", "-"], long.as_bytes());
    assert!(ran.err.len() < 500, "{ran:?}");
}
