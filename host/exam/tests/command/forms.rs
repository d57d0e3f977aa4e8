//! Typed or bytes, by a flag or the name's ending.

use crate::common::{command, ended, exam, exam_with, typed, Folder, BEST_LINE, HEX, NET, ROOT};
use std::fs::File;

/// The network of `two_lines.hex`.
const PLAN: &str = "line Red every 15\n  Market at 8\nline Green every 20\n  Market at 17\n";

#[test]
fn the_form_is_never_guessed() {
    let folder = Folder::new();
    let bytes = std::fs::read(format!("{}/{NET}", ROOT)).expect("a sample");
    let text = typed(&bytes);
    for name in ["a.hex", "a.txt", "A.HEX"] {
        exam(&["best", &folder.file(name, &text)]).printed(BEST_LINE, 0);
    }
    exam(&["best", &folder.file("a.net", &bytes)]).printed(BEST_LINE, 0);
    // A flag stands above the ending.
    exam(&["best", "--typed", &folder.file("b.net", &text)]).printed(BEST_LINE, 0);
    exam(&["best", "--bytes", &folder.file("b.hex", &bytes)]).printed(BEST_LINE, 0);
    // Text taken for bytes is refused by the engine, bytes taken for text
    // before it.
    exam(&["best", &folder.file("c.net", &text)]).told("refused 2 at 0\n", 1, &[]);
    exam(&["best", &folder.file("c.hex", &bytes)]).told("", 2, &["line 1", "isn't hexadecimal"]);
    let hint = [
        "--plan, --typed or --bytes",
        ".plan",
        ".hex or .txt",
        ".net",
    ];
    for name in ["d", "d.bin", "d.sheet"] {
        exam(&["best", &folder.file(name, &bytes)]).told("", 2, &hint);
    }
    exam_with(&["best", "-"], &bytes).told(
        "",
        2,
        &["standard input", "--plan, --typed or --bytes"],
    );
    let hint = ["--sheet-numbers or --sheet-bytes"];
    exam(&["rate", HEX, &folder.file("sheet.net", "0 3")]).told("", 2, &hint);
    exam_with(&["rate", HEX, "-"], b"0 3").told("", 2, &hint);
    let named = folder.file("sheet.bin", "0 3");
    exam(&["rate", HEX, "--sheet-numbers", &named]).printed("gap 2 sum 2\n", 0);
    let named = folder.file("e.sheet", [0; 8]);
    exam(&["rate", HEX, "--sheet-bytes", &named]).printed("gap 1 sum 1\n", 0);
}

/// A plan by its ending and by the flag, with every verb.
#[test]
fn a_plan_is_a_network_to_every_verb() {
    let folder = Folder::new();
    let zeros = folder.file("zeros.sheet", "0 0");
    let good = folder.file("good.sheet", "0 3");
    let answers: [(&[&str], &[&str]); 9] = [
        (&["read"], &[]),
        (&["best"], &[]),
        (&["rate"], &[&zeros]),
        (&["better"], &[&zeros, &good]),
        (&["mark"], &[&zeros]),
        (&["archive"], &[]),
        (&["same", HEX], &[]),
        (&["classes", "--rows"], &[]),
        (&["best", "--budget=20", "--quiet"], &[]),
    ];
    let named = [
        folder.file("a.plan", PLAN),
        folder.file("A.PLAN", PLAN),
        folder.file("a.hex", PLAN),
    ];
    for (before, behind) in answers {
        let answer = exam(&[before, &[HEX], behind].concat());
        for network in &named[..2] {
            let ran = exam(&[before, &[network.as_str()], behind].concat());
            assert_eq!((&ran.out, ran.status), (&answer.out, answer.status));
        }
        // A flag counts for both networks of same.
        if before[0] != "same" {
            let ran = exam(&[before, &[named[2].as_str(), "--plan"], behind].concat());
            assert_eq!((&ran.out, ran.status), (&answer.out, answer.status));
        }
    }
}

/// Whatever else it could be, it is taken for what its name or the flag says.
#[test]
fn a_plan_is_never_guessed() {
    let folder = Folder::new();
    let named = [folder.file("a.plan", PLAN), folder.file("a.hex", PLAN)];
    exam_with(&["best", "-", "--plan"], PLAN.as_bytes()).printed(BEST_LINE, 0);
    exam(&["same", "--plan", &named[0], &named[1]]).printed("same\n", 0);
    exam(&["best", &named[1]]).told("", 2, &["line 1: 'line' isn't hexadecimal"]);
    let typed = folder.file("typed.plan", "4C000F 4300000008 45");
    exam(&["best", &typed]).told(
        "",
        2,
        &["text line 1: '4C000F 4300000008 45' is no statement"],
    );
    exam(&["best", "--typed", &typed]).printed("gap 15 sum 15 tries 1 starts 0\n", 0);
}

/// "its first 4,096 bytes decide": an input without an end is decided too.
#[test]
fn an_endless_network() {
    let forms = [
        ("--bytes", 1, "refused 2 at 0\n"),
        ("--typed", 2, ""),
        ("--plan", 2, ""),
    ];
    for (form, status, out) in forms {
        let mut command = command(&["best", "-", form]);
        command.stdin(File::open("/dev/zero").expect("zeros"));
        let ran = ended(command.spawn().expect("exam starts"));
        assert_eq!((ran.status, ran.out.as_str()), (status, out), "{}", ran.err);
    }
}
