//! Plans, and `exam plan`.

use crate::common::{exam, exam_with, written, Folder, HEX, ROOT};
use engine::plan::{self, Names, Plan};
use papers::files::{bytes_of, dense_file, limit_file, valid_commands, valid_file, Dice};

#[test]
fn plan_of_a_network() {
    let two_lines = "stop 0 S0\n\nline L0 every 15\n  S0 at 8\n\nline L1 every 20\n  S0 at 17\n";
    exam(&["plan", HEX]).printed(two_lines, 0);
    // Calls by their minutes, and the stops that a plan names, in their numbers.
    let text = "stop 7 Depot\nstop 2 Old mill\nstop 9 Market\nline Red every 60 # a comment\n\
                Market at 100\nOld mill at 7\nDepot +0\n";
    let plan = "stop 2 Old mill\nstop 7 Depot\nstop 9 Market\n\nline Red every 60\n  Old mill at \
                7\n  Depot at 7\n  Market at 100\n";
    exam_with(&["plan", "-", "--plan"], text.as_bytes()).printed(plan, 0);
    exam_with(&["plan", "-", "--plan"], plan.as_bytes()).printed(plan, 0);
}

/// Edition 2 stands first; edition 1 isn't stated.
#[test]
fn plan_with_an_edition() {
    let calls = "stop 0 S0\n\nline L0 every 15\n  S0 at 8\n";
    for (opening, stated) in [("", ""), ("5601", ""), ("5602", "edition 2\n\n")] {
        let text = format!("{opening} 4C000F 4300000008 45");
        let plan = format!("{stated}{calls}");
        exam_with(&["plan", "-", "--typed"], text.as_bytes()).printed(&plan, 0);
        exam_with(&["plan", "-", "--plan"], plan.as_bytes()).printed(&plan, 0);
    }
    // A line and a stop called so, in either edition.
    let named = "stop 0 edition\n\nline edition every 15\n  edition at 8\n";
    exam_with(&["plan", "-", "--plan"], named.as_bytes()).printed(named, 0);
    let named = format!("edition 2\n\n{named}");
    exam_with(&["plan", "-", "--plan"], named.as_bytes()).printed(&named, 0);
}

#[test]
fn plan_of_a_refused_network() {
    let pieces = ["refused 2 at 0", "unknown command"];
    exam_with(&["plan", "-", "--typed"], b"99").told("refused 2 at 0\n", 1, &pieces);
}

/// The sample is the same network, and so is every sample's plan.
#[test]
fn plans_of_the_samples() {
    for name in ["loop", "valley", "village"] {
        let [plan, typed] = ["plan", "hex"].map(|ending| format!("samples/{name}.{ending}"));
        exam(&["same", &plan, &typed]).printed("same\n", 0);
    }
    let folder = Folder::new();
    for name in ["one_line", "two_lines", "loop", "valley", "village", "town"] {
        let network = format!("samples/{name}.hex");
        let plan = folder.file("a.plan", written(&["plan", &network]));
        exam(&["same", &network, &plan]).printed("same\n", 0);
    }
    let text = std::fs::read_to_string(format!("{ROOT}/samples/village.plan")).expect("a sample");
    let stops: Vec<&str> = text
        .lines()
        .filter(|line| line.starts_with("stop "))
        .collect();
    assert_eq!(stops.len(), 6);
}

/// By the command: plan, then type, typed and raw, is the same network.
#[test]
fn there_and_back_by_the_command() {
    let mut dice = Dice::new(95);
    let folder = Folder::new();
    for _ in 0..60 {
        let network = folder.file("one.net", bytes_of(&valid_commands(&mut dice)));
        let plan = folder.file("one.plan", written(&["plan", &network]));
        let typed = folder.file("two.hex", written(&["type", &plan]));
        let raw = folder.file("two.net", written(&["type", &plan, "--raw"]));
        for again in [&plan, &typed, &raw] {
            exam(&["same", &network, again]).printed("same\n", 0);
        }
        // A plan of the plan is itself.
        assert_eq!(written(&["plan", &plan]), written(&["plan", &network]));
    }
}

/// The archive form of a file and that of its plan, on many files.
#[test]
fn there_and_back_on_many_files() {
    let mut dice = Dice::new(97);
    let there_and_back = |file: &[u8]| {
        let contents = engine::contents(file).expect("an accepted file");
        let text = plan::text(&contents, &Names::default());
        let plan = plan::read(text.as_bytes()).unwrap_or_else(|why| panic!("{why}\n{text}"));
        assert_eq!(
            engine::archive(plan.bytes()),
            engine::archive(file),
            "{text}"
        );
        // With names of its own too.
        let again = plan::text(&contents, plan.names());
        assert_eq!(again, text);
        for place in 0..plan.bytes().len() {
            assert!(plan.line(place).is_some());
        }
        contents.edition
    };
    let editions = (0..5_000).map(|_| there_and_back(&valid_file(&mut dice)));
    let second = editions.filter(|&edition| edition == 2).count();
    assert!(second > 400, "{second} files in edition 2");
    let mut full = 0;
    for _ in 0..200 {
        let file = limit_file(&mut dice);
        if engine::read(&file).is_ok() {
            there_and_back(&file);
            full += 1;
        }
    }
    there_and_back(&dense_file(&mut dice, 16, 64));
    assert!(full > 20, "{full} files at the limits");
}

/// The words and signs of plans.
const WORDS: [&str; 26] = [
    "edition ",
    "line ",
    "stop ",
    "every ",
    "at ",
    "+",
    "+3",
    "0",
    "2 ",
    "7 ",
    "20 ",
    "65535",
    "256",
    "\n",
    "\n",
    "\n  ",
    "# ",
    "\r\n",
    "Market ",
    "market ",
    "Old mill ",
    "\u{1B}",
    "\u{FEFF}",
    "é",
    "\t",
    "line A every 5\nX at 0\n",
];

/// Whole statements, of which more plans come about.
const STATEMENTS: [&str; 12] = [
    "edition 1\n",
    "edition 2\n",
    "edition 2\nline A every 20\nX at 4\n",
    "edition at 3\n",
    "stop 3 X\n",
    "stop 9 Y\n",
    "line A every 20\n",
    "line B every 30\n",
    "X at 4\n",
    "Y +9\n",
    "X +60000\n",
    "Y at 0 # a\n",
];

/// The edition of a plan that was read, if it is accepted; then it comes back from its
/// own plan.
fn edition_there_and_back(plan: &Plan, text: &str) -> Option<u8> {
    let stated = plan.bytes().len() > 1;
    assert_eq!(plan.line(0).is_some(), stated, "{text}");
    let contents = engine::contents(plan.bytes()).ok()?;
    let again = plan::text(&contents, plan.names());
    let again = plan::read(again.as_bytes()).expect("a plan");
    assert_eq!(again.names(), plan.names());
    assert_eq!(
        engine::contents(again.bytes()).as_ref(),
        Ok(&contents),
        "{text}"
    );
    Some(contents.edition)
}

/// Texts of the words and signs of plans in any order: each is read or has an
/// error, and what is read has a text line for each byte and comes back from its
/// plan.
#[test]
fn any_text_is_read_or_has_an_error() {
    let mut dice = Dice::new(98);
    let (mut read, mut accepted, mut second) = (0, 0, 0);
    for _ in 0..20_000 {
        let words: &[&str] = if dice.once_in(2) { &WORDS } else { &STATEMENTS };
        let count = dice.within(0, 12);
        let text: String = (0..count).map(|_| dice.pick(words)).collect();
        let edition = match plan::read(text.as_bytes()) {
            Ok(plan) => {
                read += 1;
                edition_there_and_back(&plan, &text)
            }
            Err(why) => {
                let lines = 1..=text.lines().count().max(1);
                assert!(lines.contains(&why.line), "{text}");
                None
            }
        };
        accepted += usize::from(edition.is_some());
        second += usize::from(edition == Some(2));
    }
    println!("{read} read, {accepted} accepted, {second} in edition 2");
    assert!(read > 1_000 && accepted > 100 && second > 50);
}

/// A plan is refused so, and this is said of it.
fn refused(text: &str, refusal: &str, piece: &str) {
    let ran = exam_with(&["read", "-", "--plan"], text.as_bytes());
    assert_eq!(ran.status, 1, "{ran:?}");
    assert!(ran.out.starts_with(refusal), "no '{refusal}' in {ran:?}");
    assert!(ran.err.contains(piece), "no '{piece}' in {ran:?}");
}

/// Every ground that a plan can have leads to the text line of its statement.
#[test]
fn refusals_lead_to_the_text_line() {
    let text_line = "text line 1: line A every 0";
    refused("line A every 0", "refused 5 at 0", text_line);
    let text_line = "text line 3: line B every 11";
    refused(
        "line A every 1440\nX at 0\nline B every 11",
        "refused 6 at 8",
        text_line,
    );
    let text_line = "text line 3: X at 0 # here";
    refused(
        "stop 64 X\nline A every 5\nX at 0 # here",
        "refused 8 at 3",
        text_line,
    );
    // The third call is one too many, the second may be.
    let names = "(line 0 'A', stop 0 'X', offset ";
    refused(
        "line A every 5\nX at 0\nX at 1\nX at 2",
        "refused 9 at ",
        names,
    );
    let never = "line 1 'B' never calls\n  text line 3: line B every 5\n";
    refused(
        "line A every 5\nX at 0\nline B every 5\n# the end",
        "refused 13 at 11",
        never,
    );
    refused("", "refused 13 at 0", "there is no line\n");
}

/// The same for editions.
#[test]
fn refusals_of_editions_lead_to_the_text_line() {
    let text_line = "text line 2: edition 3";
    refused(
        "# new\nedition 3\nline A every 5",
        "refused 21 at 0",
        text_line,
    );
    let behind = "byte 3: 56 02 (edition 2)\n  text line 2: edition 2";
    refused(
        "line A every 5\nedition 2\nX at 0",
        "refused 20 at 3",
        behind,
    );
    let second = "byte 2: 56 09 (edition 9)\n  text line 2: edition 9";
    refused("edition 2\nedition 9", "refused 20 at 2", second);
}

/// The same for more lines, stops and calls than the engine takes.
#[test]
fn refusals_of_large_plans() {
    let line = |number| format!("line L{number} every 5\n  X at 0\n");
    let lines: String = (0..17).map(line).collect();
    refused(&lines, "refused 4 at 128", "text line 33: line L16 every 5");
    let calls = |count: usize| -> String {
        let call = |number| format!("  S{number} at 0\n");
        (0..count).map(call).collect()
    };
    let stops = format!("line A every 5\n{}", calls(65));
    refused(&stops, "refused 8 at 323", "text line 66: S64 at 0");
    let line = |number| format!("line A{number} every 5\n{}", calls(64));
    let full: String = (0..5).map(line).collect();
    refused(&full, "refused 10 at 1295", "text line 262: S0 at 0");
}

/// Plans that can't be put into bytes, and what is said of them.
const ERRORS: [(&str, &str); 16] = [
    (
        "edition",
        "text line 1: 'edition' is no statement; expected edition NUMBER",
    ),
    (
        "edition 256",
        "text line 1: '256' isn't a number of 0 to 255, decimal",
    ),
    (
        "Market at 8",
        "text line 1: a call stands under its line; expected line NAME every",
    ),
    (
        "line A every 5\n\nMarket 8",
        "text line 3: 'Market 8' is no statement; expected NAME at",
    ),
    (
        "line A",
        "text line 1: 'line A' is no statement; expected line NAME every PERIOD",
    ),
    (
        "stop",
        "text line 1: 'stop' is no statement; expected stop NUMBER NAME",
    ),
    (
        "line A every 65536",
        "text line 1: '65536' isn't a number of 0 to 65535, decimal",
    ),
    (
        "line A every 000F",
        "text line 1: '000F' isn't a number of 0 to 65535, decimal",
    ),
    (
        "stop 256 X",
        "text line 1: '256' isn't a number of 0 to 255, decimal",
    ),
    (
        "line A every 5\nX +3",
        "text line 2: + counts from the line's call before",
    ),
    (
        "line A every 5\nX at 65535\nY +1",
        "text line 3: that is 65536 minutes after",
    ),
    (
        "stop 0 X\nline A every 5\nY at 0",
        "text line 3: this plan states its stops, and no 'Y'",
    ),
    (
        "line A every 5\nX at 0\nx +1",
        "text line 3: the names 'x' and 'X', on text line 2",
    ),
    (
        "line A every 5\nline A every 6",
        "text line 2: the name 'A' is given already",
    ),
    ("line 5 every 5", "text line 1: the name '5' has no letter"),
    (
        "line A every 5\nX at 5 Y +3",
        "text line 2: 'at' can't be a word of a name",
    ),
];

/// What can't be put into bytes is an error of the plan, with its text line and
/// what was expected; nothing is asked of the engine.
#[test]
fn errors_of_the_plan() {
    let folder = Folder::new();
    for (text, words) in ERRORS {
        let name = folder.file("bad.plan", text);
        let message = format!("exam: {name}, {words}");
        for verb in ["read", "show", "plan", "type", "best"] {
            exam(&[verb, &name]).told("", 2, &[&message]);
        }
    }
    let latin = folder.file("latin.plan", b"line A every 5\nM\xFChle at 0");
    exam(&["read", &latin]).told("", 2, &["latin.plan, text line 2: it isn't UTF-8 text"]);
    let long = folder.file("long.plan", "#".repeat((1 << 24) + 1));
    exam(&["read", &long]).told("", 2, &["longer than"]);
}
