//! `exam same`.

use crate::common::{exam, exam_with, typed, Folder, HEX, NET, ROOT};

/// Networks beside that of `two_lines.hex`, and in what they differ from it.
const OTHERS: [(&str, &str); 9] = [
    // Lines exchanged.
    (
        "4C0014 4C000F 4300000011 4301000008 45",
        "line 0 has period 15 in a.hex and 20 in b.hex",
    ),
    // 23 leaves 8 by 15.
    (
        "4C000F 4C0014 4300000017 4301000011 45",
        "line 0 reaches stop 0 after 8 minutes in a.hex and 23 in b.hex",
    ),
    (
        "4C000F 4C001E 4300000008 4301000011 45",
        "line 1 has period 20 in a.hex and 30 in b.hex",
    ),
    ("4C000F 4300000008 45", "line 1 is in a.hex alone"),
    (
        "4C000F 4C0014 4C0001 4300000008 4301000011 4302000000 45",
        "line 2 is in b.hex alone",
    ),
    (
        "4C000F 4C0014 4300000008 4301000011 43013F0000 45",
        "line 1 calls at stop 63 in b.hex alone",
    ),
    (
        "4C000F 4C0014 4300000008 4301010011 45",
        "line 1 calls at stop 0 in a.hex alone",
    ),
    (
        "4C000F 4C0014 4300000008 4300010008 4301000011 45",
        "line 0 calls at stop 1 in b.hex alone",
    ),
    // A loop: once and twice at a stop.
    (
        "4C000F 4C0014 4300000008 4300000003 4301000011 45",
        "line 0 reaches stop 0 after 8 minutes in a.hex and 3 and 8 in b.hex",
    ),
];

#[test]
fn same_says_in_what_two_networks_differ() {
    let folder = Folder::new();
    let a = folder.file("a.hex", "4C000F 4C0014 4300000008 4301000011 45");
    let again = folder.file("again.txt", "4C000F 4300000008 4C0014\n4301000011 45");
    exam(&["same", &a, &again]).printed("same\n", 0);
    exam(&["same", HEX, &a]).printed("same\n", 0);
    for (text, words) in OTHERS {
        let b = folder.file("b.hex", text);
        let ran = exam(&["same", &a, &b]);
        ran.told("different\n", 1, &[]);
        let said = ran.err.replace(&format!("{}/", folder.name()), "");
        assert_eq!(said, format!("exam: another network: {words}\n"));
        // What is in one alone is so whichever comes first.
        let pieces = match words.ends_with("alone") {
            true => vec![ran.err.as_str()],
            false => vec!["exam: another network: line "],
        };
        exam(&["same", &b, &a]).told("different\n", 1, &pieces);
    }
}

/// Equal lines and calls in two editions are two networks, which is said before
/// everything else; with its edition stated or not, the first is one.
#[test]
fn same_by_editions() {
    let folder = Folder::new();
    let calls = "4C000F 4C0014 4300000008 4301000011 45";
    let files = [
        ("bare.hex", calls.to_string()),
        ("first.hex", format!("5601 {calls}")),
        ("second.hex", format!("5602 {calls}")),
        (
            "other.hex",
            format!("5602 {}", calls.replace("0014", "001E")),
        ),
    ];
    let [bare, first, second, other] = files.map(|(name, text)| folder.file(name, text));
    exam(&["same", &bare, &first]).printed("same\n", 0);
    exam(&["same", &second, &second]).printed("same\n", 0);
    let told = |one: &str, two: &str, words: &str| {
        let ran = exam(&["same", one, two]);
        ran.told("different\n", 1, &[]);
        let said = ran.err.replace(&format!("{}/", folder.name()), "");
        assert_eq!(said, format!("exam: another network: {words}\n"));
    };
    let words = "bare.hex is in edition 1 and second.hex in edition 2";
    told(&bare, &second, words);
    let words = "second.hex is in edition 2 and first.hex in edition 1";
    told(&second, &first, words);
    let words = "bare.hex is in edition 1 and other.hex in edition 2";
    told(&bare, &other, words);
    let words = "line 1 has period 20 in second.hex and 30 in other.hex";
    told(&second, &other, words);
}

/// A refused file is no network: its refusal, with its name, and the first one's
/// where both are refused.
#[test]
fn same_with_a_refused_file() {
    let folder = Folder::new();
    let bad = folder.file("bad.hex", "4C05A1 4300000008 45");
    let cut = folder.file("cut.net", [0x4C, 0, 15]);
    let of_bad = [
        "refused 5 at 0: the period isn't 1 to 1,440",
        "bad.hex, byte 0",
    ];
    let of_cut = ["refused 1 at 3", "cut.net, nothing behind its 3 bytes"];
    exam(&["same", &bad, HEX]).told("refused 5 at 0\n", 1, &of_bad);
    exam(&["same", HEX, &bad]).told("refused 5 at 0\n", 1, &of_bad);
    exam(&["same", NET, &cut]).told("refused 1 at 3\n", 1, &of_cut);
    exam(&["same", &bad, &cut]).told("refused 5 at 0\n", 1, &of_bad);
    exam(&["same", &cut, &bad]).told("refused 1 at 3\n", 1, &of_cut);
    exam(&["same", &bad, &bad]).told("refused 5 at 0\n", 1, &of_bad);
}

/// Each network is typed or bytes by its own name; a flag counts for both.
#[test]
fn same_of_typed_text_and_bytes() {
    let folder = Folder::new();
    let bytes = std::fs::read(format!("{}/{NET}", ROOT)).expect("a sample");
    let text = typed(&bytes);
    exam(&["same", HEX, NET]).printed("same\n", 0);
    let named = [folder.file("a.net", &text), folder.file("b", &text)];
    exam(&["same", "--typed", &named[0], &named[1]]).printed("same\n", 0);
    exam_with(&["same", "-", HEX, "--typed"], text.as_bytes()).printed("same\n", 0);
    exam_with(&["same", NET, "-", "--bytes"], &bytes).printed("same\n", 0);
    let hint = ["--plan, --typed or --bytes"];
    exam(&["same", HEX, &named[1]]).told("", 2, &hint);
    exam_with(&["same", HEX, "-"], text.as_bytes()).told("", 2, &hint);
    exam(&["same", "no.hex", HEX]).told("", 2, &["no.hex: there is no such file"]);
    exam(&["same", HEX, "no.hex"]).told("", 2, &["no.hex: there is no such file"]);
    // What can't be read comes before what is refused.
    let bad = folder.file("bad.hex", "4C05A1 45");
    exam(&["same", &bad, "no.hex"]).told("", 2, &["no.hex: there is no such file"]);
}

/// The names of a plan stand beside the numbers, those of the first file before
/// those of the second.
#[test]
fn same_with_the_names_of_a_plan() {
    let folder = Folder::new();
    let plan = "line Red every 15\nMarket at 8\nline Green every 20\nMarket at 17\n";
    let a = folder.file("a.plan", plan);
    exam(&["same", &a, HEX]).printed("same\n", 0);
    let told = |one: &str, other: &str, words: &str| {
        let ran = exam(&["same", one, other]);
        ran.told("different\n", 1, &[]);
        let said = ran.err.replace(&format!("{}/", folder.name()), "");
        assert_eq!(said, format!("exam: another network: {words}\n"));
    };
    let b = folder.file("b.hex", "4C000F 4C001E 4300000008 4301000011 45");
    let words = "line 1 'Green' has period 20 in a.plan and 30 in b.hex";
    told(&a, &b, words);
    let words = "line 1 'Green' has period 30 in b.hex and 20 in a.plan";
    told(&b, &a, words);
    let late = folder.file("late.plan", plan.replace("at 17", "at 18"));
    let words = "line 1 'Green' reaches stop 0 'Market' after 17 minutes in a.plan and 18 in \
                 late.plan";
    told(&a, &late, words);
    let other = plan.replace("at 17", "at 18").replace("Market", "Church");
    let other = folder.file("other.plan", other);
    let words = "line 1 'Green' reaches stop 0 'Market' or 'Church' after 17 minutes in a.plan \
                 and 18 in other.plan";
    told(&a, &other, words);
    let more = folder.file("more.plan", format!("{plan}Mill +1\n"));
    told(
        &a,
        &more,
        "line 1 'Green' calls at stop 1 'Mill' in more.plan alone",
    );
    let more = folder.file(
        "lines.plan",
        format!("{plan}line Blue every 5\nMarket at 0\n"),
    );
    told(&more, &a, "line 2 'Blue' is in lines.plan alone");
}
