//! `exam type`.

use crate::common::{exam, exam_with, written, Folder, HEX, NET, ROOT};

#[test]
fn type_prints_commented_pairs() {
    let plan = "line Red every 15\n  Market at 8\n  Mill +2\nline Green every 20\n  Market at 17\n";
    let typed = "\
4C 000F          # line 0 'Red': every 15 minutes
43 00 00 0008    # line 0 'Red' reaches stop 0 'Market' after 8 minutes
43 00 01 000A    # line 0 'Red' reaches stop 1 'Mill' after 10 minutes
4C 0014          # line 1 'Green': every 20 minutes
43 01 00 0011    # line 1 'Green' reaches stop 0 'Market' after 17 minutes
45               # the end
";
    exam_with(&["type", "-", "--plan"], plan.as_bytes()).printed(typed, 0);
    let folder = Folder::new();
    let (plan, typed) = (folder.file("a.plan", plan), folder.file("a.hex", typed));
    exam(&["same", &plan, &typed]).printed("same\n", 0);
    let raw = folder.file("a.net", written(&["type", &plan, "--raw"]));
    exam(&["same", &plan, &raw]).printed("same\n", 0);
    assert_eq!(
        written(&["type", &typed, "--raw"]),
        written(&["type", &raw, "--raw"])
    );
}

/// What isn't a plan is typed as it is, rides among it, and has no names.
#[test]
fn type_of_other_networks() {
    let rides = "4C003C 4300090064 4600010001 45";
    let typed = "\
4C 003C          # line 0: every 60 minutes
43 00 09 0064    # line 0 reaches stop 9 after 100 minutes
46 00 01 0001    # line 0 rides 1 minutes on to stop 1
45               # the end
";
    exam_with(&["type", "-", "--typed"], rides.as_bytes()).printed(typed, 0);
    exam_with(&["type", "-", "--typed"], typed.as_bytes()).printed(typed, 0);
    let bytes = std::fs::read(format!("{ROOT}/{NET}")).expect("a sample");
    assert_eq!(written(&["type", HEX, "--raw"]), bytes);
}

/// An edition stands first, be it stated by a plan or typed, and the first one too.
#[test]
fn type_with_an_edition() {
    let typed = "\
56 02            # edition 2
4C 000F          # line 0 'Red': every 15 minutes
43 00 00 0008    # line 0 'Red' reaches stop 0 'Market' after 8 minutes
43 00 01 000A    # line 0 'Red' reaches stop 1 'Mill' after 10 minutes
45               # the end
";
    let plan = "edition 2\nline Red every 15\n  Market at 8\n  Mill +2\n";
    exam_with(&["type", "-", "--plan"], plan.as_bytes()).printed(typed, 0);
    let first = "56 01            # edition 1\n4C 000F          # line 0: every 15 minutes\n\
                 43 00 00 0008    # line 0 reaches stop 0 after 8 minutes\n\
                 45               # the end\n";
    let text = "5601 4C000F 4300000008 45";
    exam_with(&["type", "-", "--typed"], text.as_bytes()).printed(first, 0);
}

#[test]
fn type_of_a_refused_network() {
    let pieces = ["refused 5 at 0", "text line 1: line Red every 0"];
    for raw in [&[][..], &["--raw"]] {
        let words = [&["type", "-", "--plan"], raw].concat();
        exam_with(&words, b"line Red every 0").told("refused 5 at 0\n", 1, &pieces);
    }
}
