//! The example program, run on the samples.

#[path = "../examples/hall.rs"]
#[allow(dead_code)]
mod hall;

const SAMPLES: &str = concat!(env!("CARGO_MANIFEST_DIR"), "/../../samples");

/// What the example prints for sheets of a network of the samples, without the
/// folder's name.
fn printed(network: &str, sheets: &[&str]) -> Vec<String> {
    let path = |name: &str| format!("{SAMPLES}/{name}");
    let sheets: Vec<String> = sheets.iter().map(|name| path(name)).collect();
    let lines = hall::marks(&path(network), &sheets).expect("an accepted network");
    let folder = format!("{SAMPLES}/");
    let shorter = lines.iter().map(|line| line.replace(&folder, ""));
    shorter.collect()
}

#[test]
fn marks_of_the_samples() {
    let sheets = [
        "village/perfect.sheet",
        "village/beaten.sheet",
        "village/too_short.sheet",
    ];
    let lines = [
        "village/perfect.sheet: gap 3 sum 126, the best there is",
        "village/beaten.sheet: gap 3 sum 125, the best is gap 3 sum 126, mark 100 remainder 0",
        "village/too_short.sheet: refused 15 at 0",
    ];
    assert_eq!(printed("village.hex", &sheets), lines);
    // 3,080,311 tries are needed here.
    let lines = ["town/perfect.sheet: gap 3 sum 201, the best isn't known"];
    assert_eq!(printed("town.hex", &["town/perfect.sheet"]), lines);
}

#[test]
fn sheets_and_networks_that_are_none() {
    let lines = printed("two_lines.hex", &["two_lines.hex", "two_lines/no.sheet"]);
    assert_eq!(lines[0], "two_lines.hex: invalid digit found in string");
    assert!(lines[1].starts_with("two_lines/no.sheet: "), "{}", lines[1]);
    let why = hall::marks(&format!("{SAMPLES}/two_lines.net"), &[]).unwrap_err();
    assert!(
        why.to_string().contains("two_lines.net, text line 1: "),
        "{why}"
    );
}
