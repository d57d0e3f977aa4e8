//! The exports are declared in this test as docs/ABI.md has them.

/// The wrapper and this test declare the exports word for word as the document
/// does.
#[test]
fn declared_as_documented() {
    let here = include_str!("main.rs");
    let wrapper = include_str!("../../../engine/src/exports.rs");
    let path = concat!(env!("CARGO_MANIFEST_DIR"), "/../../docs/ABI.md");
    let document = std::fs::read_to_string(path).expect("docs/ABI.md");
    let documented = declaration(&document);
    assert!(documented.matches("fn examination_").count() == 13);
    assert_eq!(declaration(here), documented);
    assert_eq!(declaration(wrapper), documented);
}

/// The text from the line `#[link` to the line `}`.
fn declaration(text: &str) -> String {
    let lines = text.lines().skip_while(|line| !line.starts_with("#[link"));
    let inner = lines.take_while(|line| *line != "}");
    inner.map(|line| format!("{line}\n")).collect()
}
