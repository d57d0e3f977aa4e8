//! The papers in Rust are independent: no file of `src/sections` names the
//! engine, or anything of this crate but the sections. And the reading before editions
//! stays as it was: of the sections it has two types alone.

#[test]
fn the_sections_use_themselves_alone() {
    let folder = concat!(env!("CARGO_MANIFEST_DIR"), "/src/sections");
    let mut imports = 0;
    for entry in std::fs::read_dir(folder).expect("the sections") {
        let path = entry.expect("a file").path();
        let text = std::fs::read_to_string(&path).expect("a source");
        assert!(!text.contains("engine::"), "{}", path.display());
        for line in text.lines().filter(|line| line.starts_with("use ")) {
            let own = line.starts_with("use super::") || line.starts_with("use std::");
            assert!(own, "{}: {line}", path.display());
            imports += 1;
        }
    }
    assert!(imports >= 7, "{imports} imports");
}

#[test]
fn the_reading_before_editions_shares_two_types() {
    let path = concat!(env!("CARGO_MANIFEST_DIR"), "/src/before_editions.rs");
    let text = std::fs::read_to_string(path).expect("a source");
    let from_elsewhere = |line: &&str| {
        let paths = ["crate::", "super::", "engine::", "papers::"];
        let import = line.trim_start().starts_with("use ");
        import || paths.iter().any(|path| line.contains(path))
    };
    let imports: Vec<&str> = text.lines().filter(from_elsewhere).collect();
    assert_eq!(imports, ["use crate::sections::network::{Call, Refusal};"]);
}
