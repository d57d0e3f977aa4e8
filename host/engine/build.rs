//! Finds the engine's static library, which `tools/staticlib` writes to
//! `target/staticlib` of the repository. The variable EXAMINATION_LIB names
//! another folder.

use std::path::{Path, PathBuf};
use std::process::exit;

const LIBRARY: &str = "libexamination.a";

fn main() {
    println!("cargo:rerun-if-env-changed=EXAMINATION_LIB");
    let folder = folder();
    let library = folder.join(LIBRARY);
    println!("cargo:rerun-if-changed={}", library.display());
    if !library.is_file() {
        // Without the engine there is nothing to wrap and nothing to compare.
        eprintln!("There is no {}.", library.display());
        eprintln!("run: tools/staticlib   (in the folder above host/)");
        exit(1);
    }
    println!("cargo:rustc-link-search=native={}", folder.display());
    let content = std::fs::read(&library).unwrap_or_default();
    let (sum, length) = (cksum(&content), content.len());
    println!("cargo:rustc-env=EXAMINATION_CKSUM={sum} {length}");
}

/// What the command `cksum` says of a file, so that anybody can compare: a
/// remainder by a polynomial, of the content and then its length.
fn cksum(content: &[u8]) -> u32 {
    let bytes = content.len().to_le_bytes();
    let used = bytes
        .iter()
        .rposition(|&byte| byte != 0)
        .map_or(0, |at| at + 1);
    let all = content.iter().chain(&bytes[..used]);
    !all.fold(0, |sum, &byte| {
        let next = |sum: u32, _| (sum << 1) ^ if sum >> 31 == 1 { 0x04C1_1DB7 } else { 0 };
        (0..8).fold(sum ^ (u32::from(byte) << 24), next)
    })
}

fn folder() -> PathBuf {
    match std::env::var_os("EXAMINATION_LIB") {
        Some(folder) => PathBuf::from(folder),
        None => Path::new(env!("CARGO_MANIFEST_DIR")).join("../../target/staticlib"),
    }
}
