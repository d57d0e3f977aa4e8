//! Runs `exam` and keeps files for it.

#![allow(dead_code)]

pub mod xml;

use papers::child::Limited;
use std::path::{Path, PathBuf};
use std::process::{Child, Command, Stdio};
use std::sync::atomic::{AtomicUsize, Ordering};
use std::time::Duration;

/// The repository.
pub const ROOT: &str = concat!(env!("CARGO_MANIFEST_DIR"), "/../..");

pub const NET: &str = "samples/two_lines.net";
pub const HEX: &str = "samples/two_lines.hex";
pub const BEST_LINE: &str = "gap 2 sum 2 tries 21 starts 0 3\n";

/// P9 of document 01.
pub const P9: &str =
    "4C0014 4C001E 4300000000 4301000000 4300010007 4301010011 4300020005 4301020008 45";

/// What a run of `exam` left.
#[derive(Debug)]
pub struct Ran {
    pub status: i32,
    pub out: String,
    pub err: String,
}

impl Ran {
    /// Demands standard output, status, and silence on standard error.
    pub fn printed(&self, out: &str, status: i32) {
        assert_eq!((self.out.as_str(), self.status), (out, status), "{self:?}");
        assert_eq!(self.err, "", "{self:?}");
    }

    /// Demands standard output, status and standard error.
    pub fn said(&self, out: &str, status: i32, err: &str) {
        assert_eq!((self.out.as_str(), self.status), (out, status), "{self:?}");
        assert_eq!(self.err, err, "{self:?}");
    }

    /// Demands standard output, status, and these pieces on standard error.
    pub fn told(&self, out: &str, status: i32, pieces: &[&str]) {
        assert_eq!((self.out.as_str(), self.status), (out, status), "{self:?}");
        for piece in pieces {
            assert!(self.err.contains(piece), "no '{piece}' in {self:?}");
        }
    }
}

/// The command, in the repository's folder.
pub fn command(words: &[&str]) -> Command {
    let mut command = Command::new(env!("CARGO_BIN_EXE_exam"));
    command.current_dir(ROOT).args(words);
    command.stdin(Stdio::null());
    command.stdout(Stdio::piped());
    command.stderr(Stdio::piped());
    command
}

/// Runs `exam` with nothing on standard input.
pub fn exam(words: &[&str]) -> Ran {
    ended(command(words).spawn().expect("exam starts"))
}

/// Runs `exam` with a standard input.
pub fn exam_with(words: &[&str], input: &[u8]) -> Ran {
    let mut command = command(words);
    let mut child = Limited::start(command.stdin(Stdio::piped()));
    child.hand_over(&[input], Duration::ZERO);
    left_by(child)
}

/// Runs a verb on a network that comes on standard input, in the form of the flag, and a sheet
/// of these starts.
pub fn exam_on(verb: &str, (network, flag): (&str, &str), starts: &str, more: &[&str]) -> Ran {
    let folder = Folder::new();
    let sheet = folder.file("a.sheet", starts);
    let words = [verb, "-", &sheet, flag];
    exam_with(&[&words, more].concat(), network.as_bytes())
}

/// Waits for the end of a run that has just been started.
pub fn ended(child: Child) -> Ran {
    left_by(Limited::of(child))
}

/// Waits for the end. No run may panic, and each ends by itself and in time.
fn left_by(child: Limited) -> Ran {
    let output = child.output();
    let err = String::from_utf8_lossy(&output.stderr).into_owned();
    assert!(!err.contains("panicked"), "{err}");
    Ran {
        status: output.status.code().expect("an exit status"),
        out: String::from_utf8_lossy(&output.stdout).into_owned(),
        err,
    }
}

/// What a run wrote, bytes as they are.
pub fn written(words: &[&str]) -> Vec<u8> {
    let output = Limited::start(&mut command(words)).output();
    assert_eq!((output.status.code(), output.stderr), (Some(0), vec![]));
    output.stdout
}

/// Bytes as an author types them, a command to a line where it is easy.
pub fn typed(bytes: &[u8]) -> String {
    let pairs: Vec<String> = bytes.iter().map(|byte| format!("{byte:02x}")).collect();
    pairs.join(" ") + "\n"
}

/// A folder that is removed with all its files in the end.
pub struct Folder(PathBuf);

impl Folder {
    pub fn new() -> Folder {
        static NEXT: AtomicUsize = AtomicUsize::new(0);
        let number = NEXT.fetch_add(1, Ordering::Relaxed);
        let name = format!("exam-{}-{number}", std::process::id());
        let path = std::env::temp_dir().join(name);
        std::fs::create_dir_all(&path).expect("a folder");
        Folder(path)
    }

    pub fn path(&self) -> &Path {
        &self.0
    }

    /// Writes a file and returns its path.
    pub fn file(&self, name: &str, content: impl AsRef<[u8]>) -> String {
        let path = self.0.join(name);
        std::fs::write(&path, content).expect("a file");
        path.to_str().expect("a plain name").to_string()
    }

    pub fn name(&self) -> String {
        self.0.to_str().expect("a plain name").to_string()
    }
}

impl Drop for Folder {
    fn drop(&mut self) {
        let _ = std::fs::remove_dir_all(&self.0);
    }
}
