//! Standard input: long, in pieces, failing.

use crate::cases::deepest_walk;
use crate::given::{agreed, long_search, shown, PAPER, PAPER_LINE, SHORT};
use papers::child::Limited;
use papers::files::{very_long_file, Dice};
use papers::program;
use papers::sections::best::best;
use std::fs::File;
use std::io::Write;
use std::os::fd::OwnedFd;
use std::os::unix::net::UnixStream;
use std::process::{Output, Stdio};
use std::time::Duration;

/// What the program says on standard error.
const UNREAD: &str = "best: reading standard input failed\n";

/// Long enough for the program to ask for more before the next piece comes.
const PAUSE: Duration = Duration::from_millis(20);

/// "its first 4,096 bytes decide": no accepted file is that long, so what
/// stands behind them only must do no harm.
#[test]
fn inputs_longer_than_what_decides() {
    for length in [4_095, 4_096, 4_097, 8_192, 70_000, 1_000_000] {
        let mut input = PAPER.to_vec();
        input.resize(length, 0x4C);
        assert_eq!(agreed(&input), "refused 14 at 17\n");
        assert_eq!(agreed(&vec![0; length]), "refused 2 at 0\n");
        // A seventeenth line.
        let mut lines = [0x4C, 0, 60].repeat(length / 3 + 1);
        lines.truncate(length);
        assert_eq!(agreed(&lines), "refused 4 at 48\n");
        // A 257th call, behind which the file could go on.
        let mut calls = deepest_walk();
        calls.pop();
        calls.extend([0x43, 0, 63, 0, 0].repeat(length / 5 + 1));
        assert_eq!(agreed(&calls), "refused 10 at 1328\n");
    }
    let mut dice = Dice::new(22);
    for _ in 0..100 {
        agreed(&very_long_file(&mut dice));
    }
}

/// An input without an end is decided by its beginning as well.
#[test]
fn an_endless_input() {
    let mut command = program::best();
    command.stdin(File::open("/dev/zero").expect("zeros"));
    command.stdout(Stdio::piped());
    let ended = Limited::start(&mut command).output();
    assert_eq!(ended.stdout, b"refused 2 at 0\n");
}

#[test]
fn inputs_in_pieces() {
    let long = long_search(5, 8, 64);
    let mut behind = PAPER.to_vec();
    behind.resize(9_000, 0);
    let empty = [&[][..]; 3];
    in_pieces(&empty, "refused 1 at 0\n");
    for size in [1, 2, 3, 5, 16] {
        in_pieces(&PAPER.chunks(size).collect::<Vec<_>>(), PAPER_LINE);
    }
    in_pieces(
        &SHORT[..8].chunks(3).collect::<Vec<_>>(),
        "refused 1 at 8\n",
    );
    in_pieces(&long.chunks(100).collect::<Vec<_>>(), &best(&long));
    in_pieces(&behind.chunks(1_000).collect::<Vec<_>>(), &best(&behind));
}

/// The program prints this line however the input's pieces come.
fn in_pieces(pieces: &[&[u8]], line: &str) {
    let printed = program::printed_for_pieces(program::best(), pieces, PAUSE);
    assert_eq!(printed, line, "for {}", shown(&pieces.concat()));
}

/// What can't be read at all, and what fails behind a beginning that would be
/// accepted or refused.
#[test]
fn inputs_that_fail() {
    let unread = (String::new(), UNREAD.to_string());
    let write_only = File::options().write(true).open("/dev/null");
    assert_eq!(said_of(File::open("/").expect("a directory")), unread);
    assert_eq!(said_of(write_only.expect("a file")), unread);
    for beginning in [&[][..], &PAPER, &PAPER[..3], &[0; 4_095]] {
        assert_eq!(said_of(broken_off(beginning)), unread);
    }
    // The first 4,096 bytes decide, so that nothing behind them is asked for.
    let refused = ("refused 2 at 0\n".to_string(), String::new());
    assert_eq!(said_of(broken_off(&[0; 4_096])), refused);
}

fn said_of(stdin: impl Into<Stdio>) -> (String, String) {
    let mut command = program::best();
    command.stdin(stdin);
    command.stdout(Stdio::piped()).stderr(Stdio::piped());
    said(&Limited::start(&mut command).output())
}

/// An input that fails behind its beginning: the other end is gone and has
/// left something unread.
fn broken_off(beginning: &[u8]) -> OwnedFd {
    let (mut gone, mut input) = UnixStream::pair().expect("two ends");
    input.write_all(b"left").expect("room");
    gone.write_all(beginning).expect("room");
    input.into()
}

/// What the program prints and what it complains of. It ends well in any case,
/// since it can't set its exit status.
pub fn said(ended: &Output) -> (String, String) {
    assert!(ended.status.success(), "it ended with {}", ended.status);
    let text = |bytes| String::from_utf8_lossy(bytes).into_owned();
    (text(&ended.stdout), text(&ended.stderr))
}
