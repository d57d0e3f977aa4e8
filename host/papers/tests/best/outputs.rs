//! Standard output that fails.

use crate::given::{long_search, PAPER, PAPER_LINE};
use crate::inputs::said;
use papers::child::Limited;
use papers::program;
use std::collections::BTreeSet;
use std::fs::File;
use std::os::fd::OwnedFd;
use std::os::unix::net::UnixDatagram;
use std::process::Stdio;
use std::time::Duration;

const UNWRITTEN: &str = "best: writing standard output failed\n";

#[test]
fn outputs_that_fail() {
    let stopped = long_search(1, 4, 8);
    for input in [&PAPER[..], &[], &stopped] {
        let full = File::options().write(true).open("/dev/full");
        assert_eq!(complaint(full.expect("a full device"), input), UNWRITTEN);
        let read_only = File::open("/dev/null").expect("a file");
        assert_eq!(complaint(read_only, input), UNWRITTEN);
        let null = File::options().write(true).open("/dev/null");
        assert_eq!(complaint(null.expect("a file"), input), "");
    }
}

/// Each write in turn is the first that fails: the program says so once, and
/// what it printed is a part of the line.
#[test]
fn outputs_that_fail_behind_a_part() {
    let mut parts = BTreeSet::new();
    for room in 0..20 {
        let (ours, output) = output_with_room(room);
        let complaint = complaint(output, &PAPER);
        let part = received(&ours);
        assert!(PAPER_LINE.starts_with(&part), "{part}");
        let whole = part == PAPER_LINE;
        assert_eq!(complaint, if whole { "" } else { UNWRITTEN });
        parts.insert(part);
    }
    // The line takes twelve writes.
    assert_eq!(parts.len(), 13, "{parts:?}");
}

/// An output on which so many writes succeed, and where they arrive. A write is
/// a message there, and empty ones take up the rest of the room.
fn output_with_room(room: usize) -> (UnixDatagram, OwnedFd) {
    let (ours, output) = UnixDatagram::pair().expect("two ends");
    for end in [&ours, &output] {
        end.set_nonblocking(true).expect("an end that never waits");
    }
    while output.send(&[]).is_ok() {}
    for _ in 0..room {
        ours.recv(&mut []).expect("an empty message");
    }
    (ours, output.into())
}

/// The messages that wait here, in one text.
fn received(socket: &UnixDatagram) -> String {
    let mut text = Vec::new();
    let mut message = [0; 64];
    while let Ok(length) = socket.recv(&mut message) {
        text.extend(&message[..length]);
    }
    String::from_utf8(text).expect("text")
}

/// What the program complains of when its output goes here.
fn complaint(stdout: impl Into<Stdio>, input: &[u8]) -> String {
    let mut command = program::best();
    command.stdin(Stdio::piped()).stdout(stdout);
    command.stderr(Stdio::piped());
    let mut child = Limited::start(&mut command);
    child.hand_over(&[input], Duration::ZERO);
    said(&child.output()).1
}
