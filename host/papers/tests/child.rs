//! Children that hang are ended in time, and others aren't disturbed.

use papers::child::Limited;
use std::os::unix::process::CommandExt;
use std::panic::{catch_unwind, AssertUnwindSafe};
use std::process::{Command, Stdio};
use std::time::{Duration, Instant};

/// Far above a limit, far below what the children would take.
const SOON: Duration = Duration::from_secs(30);

fn shell(script: &str, limit: Duration) -> Limited {
    let mut command = Command::new("sh");
    command.args(["-c", script]).process_group(0);
    command.stdin(Stdio::piped());
    command.stdout(Stdio::piped()).stderr(Stdio::piped());
    Limited::within(command.spawn().expect("a shell"), limit)
}

/// The words with which waiting for a child fails, and that it fails soon.
fn words_of(script: &str, input: &[u8]) -> String {
    let clock = Instant::now();
    let mut child = shell(script, Duration::from_millis(300));
    let waited = catch_unwind(AssertUnwindSafe(|| {
        child.hand_over(&[input], Duration::ZERO);
        child.output()
    }));
    assert!(clock.elapsed() < SOON, "'{script}' was waited for");
    let why = waited.expect_err("a child that hung");
    *why.downcast::<String>().expect("words")
}

#[test]
fn a_child_that_hangs_is_ended() {
    let words = "the child hung: it was ended after 300ms";
    assert_eq!(words_of("exec sleep 600", &[]), words);
    // Its outputs are closed, and it goes on.
    let closed = "exec >/dev/null 2>/dev/null; exec sleep 600";
    assert_eq!(words_of(closed, &[]), words);
    // It reads nothing, and the input is longer than a pipe holds.
    assert_eq!(words_of("exec sleep 600", &[0; 1_000_000]), words);
    // What it has started holds the output open.
    assert_eq!(words_of("sleep 600; echo never", &[]), words);
}

#[test]
fn a_child_that_ends_is_left_alone() {
    let both = "head -c 300000 /dev/zero; head -c 300000 /dev/zero >&2; exit 7";
    let ended = shell(both, Duration::from_secs(60)).output();
    assert_eq!((ended.stdout.len(), ended.stderr.len()), (300_000, 300_000));
    assert_eq!(ended.status.code(), Some(7));
    let mut child = shell("cat; echo said >&2", Duration::from_secs(60));
    child.hand_over(&[b"in ", b"pieces"], Duration::from_millis(5));
    assert_eq!(child.printed(), b"in pieces");
    assert_eq!(child.output().stderr, b"said\n");
}

/// A test that fails before it waits leaves no child behind.
#[test]
fn a_child_is_ended_with_its_test() {
    let child = shell("exec sleep 600", Duration::from_secs(60));
    let account = format!("/proc/{}/stat", child.id());
    assert!(std::fs::exists(&account).expect("an account"));
    drop(child);
    assert!(!std::fs::exists(&account).expect("an account"));
}
