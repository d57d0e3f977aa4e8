//! Runs the proved engine's program `best`, which `tools/best` builds.

use crate::child::Limited;
use std::path::Path;
use std::process::{Command, Stdio};
use std::time::Duration;

/// Where `tools/best` puts the program.
pub const BEST: &str = concat!(env!("CARGO_MANIFEST_DIR"), "/../../target/bin/best");

/// The command that runs `best`. A missing program is a failure, never a
/// reason to pass over what was to be compared.
pub fn best() -> Command {
    demand_best();
    Command::new(BEST)
}

/// `best` with a stack of so many kilobytes at most.
pub fn best_on_stack(kilobytes: u32) -> Command {
    demand_best();
    let mut command = Command::new("sh");
    command.args(["-c", "ulimit -s \"$1\" && exec \"$0\"", BEST]);
    command.arg(kilobytes.to_string());
    command
}

fn demand_best() {
    let there = Path::new(BEST).is_file();
    assert!(there, "no program {BEST}: run tools/best, which builds it");
}

/// What the program prints for a standard input.
pub fn printed(command: Command, input: &[u8]) -> String {
    printed_for_pieces(command, &[input], Duration::ZERO)
}

/// What the program prints for a standard input that comes in pieces, with a
/// pause behind each of them.
pub fn printed_for_pieces(command: Command, pieces: &[&[u8]], pause: Duration) -> String {
    let mut child = started(command);
    child.hand_over(pieces, pause);
    let line = line(&mut child);
    reap(child);
    line
}

/// Starts the program, its three streams being pipes.
pub fn started(mut command: Command) -> Limited {
    command.stdin(Stdio::piped());
    command.stdout(Stdio::piped());
    command.stderr(Stdio::piped());
    Limited::start(&mut command)
}

/// All that the program prints, up to its end.
pub fn line(child: &mut Limited) -> String {
    String::from_utf8_lossy(&child.printed()).into_owned()
}

/// Sees to it that the program ended well and without complaints.
pub fn reap(child: Limited) {
    let ended = child.output();
    let complaints = String::from_utf8_lossy(&ended.stderr);
    assert!(
        ended.status.success() && complaints.is_empty(),
        "the program ended with {}: {complaints}",
        ended.status
    );
}
