//! A child process with a time limit: one that hangs is ended, and the test that
//! started it fails with words that say so.

use std::io::{ErrorKind, Read, Write};
use std::process::{Child, Command, ExitStatus, Output, Stdio};
use std::sync::atomic::{AtomicBool, Ordering};
use std::sync::mpsc::{channel, RecvTimeoutError, Sender};
use std::sync::{Arc, Mutex, MutexGuard};
use std::time::Duration;

/// The longest run of a test takes some seconds; on a machine with much other
/// work it may take ten times as long.
pub const LIMIT: Duration = Duration::from_secs(60);

/// A child that doesn't outlive its limit, nor the test that holds it.
pub struct Limited {
    shared: Arc<Shared>,
    limit: Duration,
    /// Once it is gone, the watch is over.
    _watched: Sender<()>,
}

struct Shared {
    child: Mutex<Child>,
    hung: AtomicBool,
}

impl Limited {
    /// Starts a command.
    pub fn start(command: &mut Command) -> Limited {
        let child = command.spawn();
        Limited::of(child.unwrap_or_else(|error| panic!("{command:?} doesn't start: {error}")))
    }

    /// A child that has just been started.
    pub fn of(child: Child) -> Limited {
        Limited::within(child, LIMIT)
    }

    /// The same with another limit.
    pub fn within(child: Child, limit: Duration) -> Limited {
        let shared = Arc::new(Shared {
            child: Mutex::new(child),
            hung: AtomicBool::new(false),
        });
        let (watched, watch) = channel();
        let seen = Arc::clone(&shared);
        std::thread::spawn(move || {
            if watch.recv_timeout(limit) == Err(RecvTimeoutError::Timeout) {
                seen.hung.store(true, Ordering::SeqCst);
                seen.end();
            }
        });
        Limited {
            shared,
            limit,
            _watched: watched,
        }
    }

    /// The number of the process.
    pub fn id(&self) -> u32 {
        self.shared.child().id()
    }

    /// Writes the input piece by piece, with a pause behind each, and closes it.
    /// What doesn't decide may stay unread.
    pub fn hand_over(&mut self, pieces: &[&[u8]], pause: Duration) {
        let stdin = self.shared.child().stdin.take();
        let mut stdin = stdin.expect("a pipe");
        for piece in pieces {
            match stdin.write_all(piece).and_then(|()| stdin.flush()) {
                Ok(()) => {}
                Err(error) if error.kind() == ErrorKind::BrokenPipe => return,
                Err(error) => panic!("writing to the child: {error}"),
            }
            if !pause.is_zero() {
                std::thread::sleep(pause);
            }
        }
    }

    /// All that the child prints, up to the end of its output.
    pub fn printed(&mut self) -> Vec<u8> {
        let stdout = self.shared.child().stdout.take();
        read_all(stdout)
    }

    /// Waits for the child's end, and fails where that was the limit's doing.
    pub fn output(self) -> Output {
        let (stdout, stderr) = {
            let mut child = self.shared.child();
            drop(child.stdin.take());
            (child.stdout.take(), child.stderr.take())
        };
        let stdout = std::thread::spawn(move || read_all(stdout));
        let stderr = std::thread::spawn(move || read_all(stderr));
        let status = loop {
            let read = stdout.is_finished() && stderr.is_finished();
            let ended = if read { self.shared.ended() } else { None };
            // Asked behind the end, which may be the limit's doing, and also where
            // somebody else holds an output open.
            let hung = self.shared.hung.load(Ordering::SeqCst);
            assert!(!hung, "the child hung: it was ended after {:?}", self.limit);
            if let Some(status) = ended {
                break status;
            }
            std::thread::sleep(Duration::from_micros(200));
        };
        let [stdout, stderr] =
            [stdout, stderr].map(|read| read.join().expect("what the child says"));
        Output {
            status,
            stdout,
            stderr,
        }
    }
}

impl Drop for Limited {
    /// A test that fails meanwhile leaves nothing running.
    fn drop(&mut self) {
        self.shared.end();
    }
}

impl Shared {
    fn child(&self) -> MutexGuard<'_, Child> {
        let held = self.child.lock();
        held.unwrap_or_else(|poisoned| poisoned.into_inner())
    }

    /// How the child ended, if it has.
    fn ended(&self) -> Option<ExitStatus> {
        self.child().try_wait().expect("a child to wait for")
    }

    /// Ends the child and what it leads. While it isn't waited for, its number is
    /// nobody else's.
    fn end(&self) {
        let mut child = self.child();
        if matches!(child.try_wait(), Ok(None)) {
            end_group(child.id());
            let _ = child.kill();
            let _ = child.wait();
        }
    }
}

/// Ends what the child itself has started, if it leads a group: that would keep
/// its output open. Where there is no such group, nothing is done.
fn end_group(leader: u32) {
    let mut kill = Command::new("sh");
    kill.args(["-c", "kill -s KILL -- \"-$0\"", &leader.to_string()]);
    let _ = kill.stderr(Stdio::null()).status();
}

fn read_all(stream: Option<impl Read>) -> Vec<u8> {
    let mut bytes = Vec::new();
    if let Some(mut stream) = stream {
        stream.read_to_end(&mut bytes).expect("what the child says");
    }
    bytes
}
