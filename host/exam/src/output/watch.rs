//! The sign of life during a long search, and the last words where it is
//! interrupted: on standard error, from a thread of its own, as the engine says
//! nothing until it is done.

use super::streams::say;
use crate::interrupt::{self, Noted};
use std::io::{self, IsTerminal, Write};
use std::sync::mpsc::{self, Receiver, RecvTimeoutError, Sender};
use std::sync::Arc;
use std::thread::{Builder, JoinHandle};
use std::time::{Duration, Instant};

/// How often the thread looks for an end or an interruption.
const GLANCE: Duration = Duration::from_millis(50);

/// A terminal of 80 columns has room for so much in one line.
const WIDTH: usize = 79;

/// What is watched.
pub trait Watched: Send + Sync + 'static {
    /// What is said now and then.
    fn sign(&self) -> String;
    /// What is said before an interrupted command ends.
    fn last_words(&self) -> String;
}

/// Shows signs of life until it is dropped.
pub struct Watch {
    end: Option<Sender<()>>,
    thread: Option<JoinHandle<()>>,
    _noted: Noted,
}

impl Watch {
    pub fn begin(watched: Arc<impl Watched>) -> Watch {
        let noted = Noted::begin();
        let (end, ended) = mpsc::channel();
        let place = match io::stderr().is_terminal() {
            true => Place::Terminal { filled: 0 },
            false => Place::Lines,
        };
        let watch = move || watch(watched.as_ref(), &ended, place);
        // Without a thread the search goes on as well, only silently.
        let thread = Builder::new().spawn(watch).ok();
        Watch {
            end: Some(end),
            thread,
            _noted: noted,
        }
    }
}

impl Drop for Watch {
    fn drop(&mut self) {
        // The thread ends when nobody is left to send; waiting for it keeps a
        // late sign from coming after the answer.
        drop(self.end.take());
        if let Some(thread) = self.thread.take() {
            let _ = thread.join();
        }
    }
}

fn watch(watched: &impl Watched, ended: &Receiver<()>, mut place: Place) {
    let clock = Instant::now();
    let mut due = FIRST;
    loop {
        let over = ended.recv_timeout(GLANCE) != Err(RecvTimeoutError::Timeout);
        if interrupt::came() {
            place.clear();
            say(&format!("exam: {}", watched.last_words()));
            interrupt::end();
        }
        if over {
            return place.clear();
        }
        let elapsed = clock.elapsed();
        if elapsed >= due {
            place.show(&format!(
                "exam: {} s, {}",
                elapsed.as_secs(),
                watched.sign()
            ));
            due = place.due_after(elapsed);
        }
    }
}

/// A search shorter than this needs no sign.
const FIRST: Duration = Duration::from_secs(1);

/// Where signs are shown.
enum Place {
    /// A file or a pipe: plain lines, of which a log can have many.
    Lines,
    /// A terminal: one line, written over each time. So many columns are filled.
    Terminal { filled: usize },
}

impl Place {
    /// When the next sign is due.
    fn due_after(&self, elapsed: Duration) -> Duration {
        let pause = match self {
            Place::Lines => 10,
            Place::Terminal { .. } => 1,
        };
        let pauses = elapsed.saturating_sub(FIRST).as_secs() / pause + 1;
        FIRST + Duration::from_secs(pauses * pause)
    }

    fn show(&mut self, sign: &str) {
        match self {
            Place::Lines => say(sign),
            Place::Terminal { filled } => write_now(&written_over(filled, sign)),
        }
    }

    /// Leaves the line to the answer.
    fn clear(&mut self) {
        if let Place::Terminal { filled: 1.. } = self {
            self.show("");
            write_now("\r");
        }
    }
}

/// A sign in place of the one before. Blanks cover what that had more; there are
/// terminals that know no other way.
fn written_over(filled: &mut usize, sign: &str) -> String {
    let sign: String = sign.chars().take(WIDTH).collect();
    let length = sign.chars().count();
    let blanks = " ".repeat(filled.saturating_sub(length));
    *filled = length;
    format!("\r{sign}{blanks}")
}

/// Where nobody listens there is nothing left to say it to.
fn write_now(text: &str) {
    let mut err = io::stderr().lock();
    let _ = err.write_all(text.as_bytes()).and_then(|()| err.flush());
}

#[cfg(test)]
mod tests {
    use super::{written_over, Place, FIRST};
    use std::time::Duration;

    /// When signs come whose thread wakes a little late each time.
    fn times(place: Place) -> Vec<u64> {
        let late = Duration::from_millis(40);
        let after = |due: &Duration| Some(place.due_after(*due + late));
        let due = std::iter::successors(Some(FIRST), after).take(4);
        due.map(|due| due.as_secs()).collect()
    }

    #[test]
    fn the_rhythm() {
        assert_eq!(FIRST, Duration::from_secs(1));
        assert_eq!(times(Place::Lines), [1, 11, 21, 31]);
        assert_eq!(times(Place::Terminal { filled: 0 }), [1, 2, 3, 4]);
        // A machine that slept doesn't make up for it.
        let slept = Duration::from_secs(3_605);
        assert_eq!(Place::Lines.due_after(slept), Duration::from_secs(3_611));
    }

    #[test]
    fn one_line_of_a_terminal() {
        let mut filled = 0;
        assert_eq!(written_over(&mut filled, "12345"), "\r12345");
        assert_eq!(written_over(&mut filled, "zoë"), "\rzoë  ");
        assert_eq!(written_over(&mut filled, ""), "\r   ");
        let long = written_over(&mut filled, &"x".repeat(100));
        assert_eq!((long.len(), filled), (80, 79));
    }
}
