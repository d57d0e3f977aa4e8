//! Ctrl-C (SIGINT) while the engine searches. The engine can't be interrupted, but
//! what is known by then can be said before the command ends.
//!
//! The standard library has no signals, so this file declares the two functions
//! of the C library that it takes; only it and `closed.rs` have unsafe code. The
//! handler does no more than note that the signal came. Who watches the search
//! looks for the note.

#![allow(unsafe_code)]

use std::sync::atomic::{AtomicBool, Ordering};

/// The number of SIGINT, what `signal` takes for no handler, and what it takes
/// for a signal that is passed over: those of Linux, where the engine runs.
const SIGINT: i32 = 2;
const DEFAULT: usize = 0;
const IGNORED: usize = 1;

extern "C" {
    fn signal(number: i32, handler: usize) -> usize;
    fn raise(number: i32) -> i32;
}

static CAME: AtomicBool = AtomicBool::new(false);

/// A second Ctrl-C ends the command at once, also where nobody looks.
extern "C" fn note(_number: i32) {
    CAME.store(true, Ordering::SeqCst);
    handle_by(DEFAULT);
}

fn handle_by(handler: usize) -> usize {
    // SAFETY: declared as in signal.h, pointers to functions being numbers of
    // their size; the handler is `note`, which is there for the whole run and
    // calls nothing that a handler may not, or what `signal` takes or gave.
    unsafe { signal(SIGINT, handler) }
}

/// Notes the signal until it is dropped.
pub struct Noted {
    before: usize,
}

impl Noted {
    /// A signal that is passed over, as behind `nohup`, stays passed over.
    pub fn begin() -> Noted {
        let before = handle_by(note as *const () as usize);
        if before == IGNORED {
            handle_by(IGNORED);
        }
        Noted { before }
    }
}

impl Drop for Noted {
    fn drop(&mut self) {
        handle_by(self.before);
        // It came too late for whoever looks.
        if came() {
            end();
        }
    }
}

/// Whether the signal came.
pub fn came() -> bool {
    CAME.load(Ordering::SeqCst)
}

/// Ends the command by the signal, as if it had never been noted: a shell says
/// status 130, and its loops end too.
pub fn end() -> ! {
    handle_by(DEFAULT);
    // SAFETY: declared as in signal.h; it takes any number.
    unsafe { raise(SIGINT) };
    std::process::exit(128 + SIGINT)
}
