//! Whether standard input and standard output were open when the command was
//! started. Rust opens /dev/null in place of a closed one before `main`, so that
//! an answer would vanish with status 0; it can only be asked before that, and
//! only by the C library. Only this file and `interrupt.rs` have unsafe code.
//!
//! Why it is sound: the list `.init_array` is of functions that the C library
//! calls once, on one thread, before `main`; the one here uses none of the
//! arguments that they are handed and needs nothing that Rust sets up later.

#![allow(unsafe_code)]

use std::sync::atomic::{AtomicBool, Ordering};

/// What `fcntl` is asked: the flags of a descriptor. It says -1 of a closed one.
const FLAGS: i32 = 1;

static CLOSED: [AtomicBool; 2] = [AtomicBool::new(false), AtomicBool::new(false)];

extern "C" {
    fn fcntl(descriptor: i32, command: i32, ...) -> i32;
}

#[used]
#[link_section = ".init_array"]
static ASK: extern "C" fn() = ask;

extern "C" fn ask() {
    for (descriptor, closed) in (0..).zip(&CLOSED) {
        // SAFETY: declared as in fcntl.h; to ask for flags changes none, and a
        // descriptor that isn't open is answered by -1.
        let flags = unsafe { fcntl(descriptor, FLAGS) };
        closed.store(flags == -1, Ordering::Relaxed);
    }
}

pub fn input() -> bool {
    CLOSED[0].load(Ordering::Relaxed)
}

pub fn output() -> bool {
    CLOSED[1].load(Ordering::Relaxed)
}
