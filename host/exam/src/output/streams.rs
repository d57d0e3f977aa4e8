//! Standard output, where the answers go, and standard error, where everything
//! else goes.

use super::escape;
use crate::status::Trouble;
use crate::system;
use std::io::{self, ErrorKind, Write};

/// Writes an answer, text with its line ends or bytes.
pub fn put(answer: impl AsRef<[u8]>) -> Result<(), Trouble> {
    let mut out = io::stdout().lock();
    let written = out.write_all(answer.as_ref()).and_then(|()| out.flush());
    written.map_err(|error| match error.kind() {
        // Who reads has seen enough, as `head` has.
        ErrorKind::BrokenPipe => Trouble::unsaid(),
        _ => {
            let words = system::words(&error);
            Trouble(format!("standard output can't be written: {words}"))
        }
    })
}

/// Writes a message. Where nobody listens to messages there is nothing left to
/// say it to, so an error is passed over.
pub fn say(message: &str) {
    say_to(io::stderr().lock(), message);
}

/// Every message goes through here.
fn say_to(mut to: impl Write, message: &str) {
    let _ = writeln!(to, "{}", escape::message(message));
}

#[cfg(test)]
mod tests {
    use super::say_to;

    #[test]
    fn messages_are_looked_at_before_they_go_out() {
        let mut said = Vec::new();
        say_to(&mut said, "exam: a\u{1B}[2J\n  b");
        assert_eq!(said, b"exam: a\\u{1b}[2J\n  b\n");
    }
}
