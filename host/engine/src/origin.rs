//! Where in a text the bytes of a network come from.

use crate::text::shown;

/// The lines of a text, and which of them each byte was made of.
#[derive(Clone, Debug, Default, PartialEq, Eq)]
pub(crate) struct Origin {
    /// Each line for a message, without the blanks about it.
    lines: Vec<String>,
    /// For each byte its line, the first being 0.
    line_of_byte: Vec<usize>,
}

impl Origin {
    /// Adds a line; the bytes up to this count that have none yet were made of
    /// it.
    pub(crate) fn add(&mut self, line: &[u8], bytes: usize) {
        self.line_of_byte.resize(bytes, self.lines.len());
        // A tab is a blank in a message: it is common, and its width nobody's
        // business.
        let blank = |&byte: &u8| if byte == b'\t' { b' ' } else { byte };
        let line: Vec<u8> = line.trim_ascii().iter().map(blank).collect();
        self.lines.push(shown(&line));
    }

    /// The line of a byte and its number, the first being 1; for a place behind
    /// the last byte, the last byte's.
    pub(crate) fn line(&self, place: usize) -> Option<(usize, &str)> {
        let at = place.min(self.line_of_byte.len().checked_sub(1)?);
        let line = self.line_of_byte[at];
        Some((line + 1, self.lines[line].as_str()))
    }
}
