//! The last look at a message before it goes out. Names and words from outside
//! are written out where they are put into a message, by `engine::text::shown`,
//! since only there a line end in a name can be told from one of the message;
//! this is for whatever was forgotten.

use engine::text::is_hidden;

/// No line of a message is longer. Its parts from outside have 256 characters at
/// most, and no message has more than two of them in a line.
const LONGEST: usize = 1_000;

/// A message that does nothing to a terminal but fill its lines: what can't be
/// seen is written out, but for the message's own line ends, and long lines are
/// cut.
pub fn message(text: &str) -> String {
    let lines: Vec<String> = text.split('\n').map(line).collect();
    lines.join("\n")
}

fn line(text: &str) -> String {
    let mut signs = text.chars();
    let shown: String = signs.by_ref().take(LONGEST).map(written).collect();
    let cut = if signs.next().is_some() { ".." } else { "" };
    format!("{shown}{cut}")
}

fn written(sign: char) -> String {
    match is_hidden(sign) {
        true => sign.escape_unicode().to_string(),
        false => sign.to_string(),
    }
}

#[cfg(test)]
mod tests {
    use super::message;

    #[test]
    fn messages_do_nothing_to_a_terminal() {
        assert_eq!(message("exam: a\n  b: ö"), "exam: a\n  b: ö");
        let odd = "a\u{1B}[2J\r\u{9B}\u{202E}b\tc";
        assert_eq!(message(odd), "a\\u{1b}[2J\\u{d}\\u{9b}\\u{202e}b\\u{9}c");
        // What was written out before stays as it is.
        assert_eq!(message("a\\u{1b}\\\\"), "a\\u{1b}\\\\");
    }

    #[test]
    fn lines_have_an_end() {
        let whole = "x".repeat(1_000);
        assert_eq!(message(&whole), whole);
        let long = format!("{whole}y\n{whole}");
        assert_eq!(message(&long), format!("{whole}..\n{whole}"));
    }
}
