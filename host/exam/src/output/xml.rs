//! Texts as XML and HTML write them, within an element and within an attribute.

use engine::text::is_hidden;

/// Two characters that XML forbids and that aren't hidden ones.
const NO_CHARACTERS: [char; 2] = ['\u{FFFE}', '\u{FFFF}'];

/// A text that nothing is read into. What can't be seen, and what XML forbids, is
/// written out, `\u{1b}`.
pub fn escaped(text: &str) -> String {
    text.chars().map(written).collect()
}

fn written(sign: char) -> String {
    match sign {
        '<' => "&lt;".to_string(),
        '>' => "&gt;".to_string(),
        '&' => "&amp;".to_string(),
        '"' => "&quot;".to_string(),
        // HTML 4 has no &apos;.
        '\'' => "&#39;".to_string(),
        _ if is_hidden(sign) || NO_CHARACTERS.contains(&sign) => sign.escape_unicode().to_string(),
        _ => sign.to_string(),
    }
}

#[cfg(test)]
mod tests {
    use super::escaped;

    #[test]
    fn nothing_is_read_into_a_text() {
        let signs = "<a b=\"c\" d='e'>&amp;";
        let written = "&lt;a b=&quot;c&quot; d=&#39;e&#39;&gt;&amp;amp;";
        assert_eq!(escaped(signs), written);
        assert_eq!(escaped("Zoë 東京 \\ \u{1F68C}"), "Zoë 東京 \\ \u{1F68C}");
    }

    /// XML 1.0 allows of the control characters three, and two others never.
    #[test]
    fn what_cannot_stand_there_is_written_out() {
        assert_eq!(escaped("a\0\n\u{1B}\u{7F}"), "a\\u{0}\\u{a}\\u{1b}\\u{7f}");
        assert_eq!(
            escaped("\u{202E}\u{FFFE}\u{FFFF}"),
            "\\u{202e}\\u{fffe}\\u{ffff}"
        );
    }
}
