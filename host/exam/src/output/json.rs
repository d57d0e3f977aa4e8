//! Texts as JSON writes them (RFC 8259).

/// A text in quotes. Every control character is escaped, also those that JSON
/// lets pass and a terminal would obey.
pub fn string(text: &str) -> String {
    let mut string = String::from("\"");
    for sign in text.chars() {
        match sign {
            '"' | '\\' => string.extend(['\\', sign]),
            _ if sign.is_control() => string += &format!("\\u{:04x}", u32::from(sign)),
            _ => string.push(sign),
        }
    }
    string + "\""
}

#[cfg(test)]
mod tests {
    use super::string;

    #[test]
    fn escaped_signs() {
        assert_eq!(string(""), "\"\"");
        assert_eq!(string("a b/ü\u{1F68C}"), "\"a b/ü\u{1F68C}\"");
        assert_eq!(string("\"\\"), "\"\\\"\\\\\"");
        assert_eq!(
            string("\n\0\u{1B}\u{7F}\u{9B}"),
            "\"\\u000a\\u0000\\u001b\\u007f\\u009b\""
        );
    }
}
