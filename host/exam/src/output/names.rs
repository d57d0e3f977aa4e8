//! Names of files, which may hold every byte but two, as parts of lines.

use engine::text;
use std::ffi::OsStr;

/// A name as part of a line. What isn't text and what a terminal would obey is
/// written out.
pub fn shown(name: &OsStr) -> String {
    text::shown(name.as_encoded_bytes())
}

/// The bytes of a name that isn't plain text, in hexadecimal pairs.
pub fn bytes_where_no_text(name: &OsStr) -> Option<String> {
    match name.to_str() {
        Some(text) if !text.contains(char::is_control) => None,
        _ => {
            let bytes = name.as_encoded_bytes().iter();
            Some(bytes.map(|byte| format!("{byte:02x}")).collect())
        }
    }
}

#[cfg(test)]
mod tests {
    use super::{bytes_where_no_text, shown};
    use std::ffi::OsStr;
    use std::os::unix::ffi::OsStrExt;

    #[test]
    fn names_that_are_no_text() {
        let plain = OsStr::new("Zoë, \"b\".sheet");
        assert_eq!(shown(plain), "Zoë, \"b\".sheet");
        assert_eq!(bytes_where_no_text(plain), None);
        let odd = OsStr::from_bytes(b"a\x1B\n\xFFz");
        assert_eq!(shown(odd), "a\\u{1b}\\u{a}\\xFFz");
        assert_eq!(bytes_where_no_text(odd).as_deref(), Some("611b0aff7a"));
    }
}
