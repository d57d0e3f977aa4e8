//! Rows of comma-separated values, as RFC 4180 has them: commas between fields, a
//! field with a comma or a quote in quotes and its quotes doubled, and CR LF at
//! the end of a row.

/// A row with its line end.
pub fn row<T: AsRef<str>>(fields: impl IntoIterator<Item = T>) -> String {
    let fields: Vec<String> = fields
        .into_iter()
        .map(|text| field(text.as_ref()))
        .collect();
    fields.join(",") + "\r\n"
}

/// The RFC's text has no control characters but line ends, and a terminal would
/// obey them: `?` stands for each, a line end too, so that a row is one line.
fn field(text: &str) -> String {
    let text = text.replace(char::is_control, "?");
    match text.contains([',', '"']) {
        true => format!("\"{}\"", text.replace('"', "\"\"")),
        false => text,
    }
}

#[cfg(test)]
mod tests {
    use super::row;

    #[test]
    fn fields_in_quotes() {
        assert_eq!(row(["a", "", "1"]), "a,,1\r\n");
        assert_eq!(row(["a,b", " c "]), "\"a,b\", c \r\n");
        assert_eq!(row(["say \"x\""]), "\"say \"\"x\"\"\"\r\n");
        assert_eq!(row(["a\nb\u{1B}[2J\u{9B}"]), "a?b?[2J?\r\n");
    }
}
