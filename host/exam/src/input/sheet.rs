//! A sheet as whole numbers in line order, or as bytes.

use super::form::Form;
use super::source::Source;
use crate::status::Trouble;
use engine::text::{self, Word};
use engine::Sheet;

/// What a name's ending says.
const ENDINGS: [(&str, Form); 3] = [
    ("sheet", Form::Text),
    ("txt", Form::Text),
    ("bin", Form::Bytes),
];

/// A sheet has 16 starts at most; more than this is no sheet.
const LIMIT: u64 = 1 << 20;

/// Loads a sheet in the form that an option or else the name's ending says.
pub fn load(source: &Source, option: Option<Form>) -> Result<Sheet, Trouble> {
    source.demand_file()?;
    let Some(form) = option.or_else(|| source.form(&ENDINGS)) else {
        return Err(Trouble(format!(
            "{}: say --sheet-numbers or --sheet-bytes, or let the name end in .sheet or .txt \
             (whole numbers) or .bin (bytes)",
            source.name()
        )));
    };
    let bytes = source.all_bytes(LIMIT)?;
    match form {
        Form::Bytes => Ok(Sheet::of_bytes(bytes)),
        Form::Text => match starts(&bytes) {
            Ok(starts) => Ok(Sheet::of_starts(&starts)),
            Err(message) => Err(Trouble(format!("{}, {message}", source.name()))),
        },
    }
}

/// The whole numbers of a text; blanks or line ends stand between them, and
/// `#` begins a comment.
fn starts(text: &[u8]) -> Result<Vec<i32>, String> {
    let mut starts = Vec::new();
    for (before, line) in text::lines(text).enumerate() {
        for word in text::words(line) {
            let start = start(word);
            starts.push(start.map_err(|message| format!("text line {}: {message}", before + 1))?);
        }
    }
    Ok(starts)
}

/// One whole number of 32 signed bits.
fn start(word: Word<'_>) -> Result<i32, String> {
    // What some editors make of a minus between blanks.
    let typed = String::from_utf8_lossy(word.bytes).replacen('\u{2212}', "-", 1);
    let digits = typed.strip_prefix(['-', '+']).unwrap_or(&typed);
    let (shown, column) = (word.shown(), word.column);
    if digits.is_empty() || !digits.bytes().all(|byte| byte.is_ascii_digit()) {
        let (column, why) = word.odd().unwrap_or((column, wanted(&typed).to_string()));
        return Err(format!(
            "'{shown}' is no whole number (column {column}: {why})"
        ));
    }
    let (least, most) = (i32::MIN, i32::MAX);
    let range = || format!("{shown} isn't within {least} to {most} (column {column})");
    typed.parse().map_err(|_| range())
}

/// What was to stand in a word's place.
fn wanted(word: &str) -> &'static str {
    match word.contains([',', ';']) {
        true => "starts stand apart by blanks or line ends alone",
        false => "a start is whole minutes, such as 15 or -17",
    }
}

#[cfg(test)]
mod tests {
    use super::starts;

    #[test]
    fn whole_numbers() {
        assert_eq!(starts(b""), Ok(vec![]));
        assert_eq!(
            starts(b" 0\t-17\r\n+3 # 4\n#\xFF\n5"),
            Ok(vec![0, -17, 3, 5])
        );
        let ends = starts(b"2147483647 -2147483648");
        assert_eq!(ends, Ok(vec![i32::MAX, i32::MIN]));
    }

    /// What an editor or a page from which it was copied makes of numbers.
    #[test]
    fn numbers_from_any_editor() {
        let text = "\u{FEFF}0\u{A0}\u{2212}17\r\n\u{2007}+3\t\u{202F}5\r\n";
        assert_eq!(starts(text.as_bytes()), Ok(vec![0, -17, 3, 5]));
        let least = starts("\u{2212}2147483648".as_bytes());
        assert_eq!(least, Ok(vec![i32::MIN]));
    }

    fn bad(text: impl AsRef<[u8]>) -> String {
        starts(text.as_ref()).expect_err("a bad number")
    }

    #[test]
    fn bad_numbers() {
        let wanted = "a start is whole minutes, such as 15 or -17";
        for (text, place, word, column) in [
            ("0\n 3x", "text line 2", "3x", 2),
            ("-", "text line 1", "-", 1),
            ("0 +-3", "text line 1", "+-3", 3),
            ("1.5", "text line 1", "1.5", 1),
        ] {
            let message =
                format!("{place}: '{word}' is no whole number (column {column}: {wanted})");
            assert_eq!(bad(text), message);
        }
        let blanks = "starts stand apart by blanks or line ends alone";
        let message = format!("text line 1: '0,' is no whole number (column 1: {blanks})");
        assert_eq!(bad("0, 3"), message);
        let large = "text line 1: 2147483648 isn't within -2147483648 to 2147483647 (column 3)";
        assert_eq!(bad("0 2147483648"), large);
        let small = "text line 1: -2147483649 isn't within -2147483648 to 2147483647 (column 1)";
        assert_eq!(bad("-2147483649"), small);
    }

    #[test]
    fn numbers_that_only_look_right() {
        for (text, word, why) in [
            ("0 １5", "１5", "column 3: U+FF11 is full-width; type 1"),
            (
                "\u{2013}3",
                "\u{2013}3",
                "column 1: U+2013 is a dash; a minus is typed -",
            ),
            ("3\u{2212}5", "3\u{2212}5", "column 2: U+2212 is a minus"),
            (
                "\u{2212}\u{2212}5",
                "\u{2212}\u{2212}5",
                "column 1: U+2212 is a minus",
            ),
            (
                "15\u{200B}",
                "15\\u{200b}",
                "column 3: U+200B can't be seen; delete it",
            ),
            (
                "1\u{1B}[2J",
                "1\\u{1b}[2J",
                "column 2: U+001B is a control character",
            ),
        ] {
            let message = format!("text line 1: '{word}' is no whole number ({why})");
            assert_eq!(bad(text), message);
        }
        let no_text = "column 1: the byte E9 is no text in UTF-8";
        assert_eq!(
            bad(b"\xE9"),
            format!("text line 1: '\\xE9' is no whole number ({no_text})")
        );
        // A word without an end is cut.
        assert!(bad("7".repeat(100_000)).len() < 400);
        assert!(bad("x".repeat(100_000)).len() < 400);
    }
}
