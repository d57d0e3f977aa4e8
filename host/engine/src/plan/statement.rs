//! One text line of a plan as a statement.

use super::fault::{BadName, Fault};
use crate::text::is_hidden;

const EDITION_FORM: &str = "edition NUMBER";
const LINE_FORM: &str = "line NAME every PERIOD";
const STOP_FORM: &str = "stop NUMBER NAME";
const CALL_FORM: &str = "NAME at MINUTES or NAME +MINUTES (or line NAME every PERIOD, stop \
                         NUMBER NAME, edition NUMBER)";

/// The words of statements: in a name they could be read in two ways.
const WORDS: [&str; 4] = ["line", "stop", "every", "at"];

/// A longer name fills no column.
const LONGEST_NAME: usize = 60;

/// A statement; its numbers are those for which there are bytes.
#[derive(Debug, PartialEq, Eq)]
pub(super) enum Statement {
    Edition { edition: u8 },
    Line { name: String, period: u16 },
    Stop { number: u8, name: String },
    Call { stop: String, minutes: Minutes },
}

/// When a line calls.
#[derive(Clone, Copy, Debug, PartialEq, Eq)]
pub(super) enum Minutes {
    /// After the line's start.
    At(u16),
    /// After its call before.
    On(u16),
}

/// The statement of a text line without its comment, if there is one.
pub(super) fn statement(text: &[u8]) -> Result<Option<Statement>, Fault> {
    let text = std::str::from_utf8(text).map_err(|_| Fault::NotText)?;
    let words: Vec<&str> = text.split_whitespace().collect();
    let no_statement = |expected| {
        let found = words.join(" ");
        Err(Fault::Statement { found, expected })
    };
    let statement = match words.as_slice() {
        [] => return Ok(None),
        ["line", name @ .., "every", period] => Statement::Line {
            name: name_of(name)?,
            period: number(period)?,
        },
        ["line", ..] => return no_statement(LINE_FORM),
        ["stop", number_word, name @ ..] => Statement::Stop {
            number: number(number_word)?,
            name: name_of(name)?,
        },
        ["stop"] => return no_statement(STOP_FORM),
        // A stop may be called so, too: `edition +5` is a call, `edition at` half of one.
        ["edition", word] if !word.starts_with('+') && !WORDS.contains(word) => {
            let edition = number(word)?;
            Statement::Edition { edition }
        }
        ["edition"] => return no_statement(EDITION_FORM),
        [stop @ .., "at", minutes] => Statement::Call {
            stop: name_of(stop)?,
            minutes: Minutes::At(number(minutes)?),
        },
        [stop @ .., on] => match on.strip_prefix('+') {
            Some(minutes) => Statement::Call {
                stop: name_of(stop)?,
                minutes: Minutes::On(number(minutes)?),
            },
            None => return no_statement(CALL_FORM),
        },
    };
    Ok(Some(statement))
}

/// A number of the type's width. A leading zero isn't taken: `0014` is how 20 is
/// typed in hexadecimal.
fn number<Number: TryFrom<u32> + Width>(word: &str) -> Result<Number, Fault> {
    let fault = || Fault::Number {
        word: word.to_string(),
        most: Number::MOST,
    };
    let digits = !word.is_empty() && word.bytes().all(|byte| byte.is_ascii_digit());
    if !digits || (word.len() > 1 && word.starts_with('0')) {
        return Err(fault());
    }
    let number: u32 = word.parse().map_err(|_| fault())?;
    Number::try_from(number).map_err(|_| fault())
}

/// The largest number of an operand's width.
trait Width {
    const MOST: u32;
}

impl Width for u8 {
    const MOST: u32 = u8::MAX as u32;
}

impl Width for u16 {
    const MOST: u32 = u16::MAX as u32;
}

/// A name of these words, if it can't be taken for anything else.
fn name_of(words: &[&str]) -> Result<String, Fault> {
    let name = words.join(" ");
    match bad_name(words, &name) {
        None => Ok(name),
        Some(why) => Err(Fault::Name { name, why }),
    }
}

fn bad_name(words: &[&str], name: &str) -> Option<BadName> {
    let of_statements = |word: &&&str| {
        let small = word.to_lowercase();
        WORDS.contains(&small.as_str()) || word.starts_with('+')
    };
    if let Some(word) = words.iter().find(of_statements) {
        let word = word.to_string();
        return Some(BadName::Word { word });
    }
    if name.is_empty() {
        Some(BadName::Missing)
    } else if name.chars().count() > LONGEST_NAME {
        Some(BadName::TooLong)
    } else if name.contains(is_hidden) {
        Some(BadName::Unseen)
    } else if !name.contains(char::is_alphabetic) {
        Some(BadName::WithoutLetter)
    } else {
        None
    }
}

#[cfg(test)]
mod tests {
    use super::{statement, Minutes, Statement};

    fn read(text: &str) -> Statement {
        let read = statement(text.as_bytes()).unwrap_or_else(|fault| panic!("{text}: {fault}"));
        read.expect("a statement")
    }

    fn fault(text: &str) -> String {
        statement(text.as_bytes()).expect_err(text).to_string()
    }

    #[test]
    fn statements() {
        let name = "Red 2".to_string();
        let line = Statement::Line { name, period: 20 };
        assert_eq!(read("line Red 2 every 20"), line);
        assert_eq!(read("\tline  Red\u{A0}2   every\t20 \r"), line);
        let call = |stop: &str, minutes| Statement::Call {
            stop: stop.to_string(),
            minutes,
        };
        let market = "St Mary's (north), gate 2";
        let text = format!("{market} at 65535");
        assert_eq!(read(&text), call(market, Minutes::At(65_535)));
        let text = format!("  {market} +0");
        assert_eq!(read(&text), call(market, Minutes::On(0)));
        let name = "Mühle".to_string();
        assert_eq!(
            read("stop 255 Mühle"),
            Statement::Stop { number: 255, name }
        );
        assert_eq!(read(" edition  2"), Statement::Edition { edition: 2 });
        assert_eq!(read("edition 255"), Statement::Edition { edition: 255 });
        assert_eq!(read("edition at 5"), call("edition", Minutes::At(5)));
        assert_eq!(read("edition +5"), call("edition", Minutes::On(5)));
        assert_eq!(read("edition 2 at 5"), call("edition 2", Minutes::At(5)));
        assert_eq!(statement(b" \t\r"), Ok(None));
    }

    #[test]
    fn no_statements() {
        let expected = |text: &str, form: &str| {
            let words = format!("'{text}' is no statement; expected {form}");
            assert!(fault(text).starts_with(&words), "{text}: {}", fault(text));
        };
        let call = "NAME at MINUTES or NAME +MINUTES";
        for text in [
            "Market",
            "Market 8",
            "Market + 8",
            "Red every 20",
            "4C 000F",
        ] {
            expected(text, call);
        }
        for text in ["LINE Red EVERY 20", "Market +8 minutes", "Market AT 8"] {
            expected(text, call);
        }
        for text in ["Edition 2", "edition 2 of 2", "2nd edition"] {
            expected(text, call);
        }
        for text in ["edition at", "edition every", "edition + 8"] {
            expected(text, call);
        }
        expected("edition", "edition NUMBER");
        let line = "line NAME every PERIOD";
        for text in ["line", "line Red", "line Red at 8", "line Red every 20 min"] {
            expected(text, line);
        }
        expected("stop", "stop NUMBER NAME");
        assert_eq!(
            statement(b"M\xFChle at 8")
                .expect_err("no text")
                .to_string(),
            "it isn't UTF-8 text"
        );
    }

    #[test]
    fn numbers() {
        let expected = |text: &str, word: &str, most: u32| {
            let words = format!(
                "'{word}' isn't a number of 0 to {most}, decimal and without leading zeros"
            );
            assert_eq!(fault(text), words);
        };
        expected("line Red every 65536", "65536", 65_535);
        expected("line Red every 99999999999", "99999999999", 65_535);
        expected("line Red every 0014", "0014", 65_535);
        expected("line Red every 1E", "1E", 65_535);
        expected("line Red every -5", "-5", 65_535);
        expected("Market at 8,", "8,", 65_535);
        expected("Market at 1.5", "1.5", 65_535);
        expected("Market +", "", 65_535);
        expected("Market ++8", "+8", 65_535);
        expected("Market at +8", "+8", 65_535);
        expected("Market +65536", "65536", 65_535);
        expected("stop 256 Market", "256", 255);
        expected("edition 256", "256", 255);
        expected("edition 02", "02", 255);
        expected("edition two", "two", 255);
        expected("stop Market 5", "Market", 255);
        expected("stop Market at 8", "Market", 255);
        expected("Market at \u{1B}8", "\\u{1b}8", 65_535);
    }

    #[test]
    fn names() {
        let word = |text: &str, word: &str| {
            let words = format!("'{word}' can't be a word of a name");
            assert!(fault(text).starts_with(&words), "{text}: {}", fault(text));
        };
        word("Market at 8 +8", "at");
        word("Market +8 Station +4", "+8");
        word("Market at 8 Station at 12", "at");
        word("line Red every 20 every 30", "every");
        word("stop 5 Market at 8", "at");
        word("Bus Stop at 8", "Stop");
        word("line Line 5 every 20", "Line");
        for text in ["at 8", "+8", "stop 5", "line every 20"] {
            assert_eq!(fault(text), "a name is missing", "{text}");
        }
        let digits = "the name '12' has no letter, and would be taken for a number";
        for text in ["12 at 8", "stop 5 12", "line 12 every 20"] {
            assert_eq!(fault(text), digits, "{text}");
        }
        let unseen = "the name 'Mar\\u{200b}ket' has a character that can't be seen";
        assert_eq!(fault("Mar\u{200B}ket at 8"), unseen);
        let unseen = "the name 'Market\\u{7}' has a character that can't be seen";
        assert_eq!(fault("Market\u{7} at 8"), unseen);
        let longest = "ü".repeat(60);
        read(&format!("{longest} at 8"));
        let long = fault(&format!("{longest}x at 8"));
        assert_eq!(long, "the name has more than 60 characters");
    }
}
