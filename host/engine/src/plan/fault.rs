//! Why a text isn't a plan.

use crate::text::shown;
use std::fmt;

/// Why a text isn't a plan.
///
/// ```
/// use engine::plan::{self, Fault};
///
/// let why = plan::read(b"line Red every 20\n  Market 8").unwrap_err();
/// assert_eq!(why.line, 2);
/// assert!(matches!(why.fault, Fault::Statement { .. }));
/// assert!(why.to_string().starts_with("text line 2: 'Market 8' is no statement; expected "));
/// ```
#[derive(Clone, Debug, PartialEq, Eq)]
pub struct Misstated {
    /// The text line at fault, the first being 1.
    pub line: usize,
    /// What is wrong with it.
    pub fault: Fault,
}

/// What is wrong with a text line of a plan.
///
/// ```
/// use engine::plan::{self, Fault};
///
/// let fault = |text: &[u8]| plan::read(text).unwrap_err().fault;
/// assert_eq!(fault(b"Market at 8"), Fault::CallWithoutLine);
/// let number = Fault::Number { word: "0x14".to_string(), most: 65_535 };
/// assert_eq!(fault(b"line Red every 0x14"), number);
/// ```
#[derive(Clone, Debug, PartialEq, Eq)]
#[non_exhaustive]
pub enum Fault {
    /// Bytes that aren't UTF-8, outside of comments.
    NotText,
    /// No statement.
    Statement {
        /// What stands there.
        found: String,
        /// What could stand there.
        expected: &'static str,
    },
    /// No decimal number, or one for which there are no bytes.
    Number {
        /// What stands there.
        word: String,
        /// The largest that could stand there.
        most: u32,
    },
    /// A name that can't be given.
    Name {
        /// The name.
        name: String,
        /// Why not.
        why: BadName,
    },
    /// A number that another stop has already.
    NumberTwice {
        /// The number.
        number: u8,
        /// The stop's name.
        name: String,
    },
    /// The number of a stop, behind a call.
    StopBehindCall,
    /// A stop that isn't stated, in a plan that states its stops.
    StopNotStated {
        /// The stop's name.
        name: String,
    },
    /// A call above the first line.
    CallWithoutLine,
    /// A line's first call with `+`.
    NoCallBefore {
        /// The stop's name.
        stop: String,
    },
    /// A call for whose minutes there are no bytes.
    TooLate {
        /// So long after the line's start.
        minutes: u32,
    },
    /// A 257th line, for whose calls there are no bytes.
    TooManyLines,
    /// A 257th stop, for whose number there is no byte.
    TooManyStops,
}

/// Why a name can't be given.
///
/// ```
/// use engine::plan::{self, BadName, Fault};
///
/// let fault = plan::read(b"line 5 every 20").unwrap_err().fault;
/// let (name, why) = ("5".to_string(), BadName::WithoutLetter);
/// assert_eq!(fault, Fault::Name { name, why });
/// ```
#[derive(Clone, Debug, PartialEq, Eq)]
#[non_exhaustive]
pub enum BadName {
    /// It is missing.
    Missing,
    /// It has a word that a statement has.
    Word {
        /// The word.
        word: String,
    },
    /// It has no letter, and would be taken for a number.
    WithoutLetter,
    /// It has more than 60 characters.
    TooLong,
    /// It has a character that can't be seen.
    Unseen,
    /// Another line or stop has it already.
    Twice {
        /// Where it stands first, the first text line being 1.
        line: usize,
    },
    /// It differs from another in capitals alone.
    Alike {
        /// The other.
        other: String,
        /// Where that stands first, the first text line being 1.
        line: usize,
    },
}

/// `text line 2: '0x14' isn't a number of 0 to 65535, decimal and without leading zeros`.
impl fmt::Display for Misstated {
    fn fmt(&self, out: &mut fmt::Formatter<'_>) -> fmt::Result {
        write!(out, "text line {}: {}", self.line, self.fault)
    }
}

impl std::error::Error for Misstated {}

/// In words, with what was expected.
impl fmt::Display for Fault {
    fn fmt(&self, out: &mut fmt::Formatter<'_>) -> fmt::Result {
        match self {
            Fault::NotText => write!(out, "it isn't UTF-8 text"),
            Fault::Statement { found, expected } => {
                let found = shown(found.as_bytes());
                write!(out, "'{found}' is no statement; expected {expected}")
            }
            Fault::Number { word, most } => {
                let word = shown(word.as_bytes());
                write!(out, "'{word}' isn't a number of 0 to {most}, decimal and ")?;
                write!(out, "without leading zeros")
            }
            Fault::Name { name, why } => write!(out, "{}", why.words(&shown(name.as_bytes()))),
            Fault::NumberTwice { number, name } => write!(out, "stop {number} is '{name}' already"),
            Fault::StopBehindCall => {
                write!(out, "the number of a stop stands above the first call")
            }
            Fault::StopNotStated { name } => not_stated(out, name),
            Fault::CallWithoutLine => {
                write!(out, "a call stands under its line; expected ")?;
                write!(out, "line NAME every PERIOD above it")
            }
            Fault::NoCallBefore { stop } => {
                write!(out, "+ counts from the line's call before, and this is ")?;
                write!(out, "its first; expected {stop} at MINUTES")
            }
            Fault::TooLate { minutes } => {
                write!(out, "that is {minutes} minutes after the line's start; ")?;
                write!(out, "expected 65535 at most in all")
            }
            Fault::TooManyLines => write!(out, "a 257th line"),
            Fault::TooManyStops => write!(out, "a 257th stop"),
        }
    }
}

fn not_stated(out: &mut fmt::Formatter<'_>, name: &str) -> fmt::Result {
    write!(
        out,
        "this plan states its stops, and no '{name}' among them; expected one of them, or stop \
         NUMBER {name} above the first call"
    )
}

impl BadName {
    fn words(&self, name: &str) -> String {
        match self {
            BadName::Missing => "a name is missing".to_string(),
            BadName::Word { word } => format!(
                "'{}' can't be a word of a name (nor line, stop, every, at and what begins with +)",
                shown(word.as_bytes())
            ),
            BadName::WithoutLetter => {
                format!("the name '{name}' has no letter, and would be taken for a number")
            }
            BadName::TooLong => "the name has more than 60 characters".to_string(),
            BadName::Unseen => format!("the name '{name}' has a character that can't be seen"),
            BadName::Twice { line } => {
                format!("the name '{name}' is given already, on text line {line}")
            }
            BadName::Alike { other, line } => format!(
                "the names '{name}' and '{other}', on text line {line}, differ in capitals alone"
            ),
        }
    }
}
