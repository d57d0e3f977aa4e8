//! A network as authors type it: hexadecimal pairs with blanks, line ends and
//! comments from `#` to the end of the line.
//!
//! ```
//! use engine::typed;
//!
//! let network = typed::read(b"4C 000F        # line 0: every 15 minutes
//! 43 00 40 0008  # a stop that there isn't
//! 45")?;
//! let refusal = engine::read(network.bytes()).unwrap_err();
//! assert_eq!(refusal.to_string(), "refused 8 at 3");
//! let (number, line) = network.line(refusal.place as usize).expect("a typed line");
//! assert_eq!((number, line), (2, "43 00 40 0008  # a stop that there isn't"));
//! # Ok::<(), typed::Mistyped>(())
//! ```

use crate::origin::Origin;
use crate::text;
use std::fmt;

/// The byte that begins the edition's command, a file's first where it has one: the
/// edition follows.
///
/// ```
/// let typed = engine::typed::read(b"56 02").unwrap();
/// assert_eq!(typed.bytes()[0], engine::typed::EDITION);
/// ```
pub const EDITION: u8 = 0x56;
/// The byte that begins a line's command: its period follows.
///
/// ```
/// let typed = engine::typed::read(b"4C 000F").unwrap();
/// assert_eq!(typed.bytes()[0], engine::typed::LINE);
/// ```
pub const LINE: u8 = 0x4C;
/// The byte that begins a call: line, stop and offset follow.
///
/// ```
/// let typed = engine::typed::read(b"43 00 00 0008").unwrap();
/// assert_eq!(typed.bytes()[0], engine::typed::CALL);
/// ```
pub const CALL: u8 = 0x43;
/// The byte that begins a call counted from the line's call before: line, stop
/// and ride follow. Edition 1 alone has it.
///
/// ```
/// let typed = engine::typed::read(b"46 00 01 0005").unwrap();
/// assert_eq!(typed.bytes()[0], engine::typed::FOLLOW);
/// ```
pub const FOLLOW: u8 = 0x46;
/// The byte that ends a file.
///
/// ```
/// let typed = engine::typed::read(b"45").unwrap();
/// assert_eq!(typed.bytes()[0], engine::typed::END);
/// ```
pub const END: u8 = 0x45;

/// A typed network: its bytes, and where in the text each of them stands.
///
/// ```
/// let typed = engine::typed::read(b"4C000F # line 0").unwrap();
/// assert_eq!(typed.bytes(), [0x4C, 0x00, 0x0F]);
/// ```
#[derive(Clone, Debug, PartialEq, Eq)]
pub struct Typed {
    bytes: Vec<u8>,
    origin: Origin,
}

impl Typed {
    /// The network file, for the engine's calls.
    ///
    /// ```
    /// let typed = engine::typed::read(b"45").unwrap();
    /// assert_eq!(typed.bytes(), [0x45]);
    /// ```
    pub fn bytes(&self) -> &[u8] {
        &self.bytes
    }

    /// The line of a byte and its number, the first being 1; for a place behind
    /// the last byte, the last byte's. `None` where nothing is typed.
    ///
    /// ```
    /// let typed = engine::typed::read(b"# A note\n4C000F # line 0\n45").unwrap();
    /// assert_eq!(typed.line(1), Some((2, "4C000F # line 0")));
    /// assert_eq!(typed.line(3), Some((3, "45")));
    /// ```
    pub fn line(&self, place: usize) -> Option<(usize, &str)> {
        self.origin.line(place)
    }
}

/// Why a text isn't a typed network.
///
/// ```
/// use engine::typed::{self, Fault};
///
/// let why = typed::read(b"4C000F\n4C 014").unwrap_err();
/// assert_eq!((why.line, why.column), (2, 4));
/// assert_eq!((why.word.as_str(), why.fault), ("014", Fault::NotInPairs));
/// assert_eq!(why.to_string(), "text line 2: '014' isn't in pairs of digits (column 4)");
/// ```
#[derive(Clone, Debug, PartialEq, Eq)]
pub struct Mistyped {
    /// The text line at fault, the first being 1.
    pub line: usize,
    /// The column at fault, the first being 1, counted in characters.
    pub column: usize,
    /// The word at fault, as [`text::shown`] writes it.
    pub word: String,
    /// What is wrong with it.
    pub fault: Fault,
    /// What the character at fault is, where it is none of a plain keyboard.
    pub odd: Option<String>,
}

/// What is wrong with a word.
///
/// ```
/// use engine::typed::{self, Fault};
///
/// assert_eq!(typed::read(b"4G").unwrap_err().fault, Fault::NotHexadecimal);
/// assert_eq!(typed::read(b"4").unwrap_err().fault, Fault::NotInPairs);
/// ```
#[derive(Clone, Copy, Debug, PartialEq, Eq)]
pub enum Fault {
    /// Another character than a hexadecimal digit.
    NotHexadecimal,
    /// A digit is left over.
    NotInPairs,
}

/// `text line 2: '014' isn't in pairs of digits (column 4)`.
impl fmt::Display for Mistyped {
    fn fmt(&self, out: &mut fmt::Formatter<'_>) -> fmt::Result {
        let fault = match self.fault {
            Fault::NotHexadecimal => "isn't hexadecimal",
            Fault::NotInPairs => "isn't in pairs of digits",
        };
        let (line, word, column) = (self.line, &self.word, self.column);
        match &self.odd {
            None => write!(out, "text line {line}: '{word}' {fault} (column {column})"),
            Some(odd) => write!(
                out,
                "text line {line}: '{word}' {fault} (column {column}: {odd})"
            ),
        }
    }
}

impl std::error::Error for Mistyped {}

/// Reads a typed text. Whether it is a network, the engine says.
///
/// ```
/// let typed = engine::typed::read(b"4C000F 4C0014 4300000008 4301000011 45").unwrap();
/// assert!(engine::read(typed.bytes()).is_ok());
/// ```
pub fn read(text: &[u8]) -> Result<Typed, Mistyped> {
    let mut typed = Typed {
        bytes: Vec::new(),
        origin: Origin::default(),
    };
    for (before, line) in text::lines(text).enumerate() {
        for word in text::words(line) {
            let read = read_word(word.bytes).map_err(|fault| mistyped(before + 1, word, fault));
            typed.bytes.extend(read?);
        }
        typed.origin.add(line, typed.bytes.len());
    }
    Ok(typed)
}

/// A word at fault, at the first character that is.
fn mistyped(line: usize, word: text::Word<'_>, fault: Fault) -> Mistyped {
    let other = word.bytes.iter().position(|&byte| digit(byte).is_none());
    let (column, odd) = match word.odd() {
        // Before it stand plain characters, of a byte each.
        Some((column, odd)) if column <= word.column + other.unwrap_or(0) => (column, Some(odd)),
        _ => (word.column + other.unwrap_or(0), None),
    };
    Mistyped {
        line,
        column,
        word: word.shown(),
        fault,
        odd,
    }
}

/// The bytes of a word of hexadecimal pairs.
fn read_word(word: &[u8]) -> Result<Vec<u8>, Fault> {
    let digits: Option<Vec<u8>> = word.iter().map(|&byte| digit(byte)).collect();
    let digits = digits.ok_or(Fault::NotHexadecimal)?;
    if digits.len() % 2 != 0 {
        return Err(Fault::NotInPairs);
    }
    let pair = |pair: &[u8]| pair[0] * 16 + pair[1];
    Ok(digits.chunks_exact(2).map(pair).collect())
}

fn digit(byte: u8) -> Option<u8> {
    char::from(byte).to_digit(16).map(|digit| digit as u8)
}

/// The commands of a file with their operands, the last one cut off if the file
/// is.
///
/// ```
/// use engine::typed::{commands, LINE};
///
/// let found = commands(&[LINE, 0x00, 0x0F, 0x45]);
/// assert_eq!(found, [&[LINE, 0x00, 0x0F][..], &[0x45]]);
/// ```
pub fn commands(file: &[u8]) -> Vec<&[u8]> {
    let mut commands = Vec::new();
    let mut rest = file;
    while let [first, ..] = rest {
        let (command, behind) = rest.split_at(width(*first).min(rest.len()));
        commands.push(command);
        rest = behind;
    }
    commands
}

/// The number of bytes of a command; an unknown one is shown by its one byte.
fn width(command: u8) -> usize {
    match command {
        EDITION => 2,
        LINE => 3,
        CALL | FOLLOW => 5,
        _ => 1,
    }
}

/// Bytes as hexadecimal pairs with blanks between them.
///
/// ```
/// assert_eq!(engine::typed::pairs(&[0x4C, 0x00, 0x0F]), "4C 00 0F");
/// ```
pub fn pairs(bytes: &[u8]) -> String {
    let pairs: Vec<String> = bytes.iter().map(|byte| format!("{byte:02X}")).collect();
    pairs.join(" ")
}

/// A file as authors type it, a line for each command.
///
/// ```
/// let network = engine::typed::read(b"4C000F 4300000008 45").unwrap();
/// let text = engine::typed::text(network.bytes());
/// assert_eq!(text, "4C 000F\n43 00 00 0008\n45\n");
/// ```
pub fn text(file: &[u8]) -> String {
    let lines = commands(file).into_iter().map(typed_line);
    lines.map(|line| format!("{line}\n")).collect()
}

/// The same with a comment behind each command.
///
/// ```
/// use engine::typed::{self, END};
///
/// let network = typed::read(b"4C000F 4300000008 45").unwrap();
/// let text = typed::commented(network.bytes(), |command| match command {
///     [END] => "the end".to_string(),
///     _ => format!("{} bytes", command.len()),
/// });
/// assert_eq!(
///     text,
///     "4C 000F          # 3 bytes\n43 00 00 0008    # 5 bytes\n45               # the end\n"
/// );
/// ```
pub fn commented(file: &[u8], mut comment: impl FnMut(&[u8]) -> String) -> String {
    let commented = |command| format!("{:16} # {}\n", typed_line(command), comment(command));
    commands(file).into_iter().map(commented).collect()
}

/// A command as it is typed: minutes, which come last and have two bytes, stand
/// together.
fn typed_line(command: &[u8]) -> String {
    match command {
        [before @ .., high, low] if !before.is_empty() => {
            format!("{} {high:02X}{low:02X}", pairs(before))
        }
        _ => pairs(command),
    }
}

#[cfg(test)]
mod tests {
    use super::{read, text};

    #[test]
    fn pairs_blanks_and_comments() {
        let typed = read(b"\xEF\xBB\xBF# two\n4c00 0F\t# l\xFFne\r\n\n45").expect("pairs");
        assert_eq!(typed.bytes(), [0x4C, 0x00, 0x0F, 0x45]);
        assert_eq!(typed.line(0), Some((2, "4c00 0F # l\\xFFne")));
        assert_eq!(typed.line(2).map(|line| line.0), Some(2));
        assert_eq!(typed.line(3), Some((4, "45")));
        // Behind the last byte.
        assert_eq!(typed.line(4), Some((4, "45")));
    }

    #[test]
    fn nothing_typed() {
        let typed = read(b"# nothing\n").expect("no pairs");
        assert_eq!((typed.bytes(), typed.line(0)), (&[][..], None));
    }

    #[test]
    fn bad_pairs() {
        let bad = |text: &str| read(text.as_bytes()).expect_err("bad pairs").to_string();
        let pairs = "isn't in pairs of digits";
        assert_eq!(
            bad("45\n4C 0 0F"),
            format!("text line 2: \'0' {pairs} (column 4)")
        );
        assert_eq!(
            bad("4C000"),
            format!("text line 1: \'4C000' {pairs} (column 1)")
        );
        assert_eq!(
            bad("0x4C"),
            "text line 1: \'0x4C' isn't hexadecimal (column 2)"
        );
        assert_eq!(
            bad("  4G"),
            "text line 1: \'4G' isn't hexadecimal (column 4)"
        );
    }

    #[test]
    fn pairs_from_any_editor() {
        let typed = read("\u{FEFF}4C\u{A0}000F\r\n\u{3000}45\r\n".as_bytes()).expect("pairs");
        assert_eq!(typed.bytes(), [0x4C, 0x00, 0x0F, 0x45]);
        let bad = |text: &str| read(text.as_bytes()).expect_err("bad pairs").to_string();
        let full = "text line 2: \'4Ｃ' isn't hexadecimal (column 5: U+FF23 is full-width; type C)";
        assert_eq!(bad("45\n00 4Ｃ"), full);
        let minus = "text line 1: \'\u{2212}1' isn't hexadecimal (column 1: U+2212 is a minus)";
        assert_eq!(bad("\u{2212}1"), minus);
        // The first fault counts, be it a plain character or not.
        assert_eq!(
            bad("4x\u{200B}"),
            "text line 1: \'4x\\u{200b}' isn't hexadecimal (column 2)"
        );
        let unseen = "(column 3: U+200B can't be seen; delete it)";
        assert_eq!(
            bad("4C\u{200B}x"),
            format!("text line 1: \'4C\\u{{200b}}x' isn't hexadecimal {unseen}")
        );
        let bytes = read(b"4C \xE9").expect_err("bad pairs").to_string();
        let no_text = "the byte E9 is no text in UTF-8";
        assert_eq!(
            bytes,
            format!("text line 1: \'\\xE9' isn't hexadecimal (column 4: {no_text})")
        );
    }

    #[test]
    fn a_line_for_each_command() {
        let bytes = [
            0x56, 0x01, 0x4C, 0x00, 0x0F, 0x43, 0x00, 0x3F, 0xFF, 0xF8, 0x46, 0x00, 0x01, 0x00,
            0x0A, 0x45,
        ];
        let typed = "56 01\n4C 000F\n43 00 3F FFF8\n46 00 01 000A\n45\n";
        assert_eq!(text(&bytes), typed);
        assert_eq!(read(typed.as_bytes()).expect("pairs").bytes(), bytes);
        assert_eq!(text(&[]), "");
    }
}
