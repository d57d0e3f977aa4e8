//! Text that people type, in whatever editor: its lines, its words with their
//! columns, and what to say of a word that isn't right. [`typed`](crate::typed)
//! reads by it, and a program that reads sheets as numbers can too.
//!
//! ```
//! use engine::text;
//!
//! let lines: Vec<_> = text::lines(b"\xEF\xBB\xBF0 \xC2\xA0 15 # a note\n-17").collect();
//! let first: Vec<_> = text::words(lines[0]).map(|word| (word.column, word.shown())).collect();
//! assert_eq!(first, [(1, "0".to_string()), (5, "15".to_string())]);
//! ```

use std::collections::VecDeque;

/// Some editors put these before a text.
const MARK_OF_UTF8: [u8; 3] = [0xEF, 0xBB, 0xBF];
/// What stands before a text of two bytes a character.
const MARKS_OF_UTF16: [[u8; 2]; 2] = [[0xFF, 0xFE], [0xFE, 0xFF]];

/// What is shown of a long text at each end. With the dots that is 256, so that
/// a file's own name, of 255 bytes at most, is never cut.
const END: usize = 127;
const DOTS: &str = "..";

/// The lines of a text, without their ends; a byte order mark before the first
/// is no part of it.
///
/// ```
/// let lines: Vec<&[u8]> = engine::text::lines(b"\xEF\xBB\xBF0\n3").collect();
/// assert_eq!(lines, [b"0", b"3"]);
/// ```
pub fn lines(text: &[u8]) -> impl Iterator<Item = &[u8]> {
    let text = text.strip_prefix(&MARK_OF_UTF8).unwrap_or(text);
    text.split(|&byte| byte == b'\n')
}

/// What stands before a comment.
pub(crate) fn without_comment(line: &[u8]) -> &[u8] {
    line.split(|&byte| byte == b'#').next().unwrap_or(line)
}

/// A word of a line.
///
/// ```
/// let word = engine::text::words(b"  -17").next().unwrap();
/// assert_eq!((word.column, word.bytes), (3, &b"-17"[..]));
/// ```
#[derive(Clone, Copy, Debug, PartialEq, Eq)]
pub struct Word<'a> {
    /// The column at which it begins, the first being 1, counted in characters.
    pub column: usize,
    /// The word itself.
    pub bytes: &'a [u8],
}

/// The words of a line up to its comment, which `#` begins. Blanks of every
/// width stand between them, those that don't break a line too.
///
/// ```
/// let words = engine::text::words("4C\u{A0}000F\r # line 0".as_bytes());
/// assert_eq!(words.map(|word| word.bytes).collect::<Vec<_>>(), [&b"4C"[..], b"000F"]);
/// ```
pub fn words(line: &[u8]) -> impl Iterator<Item = Word<'_>> {
    let line = without_comment(line);
    let mut signs = signs(line).enumerate().peekable();
    std::iter::from_fn(move || {
        let (before, first) = signs.find(|(_, sign)| !sign.is_blank())?;
        let mut end = first.end();
        while let Some((_, sign)) = signs.next_if(|(_, sign)| !sign.is_blank()) {
            end = sign.end();
        }
        Some(Word {
            column: before + 1,
            bytes: &line[first.at..end],
        })
    })
}

impl Word<'_> {
    /// The word for a message; see [`shown`].
    ///
    /// ```
    /// let word = engine::text::words(b"3\x1B[2J").next().unwrap();
    /// assert_eq!(word.shown(), "3\\u{1b}[2J");
    /// ```
    pub fn shown(&self) -> String {
        shown(self.bytes)
    }

    /// The first character that is none of a plain keyboard: its column, and
    /// what it is in words.
    ///
    /// ```
    /// let word = engine::text::words("  1５".as_bytes()).next().unwrap();
    /// assert_eq!(word.odd(), Some((4, "U+FF15 is full-width; type 5".to_string())));
    /// ```
    pub fn odd(&self) -> Option<(usize, String)> {
        if MARKS_OF_UTF16
            .iter()
            .any(|mark| self.bytes.starts_with(mark))
        {
            let words = "the text is UTF-16; save it as UTF-8";
            return Some((self.column, words.to_string()));
        }
        let plain = |sign: &Sign| matches!(sign.what, Ok(' '..='~'));
        let (before, sign) = signs(self.bytes)
            .enumerate()
            .find(|(_, sign)| !plain(sign))?;
        Some((self.column + before, in_words(sign.what)))
    }
}

/// What a character is that only looks right, or can't be seen.
fn in_words(what: Result<char, u8>) -> String {
    let sign = match what {
        Ok(sign) => sign,
        Err(byte) => return format!("the byte {byte:02X} is no text in UTF-8"),
    };
    let says = match sign {
        '\u{2212}' => "is a minus".to_string(),
        '\u{2010}'..='\u{2015}' | '\u{FE58}' | '\u{FE63}' | '\u{FF0D}' => {
            "is a dash; a minus is typed -".to_string()
        }
        '\u{FF01}'..='\u{FF5E}' => {
            let plain = char::from_u32(sign as u32 - 0xFF01 + 0x21).unwrap_or(' ');
            format!("is full-width; type {plain}")
        }
        '\u{FEFF}' => "is a byte order mark, which stands before a text only".to_string(),
        _ if sign.is_control() => "is a control character".to_string(),
        _ if is_hidden(sign) => "can't be seen; delete it".to_string(),
        _ if sign.is_numeric() => "is a digit of another script; type 0 to 9".to_string(),
        _ => "is no plain letter, digit or sign".to_string(),
    };
    format!("U+{:04X} {says}", sign as u32)
}

/// Text from outside, such as a word or a file's name, as a part of one line of
/// a message: what can't be seen or would move a terminal's cursor is written
/// out, `\u{1b}`, as are bytes that are no text, `\xFF`; `\` itself becomes
/// `\\`. Of more than 256 characters the middle is left out.
///
/// ```
/// use engine::text::shown;
///
/// assert_eq!(shown(b"Zo\xC3\xAB.sheet"), "Zoë.sheet");
/// assert_eq!(shown(b"a\nexam: b\xFF"), "a\\u{a}exam: b\\xFF");
/// assert_eq!(shown(&[b'7'; 1000]).len(), 256);
/// ```
pub fn shown(text: &[u8]) -> String {
    let mut signs = signs(text);
    let head: String = signs.by_ref().take(END).map(Sign::written).collect();
    let mut tail = VecDeque::new();
    let mut dots = "";
    for sign in signs {
        if tail.len() == END + DOTS.len() {
            tail.pop_front();
            dots = DOTS;
        }
        tail.push_back(sign);
    }
    // The dots stand in for as many characters, or else for more.
    let tail = tail.into_iter().skip(dots.len()).map(Sign::written);
    format!("{head}{dots}{}", tail.collect::<String>())
}

/// Whether a character leaves nothing to see, or moves what others leave:
/// control characters, marks of direction, joiners, every blank but the plain
/// one.
///
/// ```
/// assert!(engine::text::is_hidden('\u{202E}'));
/// assert!(!engine::text::is_hidden('ö'));
/// ```
pub fn is_hidden(sign: char) -> bool {
    let blank = sign.is_whitespace() && sign != ' ';
    let other = matches!(
        sign,
        '\u{AD}'
            | '\u{34F}'
            | '\u{61C}'
            | '\u{115F}'..='\u{1160}'
            | '\u{17B4}'..='\u{17B5}'
            | '\u{180B}'..='\u{180E}'
            | '\u{200B}'..='\u{200F}'
            | '\u{2028}'..='\u{202E}'
            | '\u{2060}'..='\u{206F}'
            | '\u{2800}'
            | '\u{3164}'
            | '\u{FE00}'..='\u{FE0F}'
            | '\u{FEFF}'
            | '\u{FFA0}'
            | '\u{FFF0}'..='\u{FFFB}'
            | '\u{E0000}'..='\u{E0FFF}'
    );
    blank || other || sign.is_control()
}

/// A character, or a byte that is no part of one, and where it begins.
#[derive(Clone, Copy)]
struct Sign {
    at: usize,
    what: Result<char, u8>,
}

fn signs(text: &[u8]) -> impl Iterator<Item = Sign> + '_ {
    let whats = text.utf8_chunks().flat_map(|chunk| {
        let bytes = chunk.invalid().iter().map(|&byte| Err(byte));
        chunk.valid().chars().map(Ok).chain(bytes)
    });
    let mut next = 0;
    whats.map(move |what| {
        let sign = Sign { at: next, what };
        next = sign.end();
        sign
    })
}

impl Sign {
    fn end(&self) -> usize {
        self.at + self.what.map_or(1, char::len_utf8)
    }

    /// Blanks within a line, and the first half of a line's end in some editors.
    fn is_blank(&self) -> bool {
        let of_lines = ['\u{85}', '\u{2028}', '\u{2029}'];
        self.what
            .is_ok_and(|sign| sign.is_whitespace() && !of_lines.contains(&sign))
    }

    fn written(self) -> String {
        match self.what {
            Ok('\\') => "\\\\".to_string(),
            Ok(sign) if is_hidden(sign) => sign.escape_unicode().to_string(),
            Ok(sign) => sign.to_string(),
            Err(byte) => format!("\\x{byte:02X}"),
        }
    }
}

#[cfg(test)]
mod tests {
    use super::{lines, shown, words};

    #[test]
    fn blanks_of_every_width() {
        let line = "0\u{A0}1\u{2007}2\u{202F}3\u{3000}4\t5\u{B}6\r";
        let columns: Vec<usize> = words(line.as_bytes()).map(|word| word.column).collect();
        assert_eq!(columns, [1, 3, 5, 7, 9, 11, 13]);
        assert_eq!(words(" # \u{A0} 1".as_bytes()).next(), None);
        // These end lines in some editors and none in others.
        assert_eq!(words("0\u{2028}1\u{85}2".as_bytes()).count(), 1);
        // A byte order mark stands before the first line only.
        let text = b"\xEF\xBB\xBF0\n\xEF\xBB\xBF1";
        let odd: Vec<bool> = lines(text)
            .map(|line| words(line).any(|word| word.odd().is_some()))
            .collect();
        assert_eq!(odd, [false, true]);
    }

    #[test]
    fn odd_characters_in_words() {
        let cases: [(&[u8], usize, &str); 12] = [
            ("x \u{2212}3".as_bytes(), 3, "U+2212 is a minus"),
            (
                "\u{2013}3".as_bytes(),
                1,
                "U+2013 is a dash; a minus is typed -",
            ),
            ("4\u{FF23}".as_bytes(), 2, "U+FF23 is full-width; type C"),
            ("\u{FF5E}".as_bytes(), 1, "U+FF5E is full-width; type ~"),
            (
                "3\u{FEFF}".as_bytes(),
                2,
                "U+FEFF is a byte order mark, which stands before a text only",
            ),
            (b"3\x1B", 2, "U+001B is a control character"),
            ("3\u{200B}".as_bytes(), 2, "U+200B can't be seen; delete it"),
            (
                "\u{663}".as_bytes(),
                1,
                "U+0663 is a digit of another script; type 0 to 9",
            ),
            (
                "4\u{421}".as_bytes(),
                2,
                "U+0421 is no plain letter, digit or sign",
            ),
            (b"ab \xE9", 4, "the byte E9 is no text in UTF-8"),
            (b"\xFF\xFE0\0", 1, "the text is UTF-16; save it as UTF-8"),
            (b"\xFE\xFF\x000", 1, "the text is UTF-16; save it as UTF-8"),
        ];
        for (line, column, says) in cases {
            let odd = words(line).find_map(|word| word.odd());
            assert_eq!(odd, Some((column, says.to_string())));
        }
        assert_eq!(words(b"3x, !~").find_map(|word| word.odd()), None);
    }

    #[test]
    fn text_for_a_message() {
        let hidden = "\0\t\n\r\u{1B}\u{7F}\u{85}\u{9B}\u{A0}\u{AD}\u{200E}\u{2028}\u{202E}\u{2066}\u{FEFF}\u{E0041}";
        for sign in hidden.chars() {
            let text = shown(format!("a{sign}b").as_bytes());
            assert_eq!(text, format!("a\\u{{{:x}}}b", sign as u32));
        }
        // What is written out can't be taken for what is there.
        assert_eq!(shown(b"a\\u{a}"), "a\\\\u{a}");
        assert_eq!(shown("Zoë 東京 u\u{308}".as_bytes()), "Zoë 東京 u\u{308}");
    }

    #[test]
    fn long_text_is_cut_in_the_middle() {
        let whole = format!("{}{}", "a".repeat(128), "z".repeat(128));
        assert_eq!(shown(whole.as_bytes()), whole);
        let long = format!("{}-{}", "a".repeat(128), "z".repeat(128));
        let cut = format!("{}..{}", "a".repeat(127), "z".repeat(127));
        assert_eq!(shown(long.as_bytes()), cut);
        let bytes = shown(&[0xFF; 300]);
        assert_eq!(bytes.matches("\\xFF").count(), 254);
    }
}
