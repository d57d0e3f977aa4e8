//! Numbers and stops as a word of the command line says them.

use engine::text::shown;
use engine::STOPS;
use std::ffi::OsStr;
use std::str::FromStr;

/// Digits alone: a sign, which `parse` takes, isn't one.
pub fn in_digits<Number: FromStr>(word: &OsStr) -> Option<Number> {
    let text = word.to_str()?;
    let digits = text.bytes().all(|byte| byte.is_ascii_digit());
    text.parse().ok().filter(|_| digits)
}

/// A stop: any number of 32 bits, or the name that a plan gives one.
pub enum Stop<'a> {
    Number(u32),
    Name(&'a str),
}

/// A name has a letter in it, so that no number is one.
pub fn stop_of(word: &OsStr) -> Result<Stop<'_>, String> {
    match (in_digits(word), word.to_str()) {
        (Some(number), _) => Ok(Stop::Number(number)),
        (None, Some(text)) if text.contains(char::is_alphabetic) => Ok(Stop::Name(text)),
        _ => Err(format!(
            "the stop '{}' is neither a number of 0 to {} nor a name",
            shown(word.as_encoded_bytes()),
            STOPS - 1
        )),
    }
}

pub fn check_stop(word: &OsStr) -> Result<(), String> {
    stop_of(word).map(|_| ())
}
