//! A refusal: its ground and its place.

use crate::ground::Ground;
use std::fmt;

/// What a call answers that doesn't take its file, its sheet, its rows or what is asked.
/// Nothing was written then to any row.
///
/// It is displayed as document 01 prints it.
///
/// ```
/// use engine::{Ground, Refusal};
///
/// // A period of 1,441 minutes.
/// let refusal = engine::read(&[0x4C, 0x05, 0xA1, 0x45]).unwrap_err();
/// assert_eq!(refusal, Refusal { ground: Ground::Period, place: 0 });
/// assert_eq!(refusal.to_string(), "refused 5 at 0");
/// ```
#[derive(Clone, Copy, Debug, PartialEq, Eq)]
pub struct Refusal {
    /// Why.
    pub ground: Ground,
    /// The byte of the file at which the command at fault stands; 0 where the
    /// file isn't at fault ([`Refusal::is_of_file`]).
    pub place: u32,
}

impl Refusal {
    /// Why, in words: those of the ground, but for the stop that a board was asked for.
    ///
    /// ```
    /// use engine::Sheet;
    ///
    /// let refusal = engine::read(&[]).unwrap_err();
    /// assert_eq!(refusal.words(), "the file ends where a command is due");
    ///
    /// let network = engine::typed::read(b"4C000F 4300000008 45").unwrap();
    /// let refusal = engine::board(network.bytes(), &Sheet::of_starts(&[0]), 64, 0, 60);
    /// assert_eq!(refusal.unwrap_err().words(), "the stop asked for is above 63");
    /// ```
    pub fn words(&self) -> &'static str {
        match self.is_of_asked_stop() {
            true => "the stop asked for is above 63",
            false => self.ground.words(),
        }
    }

    /// Whether the network file is at fault: then the place is a byte of it.
    ///
    /// ```
    /// use engine::{Ground, Refusal};
    ///
    /// let refusal = |ground, place| Refusal { ground, place };
    /// assert!(refusal(Ground::Period, 0).is_of_file());
    /// assert!(!refusal(Ground::SheetLength, 0).is_of_file());
    /// // A call at stop 64, and a board of stop 64.
    /// assert!(refusal(Ground::Stop, 3).is_of_file());
    /// assert!(!refusal(Ground::Stop, 0).is_of_file());
    /// ```
    pub fn is_of_file(&self) -> bool {
        self.ground.is_of_file() && !self.is_of_asked_stop()
    }

    /// No call of a file is refused so at place 0: no line is stated there yet, which
    /// ground 7 says first.
    fn is_of_asked_stop(&self) -> bool {
        self.ground == Ground::Stop && self.place == 0
    }
}

impl fmt::Display for Refusal {
    fn fmt(&self, out: &mut fmt::Formatter<'_>) -> fmt::Result {
        write!(out, "refused {} at {}", self.ground.number(), self.place)
    }
}

impl std::error::Error for Refusal {}
