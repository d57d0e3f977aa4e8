//! The grounds for refusing.

use std::fmt;

/// Why a call is refused: the grounds of document 01, "Grounds for refusing",
/// and of the requests of document 02.
///
/// A ground has a number, which is printed, and words. Later versions of the
/// engine have more grounds, so that a `match` needs an arm for others.
///
/// ```
/// use engine::Ground;
///
/// let ground = Ground::try_from(5)?;
/// assert_eq!(ground, Ground::Period);
/// assert_eq!(ground.number(), 5);
/// assert_eq!(ground.words(), "the period isn't 1 to 1,440");
/// # Ok::<(), engine::NoGround>(())
/// ```
#[derive(Clone, Copy, Debug, PartialEq, Eq, PartialOrd, Ord, Hash)]
#[non_exhaustive]
pub enum Ground {
    /// 1: the file ends where a command is due.
    NoCommand = 1,
    /// 2: unknown command.
    UnknownCommand = 2,
    /// 3: the command's operands are cut off.
    CutOff = 3,
    /// 4: a seventeenth line.
    TooManyLines = 4,
    /// 5: the period isn't 1 to 1,440.
    Period = 5,
    /// 6: the common cycle is above 10,080 with this line.
    Cycle = 6,
    /// 7: the line isn't stated yet.
    LineNotStated = 7,
    /// 8: the stop is above 63. Of a board at place 0, and then it is the stop that was
    /// asked for ([`Refusal::is_of_file`](crate::Refusal::is_of_file)).
    Stop = 8,
    /// 9: the line already calls at this stop twice.
    ThirdCall = 9,
    /// 10: a 257th call.
    TooManyCalls = 10,
    /// 11: a ride without an earlier call of the line.
    RideFromNowhere = 11,
    /// 12: the ride's offset is above 65,535.
    Offset = 12,
    /// 13: the end with no line, or with a line that never calls.
    EndTooEarly = 13,
    /// 14: a byte after the end.
    ByteAfterEnd = 14,
    /// 15: the sheet hasn't one start for each line.
    SheetLength = 15,
    /// 16: the start row hasn't one place for each line.
    StartRowLength = 16,
    /// 17: the class or weight row isn't 64 long.
    ClassRowLength = 17,
    /// 18: the archive row is shorter than the archive form.
    ArchiveRowLength = 18,
    /// 19: a ride in an edition that has none.
    RideRetired = 19,
    /// 20: the edition isn't the file's first command.
    EditionNotFirst = 20,
    /// 21: the edition isn't 1 or 2.
    EditionUnknown = 21,
    /// 22: the board is longer than 10,080 minutes.
    BoardLength = 22,
    /// 23: a row is shorter than the board.
    BoardRowLength = 23,
}

impl Ground {
    /// All grounds, by their numbers.
    ///
    /// ```
    /// use engine::Ground;
    ///
    /// for (before, ground) in Ground::ALL.into_iter().enumerate() {
    ///     assert_eq!(ground.number() as usize, before + 1);
    /// }
    /// ```
    pub const ALL: [Ground; 23] = [
        Ground::NoCommand,
        Ground::UnknownCommand,
        Ground::CutOff,
        Ground::TooManyLines,
        Ground::Period,
        Ground::Cycle,
        Ground::LineNotStated,
        Ground::Stop,
        Ground::ThirdCall,
        Ground::TooManyCalls,
        Ground::RideFromNowhere,
        Ground::Offset,
        Ground::EndTooEarly,
        Ground::ByteAfterEnd,
        Ground::SheetLength,
        Ground::StartRowLength,
        Ground::ClassRowLength,
        Ground::ArchiveRowLength,
        Ground::RideRetired,
        Ground::EditionNotFirst,
        Ground::EditionUnknown,
        Ground::BoardLength,
        Ground::BoardRowLength,
    ];

    /// The number, 1 to 23.
    ///
    /// ```
    /// assert_eq!(engine::Ground::SheetLength.number(), 15);
    /// ```
    pub fn number(self) -> u32 {
        self as u32
    }

    /// The ground in words.
    ///
    /// ```
    /// assert_eq!(engine::Ground::Stop.words(), "the stop is above 63");
    /// ```
    pub fn words(self) -> &'static str {
        match self {
            Ground::NoCommand => "the file ends where a command is due",
            Ground::UnknownCommand => "unknown command",
            Ground::CutOff => "the command's operands are cut off",
            Ground::TooManyLines => "a seventeenth line",
            Ground::Period => "the period isn't 1 to 1,440",
            Ground::Cycle => "the common cycle is above 10,080 with this line",
            Ground::LineNotStated => "the line isn't stated yet",
            Ground::Stop => "the stop is above 63",
            Ground::ThirdCall => "the line already calls at this stop twice",
            Ground::TooManyCalls => "a 257th call",
            Ground::RideFromNowhere => "a ride without an earlier call of the line",
            Ground::Offset => "the ride's offset is above 65,535",
            Ground::EndTooEarly => "the end with no line, or with a line that never calls",
            Ground::ByteAfterEnd => "a byte after the end",
            Ground::SheetLength => "the sheet hasn't one start for each line",
            Ground::StartRowLength => "the start row hasn't one place for each line",
            Ground::ClassRowLength => "the class or weight row isn't 64 long",
            Ground::ArchiveRowLength => "the archive row is shorter than the archive form",
            Ground::RideRetired => "a ride in an edition that has none",
            Ground::EditionNotFirst => "the edition isn't the file's first command",
            Ground::EditionUnknown => "the edition isn't 1 or 2",
            Ground::BoardLength => "the board is longer than 10,080 minutes",
            Ground::BoardRowLength => "a row is shorter than the board",
        }
    }

    /// Whether a network file can be refused on it, and not only a sheet, a row that was
    /// lent or what was asked for. Ground 8 can be of the file and of a board's stop; of
    /// which it is, [`Refusal::is_of_file`](crate::Refusal::is_of_file) says.
    ///
    /// ```
    /// use engine::Ground;
    ///
    /// assert!(Ground::ByteAfterEnd.is_of_file());
    /// assert!(!Ground::SheetLength.is_of_file());
    /// assert!(Ground::EditionUnknown.is_of_file());
    /// assert!(!Ground::BoardLength.is_of_file());
    /// ```
    pub fn is_of_file(self) -> bool {
        // Without an arm for others: a ground that is added has to be told apart here.
        match self {
            Ground::NoCommand
            | Ground::UnknownCommand
            | Ground::CutOff
            | Ground::TooManyLines
            | Ground::Period
            | Ground::Cycle
            | Ground::LineNotStated
            | Ground::Stop
            | Ground::ThirdCall
            | Ground::TooManyCalls
            | Ground::RideFromNowhere
            | Ground::Offset
            | Ground::EndTooEarly
            | Ground::ByteAfterEnd
            | Ground::RideRetired
            | Ground::EditionNotFirst
            | Ground::EditionUnknown => true,
            Ground::SheetLength
            | Ground::StartRowLength
            | Ground::ClassRowLength
            | Ground::ArchiveRowLength
            | Ground::BoardLength
            | Ground::BoardRowLength => false,
        }
    }
}

/// The ground of a number.
impl TryFrom<u32> for Ground {
    type Error = NoGround;

    fn try_from(number: u32) -> Result<Ground, NoGround> {
        let of_number = |ground: &Ground| ground.number() == number;
        Ground::ALL
            .into_iter()
            .find(of_number)
            .ok_or(NoGround(number))
    }
}

/// A number that no ground has.
///
/// ```
/// use engine::{Ground, NoGround};
///
/// assert_eq!(Ground::try_from(24), Err(NoGround(24)));
/// assert_eq!(NoGround(24).to_string(), "there is no ground 24");
/// ```
#[derive(Clone, Copy, Debug, PartialEq, Eq)]
pub struct NoGround(pub u32);

impl fmt::Display for NoGround {
    fn fmt(&self, out: &mut fmt::Formatter<'_>) -> fmt::Result {
        write!(out, "there is no ground {}", self.0)
    }
}

impl std::error::Error for NoGround {}
