//! What an accepted file says, number by number.

use crate::calls::archive;
use crate::refusal::Refusal;
use crate::typed::{commands, CALL, EDITION, END, LINE};

/// Editions are 1 to this one.
///
/// ```
/// use engine::{typed::EDITION, Ground, LATEST_EDITION};
///
/// let ground = |edition| engine::read(&[EDITION, edition]).unwrap_err().ground;
/// assert_eq!(ground(LATEST_EDITION), Ground::NoCommand);
/// assert_eq!(ground(LATEST_EDITION + 1), Ground::EditionUnknown);
/// ```
pub const LATEST_EDITION: u8 = 2;

/// What an accepted network file says. It is taken from the archive form, which
/// the engine writes, and never from the file: what stands here is what the
/// engine read.
///
/// ```
/// use engine::{contents, typed, Call};
///
/// // A ride: 3 minutes, and 5 more.
/// let network = typed::read(b"4C000F 4300050003 4600000005 45")?;
/// let contents = contents(network.bytes()).expect("an accepted network");
/// assert_eq!((contents.edition, &contents.periods[..]), (1, &[15][..]));
/// let call = |stop, offset| Call { line: 0, stop, offset };
/// assert_eq!(contents.calls, [call(0, 8), call(5, 3)]);
/// # Ok::<(), typed::Mistyped>(())
/// ```
#[derive(Clone, Debug, PartialEq, Eq)]
#[non_exhaustive]
pub struct Contents {
    /// The edition by whose rules the file is read, 1 where it states none.
    pub edition: u8,
    /// The periods in line order, in minutes.
    pub periods: Vec<u16>,
    /// The calls in the order of the archive form: by line, then stop, then
    /// offset.
    pub calls: Vec<Call>,
}

/// A line's call at a stop.
///
/// ```
/// let network = engine::typed::read(b"4C000F 4300000008 45").unwrap();
/// let call = engine::contents(network.bytes()).unwrap().calls[0];
/// assert_eq!((call.line, call.stop, call.offset), (0, 0, 8));
/// ```
#[derive(Clone, Copy, Debug, PartialEq, Eq)]
pub struct Call {
    /// The line, counted from 0.
    pub line: u8,
    /// The stop, 0 to 63.
    pub stop: u8,
    /// The line reaches the stop so many minutes after its start.
    pub offset: u16,
}

impl Contents {
    /// The calls of a line as it makes them: by offset, and by stop where two are
    /// equal.
    ///
    /// ```
    /// let network = engine::typed::read(b"4C000F 4300000008 4300050003 45").unwrap();
    /// let contents = engine::contents(network.bytes()).unwrap();
    /// let stops: Vec<u8> = contents.along(0).iter().map(|call| call.stop).collect();
    /// assert_eq!(stops, [5, 0]);
    /// ```
    pub fn along(&self, line: u8) -> Vec<Call> {
        let mut calls: Vec<Call> = self.calls.clone();
        calls.retain(|call| call.line == line);
        calls.sort_by_key(|call| (call.offset, call.stop));
        calls
    }

    /// The calls at a stop, by line and then offset.
    ///
    /// ```
    /// let network = engine::typed::read(b"4C000F 4C0014 4301000011 4300000008 45").unwrap();
    /// let contents = engine::contents(network.bytes()).unwrap();
    /// let lines: Vec<u8> = contents.at_stop(0).iter().map(|call| call.line).collect();
    /// assert_eq!(lines, [0, 1]);
    /// ```
    pub fn at_stop(&self, stop: u8) -> Vec<Call> {
        let mut calls: Vec<Call> = self.calls.clone();
        calls.retain(|call| call.stop == stop);
        calls
    }
}

/// Asks the engine what a file says.
///
/// ```
/// let refusal = engine::contents(&[0x45]).unwrap_err();
/// assert_eq!(refusal.to_string(), "refused 13 at 0");
/// ```
pub fn contents(file: &[u8]) -> Result<Contents, Refusal> {
    let form = archive(file)?;
    let mut contents = Contents {
        // Edition 1 isn't stated in an archive form; every other one is.
        edition: 1,
        periods: Vec::new(),
        calls: Vec::new(),
    };
    for command in commands(&form) {
        match *command {
            [EDITION, edition] => contents.edition = edition,
            [LINE, high, low] => contents.periods.push(u16::from_be_bytes([high, low])),
            [CALL, line, stop, high, low] => contents.calls.push(Call {
                line,
                stop,
                offset: u16::from_be_bytes([high, low]),
            }),
            [END] => {}
            // To pass over it would be to show another network than was read.
            _ => panic!("an archive form with the command {command:02X?}: is the library another?"),
        }
    }
    Ok(contents)
}
