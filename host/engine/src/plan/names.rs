//! The names of a plan's lines and stops.

use std::collections::BTreeMap;

/// The names of a network's lines and stops, as a plan gives them. Without a
/// plan there are none, and so has the default.
///
/// ```
/// use engine::plan::{self, Names};
///
/// let plan = plan::read(b"stop 5 Market\nline Red every 20\nMarket at 8")?;
/// assert_eq!(plan.names().line(0), Some("Red"));
/// assert_eq!(plan.names().stop(5), Some("Market"));
/// assert_eq!(Names::default().line(0), None);
/// # Ok::<(), plan::Misstated>(())
/// ```
#[derive(Clone, Debug, Default, PartialEq, Eq)]
pub struct Names {
    pub(super) lines: Vec<String>,
    pub(super) stops: BTreeMap<u8, String>,
}

impl Names {
    /// The name of a line, the first being 0.
    ///
    /// ```
    /// let plan = engine::plan::read(b"line Red every 20").unwrap();
    /// assert_eq!((plan.names().line(0), plan.names().line(1)), (Some("Red"), None));
    /// ```
    pub fn line(&self, number: u8) -> Option<&str> {
        self.lines.get(usize::from(number)).map(String::as_str)
    }

    /// The name of a stop.
    ///
    /// ```
    /// let plan = engine::plan::read(b"stop 5 Market").unwrap();
    /// assert_eq!((plan.names().stop(5), plan.names().stop(0)), (Some("Market"), None));
    /// ```
    pub fn stop(&self, number: u8) -> Option<&str> {
        self.stops.get(&number).map(String::as_str)
    }

    /// The numbers of the stops that have a name, ascending; a stop may have one
    /// and no call.
    ///
    /// ```
    /// let plan = engine::plan::read(b"stop 5 Market\nstop 2 Depot").unwrap();
    /// assert_eq!(plan.names().stops().collect::<Vec<u8>>(), [2, 5]);
    /// ```
    pub fn stops(&self) -> impl Iterator<Item = u8> + '_ {
        self.stops.keys().copied()
    }
}
