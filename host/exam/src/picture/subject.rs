//! What is drawn.

use crate::hall::witness::Window;
use crate::input::network::Network;
use engine::Sheet;

/// A sheet of a network, and how it is drawn.
pub struct Subject<'a> {
    pub network: &'a Network,
    pub sheet: &'a Sheet,
    /// The minutes of the strips; `None` is one common cycle from minute 0.
    pub window: Option<Window>,
    /// The beginning of every id, so that several pictures stand in one page: a letter
    /// first, then letters, digits and `-`.
    pub id: &'a str,
}
