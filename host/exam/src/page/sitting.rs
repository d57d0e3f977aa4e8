//! What is on the page.

use crate::hall::explaining::Key;
use crate::hall::outcome::Row;
use crate::input::network::Network;
use crate::output::lines::joined;
use engine::Searched;

/// A network, the search for its best timetable, and the sheets.
pub struct Sitting<'a> {
    pub network: &'a Network,
    pub budget: u32,
    pub searched: &'a Searched,
    pub key: Key,
    /// In the order of names.
    pub rows: &'a [Row],
}

impl Sitting<'_> {
    /// The name of the network's file, without its folders.
    pub fn network_name(&self) -> &str {
        let name = &self.network.name;
        name.rsplit('/').next().unwrap_or(name)
    }

    /// The tries of the search.
    pub fn tries(&self) -> u32 {
        match self.searched {
            Searched::Finished(best) => best.tries(),
            Searched::Stopped { tries, .. } | Searched::StoppedWithNone { tries } => *tries,
        }
    }
}

/// The id of a sheet's section, by its place.
pub fn sheet_id(place: usize) -> String {
    format!("sheet-{}", place + 1)
}

/// The starts of a timetable, in the same words for the key and for each sheet.
pub fn in_line_order(starts: &[i32]) -> String {
    format!("Starts in line order: {}", joined(starts))
}
