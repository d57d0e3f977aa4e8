//! Document 02, A.3, "From a wanted gap to a timetable"; ground 16.

use super::network::{Network, Refusal};
use super::walk::{read_with_row, walk_by, End, Rule};

/// "a timetable with at least that gap, or none, or stopped, each with the tries"
#[derive(Clone, Copy, Debug, PartialEq, Eq)]
pub enum Wanted {
    Found { tries: u32 },
    None { tries: u32 },
    Stopped { tries: u32 },
}

/// The answer together with the starts of a timetable that was found.
#[derive(Clone, Debug, PartialEq, Eq)]
pub struct Sought {
    pub answer: Wanted,
    pub starts: Option<Vec<i32>>,
}

/// The call: "None and stopped leave the row untouched; its length is tested as in
/// the search."
pub fn wanted(
    file: &[u8],
    start_row: &mut [i32],
    gap: u16,
    budget: u32,
) -> Result<Wanted, Refusal> {
    let net = read_with_row(file, start_row)?;
    let sought = seek(&net, gap, budget);
    if let Some(starts) = &sought.starts {
        start_row.copy_from_slice(starts);
    }
    Ok(sought.answer)
}

/// "The walk is the usual one with another cut": over an accepted network.
pub fn seek(net: &Network, gap: u16, budget: u32) -> Sought {
    let (end, walker) = walk_by(Rule::Wanted(u32::from(gap)), net, budget);
    let tries = walker.tries;
    let answer = match end {
        End::Found => Wanted::Found { tries },
        End::Walked => Wanted::None { tries },
        End::Stopped => Wanted::Stopped { tries },
    };
    Sought {
        answer,
        starts: (end == End::Found).then_some(walker.best_starts),
    }
}
