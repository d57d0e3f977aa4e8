//! Pictures of a timetable, as SVG: an element `<svg>` that stands in a file or in a page.
//! Every number that is written or that a mark stands for is the engine's; places on the
//! paper alone are computed here.
//!
//! | file           | what                                                  |
//! |----------------|-------------------------------------------------------|
//! | `subject.rs`   | what is drawn                                         |
//! | `timetable.rs` | what the engine answers of a timetable                |
//! | `words.rs`     | what is to be seen, in words                          |
//! | `svg.rs`       | the element and its sizes                             |
//! | `text.rs`      | texts, cut where they have no room                    |
//! | `marks.rs`     | the marks of lines                                    |
//! | `legend.rs`    | which mark is which line's                            |
//! | `axis.rs`      | round minutes                                         |
//! | `layout.rs`    | where strips stand                                    |
//! | `join.rs`      | the two arrivals that make a gap, on a strip          |
//! | `strips.rs`    | a strip for each stop                                 |
//! | `arc.rs`       | a circle of minutes                                   |
//! | `circle.rs`    | a stop's arrivals on a circle                         |

mod arc;
mod axis;
mod circle;
mod join;
mod layout;
mod legend;
mod marks;
mod strips;
mod subject;
mod svg;
mod text;
mod timetable;
mod words;

pub use subject::Subject;

use engine::Refusal;
use timetable::{Stop, Timetable};

/// A strip for each served stop, with a mark for each arrival.
pub fn strips(subject: &Subject) -> Result<String, Refusal> {
    strips::element(&Timetable::of(subject)?, subject.id)
}

/// How many arrivals the strips have.
pub fn arrivals(subject: &Subject) -> Result<usize, Refusal> {
    let stops = Timetable::of(subject)?.stops()?;
    Ok(stops.iter().map(Stop::arrivals).sum())
}

/// A stop's arrivals on a circle of one common cycle, whatever the window.
pub fn circle(subject: &Subject, stop: u8) -> Result<String, Refusal> {
    let one_cycle = Subject {
        window: None,
        ..*subject
    };
    circle::element(&Timetable::of(&one_cycle)?, subject.id, stop)
}
