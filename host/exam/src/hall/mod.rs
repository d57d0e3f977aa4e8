//! What several verbs do with a hall's sheets and with long searches.
//!
//! | file          | what                                                   |
//! |---------------|--------------------------------------------------------|
//! | `sheets.rs`   | the sheets that operands name, files and folders       |
//! | `outcome.rs`  | what became of a sheet                                 |
//! | `ranking.rs`  | sheets by their marks, the largest first               |
//! | `record.rs`   | the fields of the record, as CSV and JSON              |
//! | `report.rs`   | all sheets: a line or a row for each, and the tally    |
//! | `judging.rs`  | from the sheets of a request to its report             |
//! | `stages.rs`   | a call that may take long, and what is known midway    |
//! | `search.rs`   | such searches, for the best one and for a wanted gap   |
//! | `bound.rs`    | the budget that always suffices                        |
//! | `checksum.rs` | the checksum of a network                              |
//! | `witness.rs`  | the two arrivals that make a stop's gap                |
//! | `explaining.rs` | a sheet stop by stop, beside a key                   |
//! | `verdict.rs`  | what decides between a sheet and a key, in words       |

pub mod bound;
pub mod checksum;
pub mod explaining;
pub mod judging;
pub mod outcome;
pub mod ranking;
pub mod record;
pub mod report;
pub mod search;
pub mod sheets;
pub mod stages;
pub mod verdict;
pub mod witness;
