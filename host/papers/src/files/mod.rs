//! Network files and sheets from a seed, good and bad. The same seed gives the
//! same files on every machine: no clock, no hash order.
//!
//! | file          | what                                                    |
//! |---------------|---------------------------------------------------------|
//! | `dice.rs`     | numbers from a seed                                     |
//! | `commands.rs` | commands, their bytes and what they state               |
//! | `bytes.rs`    | bytes without order                                     |
//! | `valid.rs`    | files that are accepted                                 |
//! | `retyped.rs`  | the same network typed in another way                   |
//! | `faulty.rs`   | files that are refused on a given ground                |
//! | `damaged.rs`  | accepted files with some damage                         |
//! | `large.rs`    | full files, files at the limits, very long files        |
//! | `any.rs`      | files of every kind                                     |
//! | `sheets.rs`   | sheets, budgets and wanted gaps                         |
//! | `windows.rs`  | stops, minutes and lengths of boards                    |

mod any;
mod bytes;
mod commands;
mod damaged;
mod dice;
mod faulty;
mod large;
mod retyped;
mod sheets;
mod valid;
mod windows;

pub use any::any_file;
pub use bytes::{likely_bytes, random_bytes};
pub use commands::{bytes_of, file_of, Command, Stated};
pub use damaged::damaged_file;
pub use dice::Dice;
pub use faulty::{faulty_file, Faulty, GROUNDS, OUTCOMES};
pub use large::{dense_file, limit_file, longest_file, openings, very_long_file};
pub use retyped::retyped;
pub use sheets::{any_budget, any_gap, any_sheet, any_sheet_bytes, any_start, sheet, sheet_bytes};
pub use valid::{
    any_size, roomy_file, valid_commands, valid_commands_of, valid_file, Size, CYCLES,
};
pub use windows::{any_window, fullest_file, window};
