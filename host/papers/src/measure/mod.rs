//! Measures the engine's calls beside those in plain Rust.
//!
//! | file       | what                                                        |
//! |------------|-------------------------------------------------------------|
//! | `times.rs` | the time of calls                                           |
//! | `rates.rs` | a rate call on both sides, and the engine's weighted rating |
//! | `hall.rs`  | a hall's calls on both sides: read, rate, better and mark   |

mod hall;
mod rates;
mod times;

pub use hall::print_hall;
pub use rates::print_rates;
