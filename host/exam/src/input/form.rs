//! How a sheet is written.

/// How a sheet is written: never guessed from what it holds.
#[derive(Clone, Copy, Debug, PartialEq, Eq)]
pub enum Form {
    /// As a person types it: whole numbers.
    Text,
    Bytes,
}
