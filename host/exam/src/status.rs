//! How the command ends.

/// The exit status.
#[derive(Clone, Copy, Debug, PartialEq, Eq)]
pub enum Status {
    Done = 0,
    /// The engine refused the file or the sheet, `better` has neither, or `same`
    /// has two networks.
    Refused = 1,
    /// Bad usage, input that can't be read, output that can't be written.
    Trouble = 2,
    /// The budget was used up before the search was finished.
    Undecided = 3,
}

/// Why the engine couldn't be asked or its answer not be written; in words, or
/// empty where nothing is to be said of it.
#[derive(Clone, Debug, PartialEq, Eq)]
pub struct Trouble(pub String);

impl Trouble {
    /// Nobody is left who wants to know.
    pub fn unsaid() -> Trouble {
        Trouble(String::new())
    }
}
