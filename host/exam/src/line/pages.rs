//! What is printed without asking the engine: help, the version, and the pages
//! that other programs read. All of it goes by the table.

use super::table::Verb;
use super::{completions, help, man};

pub enum Page {
    /// The help of the whole command.
    Overview,
    Of(&'static Verb),
    Version,
    /// The manual page, for `man`.
    Man,
    Completions(Shell),
}

/// A shell that completes words.
#[derive(Clone, Copy, Debug, PartialEq, Eq)]
pub enum Shell {
    Bash,
    Fish,
}

impl Shell {
    pub const ALL: [Shell; 2] = [Shell::Bash, Shell::Fish];

    pub fn name(self) -> &'static str {
        match self {
            Shell::Bash => "bash",
            Shell::Fish => "fish",
        }
    }
}

/// A page as it is printed.
pub fn text(verbs: &[&Verb], page: Page) -> String {
    match page {
        Page::Overview => help::overview(verbs),
        Page::Of(verb) => help::of_verb(verbs, verb),
        Page::Version => version(),
        Page::Man => man::page(verbs),
        Page::Completions(Shell::Bash) => completions::bash(verbs),
        Page::Completions(Shell::Fish) => completions::fish(verbs),
    }
}

/// This command, and the engine in it as `cksum` tells it.
fn version() -> String {
    let (command, library) = (env!("CARGO_PKG_VERSION"), engine::LIBRARY);
    format!("exam {command}\nengine {library}\n")
}
