//! A file that is written, or standard output in its place.

use super::streams::put;
use crate::status::Trouble;
use crate::system;
use engine::text::shown;
use std::ffi::OsStr;
use std::io::{self, ErrorKind};
use std::path::{Path, PathBuf};

/// Where a picture or a page goes.
#[derive(Clone, Debug, PartialEq, Eq)]
pub enum Target {
    /// Standard output, typed as `-`.
    Output,
    File(PathBuf),
}

impl Target {
    pub fn of(word: &OsStr) -> Target {
        match word == "-" {
            true => Target::Output,
            false => Target::File(PathBuf::from(word)),
        }
    }

    /// Writes all of it, over what was there.
    pub fn write(&self, content: &str) -> Result<(), Trouble> {
        let Target::File(path) = self else {
            return put(content);
        };
        std::fs::write(path, content).map_err(|error| {
            let name = shown(path.as_os_str().as_encoded_bytes());
            Trouble(format!("{name} can't be written: {}", words(&error)))
        })
    }

    /// Whether it is a file in this folder, by whatever way both are named.
    pub fn is_in(&self, folder: &Path) -> bool {
        let Target::File(path) = self else {
            return false;
        };
        let beside = match path.parent() {
            Some(parent) if parent != Path::new("") => parent,
            _ => Path::new("."),
        };
        match (beside.canonicalize(), folder.canonicalize()) {
            (Ok(beside), Ok(folder)) => beside == folder,
            // A folder that isn't there has no sheets, and no page can be written to it.
            _ => false,
        }
    }

    /// The file's name as part of a line; nothing where the content itself went to standard
    /// output.
    pub fn name(&self) -> Option<String> {
        match self {
            Target::Output => None,
            Target::File(path) => Some(shown(path.as_os_str().as_encoded_bytes())),
        }
    }
}

/// Why a file can't be written. It needn't have been there, but its folder has to be.
fn words(error: &io::Error) -> String {
    match error.kind() {
        ErrorKind::NotFound => "there is no such folder".to_string(),
        ErrorKind::NotADirectory => {
            "there is no such folder: a part of its path is no folder".to_string()
        }
        _ => system::words(error),
    }
}
