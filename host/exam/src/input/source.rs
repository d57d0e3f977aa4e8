//! Files and standard input, read with a limit and with clear messages.

use crate::closed;
use crate::status::Trouble;
use crate::system;
use engine::text::shown;
use std::ffi::OsString;
use std::fs::File;
use std::io::{self, Read};
use std::path::{Path, PathBuf};

/// Where a network or a sheet comes from.
#[derive(Clone, Debug, PartialEq, Eq)]
pub enum Source {
    /// Standard input, typed as `-`.
    Input,
    File(PathBuf),
}

impl Source {
    pub fn of(word: OsString) -> Source {
        match word == *"-" {
            true => Source::Input,
            false => Source::File(PathBuf::from(word)),
        }
    }

    /// The name for messages, written out where it has what can't be seen: a line
    /// end in it can't begin another message.
    pub fn name(&self) -> String {
        match self {
            Source::Input => "standard input".to_string(),
            Source::File(path) if path.as_os_str().is_empty() => "''".to_string(),
            Source::File(path) => shown(path.as_os_str().as_encoded_bytes()),
        }
    }

    /// The path if this is a folder.
    pub fn folder(&self) -> Option<&Path> {
        match self {
            Source::File(path) if path.is_dir() => Some(path),
            _ => None,
        }
    }

    /// What isn't there, or is a folder, has no form that could be asked for.
    pub fn demand_file(&self) -> Result<(), Trouble> {
        let Source::File(path) = self else {
            return Ok(());
        };
        match path.metadata() {
            Ok(about) if about.is_dir() => {
                Err(Trouble(format!("{} is a folder, not a file", self.name())))
            }
            Ok(_) => Ok(()),
            Err(error) => Err(self.trouble(error)),
        }
    }

    /// The form that the name's ending says, by a list of endings. Capitals
    /// are as good as small letters.
    pub fn form<Form: Copy>(&self, endings: &[(&str, Form)]) -> Option<Form> {
        let Source::File(path) = self else {
            return None;
        };
        let ending = path.extension()?.to_str()?.to_ascii_lowercase();
        let known = endings.iter().find(|(known, _)| *known == ending);
        known.map(|(_, form)| *form)
    }

    /// The first bytes, at most so many.
    pub fn first_bytes(&self, most: u64) -> Result<Vec<u8>, Trouble> {
        if *self == Source::Input && closed::input() {
            return Err(Trouble(format!("{} is closed", self.name())));
        }
        let read = match self {
            Source::Input => beginning(io::stdin().lock(), most),
            Source::File(path) => File::open(path).and_then(|file| beginning(file, most)),
        };
        read.map_err(|error| self.trouble(error))
    }

    fn trouble(&self, error: io::Error) -> Trouble {
        Trouble(format!("{}: {}", self.name(), system::words(&error)))
    }

    /// All bytes; more than the limit is an error.
    pub fn all_bytes(&self, limit: u64) -> Result<Vec<u8>, Trouble> {
        let bytes = self.first_bytes(limit + 1)?;
        match bytes.len() as u64 > limit {
            true => Err(Trouble(format!(
                "{}: longer than {limit} bytes",
                self.name()
            ))),
            false => Ok(bytes),
        }
    }
}

fn beginning(from: impl Read, most: u64) -> io::Result<Vec<u8>> {
    let mut bytes = Vec::new();
    from.take(most).read_to_end(&mut bytes)?;
    Ok(bytes)
}
