//! The sheets that operands name: files, and every file of a folder.

use crate::input::form::Form;
use crate::input::sheet;
use crate::input::source::Source;
use crate::output::names::shown;
use crate::status::Trouble;
use crate::system;
use engine::Sheet;
use std::ffi::{OsStr, OsString};
use std::path::{Path, PathBuf};

/// A sheet by its name, or why it can't be read.
pub struct Named {
    pub name: OsString,
    pub sheet: Result<Sheet, Trouble>,
}

/// What the operands name.
pub struct Gathered {
    pub sheets: Vec<Named>,
    /// Whether sheets are told apart by their names: more than one operand, or a
    /// folder.
    pub many: bool,
    /// Folders within folders, whose sheets aren't taken.
    pub left_out: Vec<PathBuf>,
    /// Folders of which nothing can be taken, in words.
    pub troubles: Vec<Trouble>,
}

/// Loads every sheet, in the order of the operands and then of names. Within one
/// folder alone a sheet has its file's name, otherwise its path.
pub fn gather(operands: &[Source], form: Option<Form>) -> Gathered {
    let alone = operands.len() == 1;
    let mut gathered = Gathered {
        sheets: Vec::new(),
        many: !alone,
        left_out: Vec::new(),
        troubles: Vec::new(),
    };
    for operand in operands {
        match operand.folder() {
            Some(folder) => {
                gathered.many = true;
                gathered.take_folder(folder, alone, form);
            }
            None => gathered.sheets.push(Named {
                name: name_of(operand),
                sheet: sheet::load(operand, form),
            }),
        }
    }
    gathered
}

fn name_of(operand: &Source) -> OsString {
    match operand {
        Source::File(path) => path.clone().into_os_string(),
        Source::Input => OsString::from(operand.name()),
    }
}

impl Gathered {
    fn take_folder(&mut self, folder: &Path, alone: bool, form: Option<Form>) {
        let found = match entries(folder) {
            Ok(found) => found,
            Err(error) => {
                let message = format!("{}: {}", shown(folder.as_os_str()), system::words(&error));
                return self.troubles.push(Trouble(message));
            }
        };
        let (within, files): (Vec<_>, Vec<_>) = found.into_iter().partition(|path| path.is_dir());
        self.left_out.extend(within);
        if files.is_empty() {
            let folder = shown(folder.as_os_str());
            let message = format!("{folder}: there is no sheet in this folder");
            self.troubles.push(Trouble(message));
        }
        for path in files {
            let name = match alone {
                true => path.file_name().map(OsStr::to_os_string),
                false => None,
            };
            self.sheets.push(Named {
                name: name.unwrap_or_else(|| path.clone().into_os_string()),
                sheet: plain_file(&path).and_then(|source| sheet::load(&source, form)),
            });
        }
    }
}

/// What a folder holds, in name order. Every file is taken for a sheet, so that
/// none is left out unseen, but for hidden ones.
fn entries(folder: &Path) -> std::io::Result<Vec<PathBuf>> {
    let mut paths = Vec::new();
    for entry in std::fs::read_dir(folder)? {
        let entry = entry?;
        if !entry.file_name().as_encoded_bytes().starts_with(b".") {
            paths.push(entry.path());
        }
    }
    paths.sort();
    Ok(paths)
}

/// A pipe in the folder would be waited for without end.
fn plain_file(path: &Path) -> Result<Source, Trouble> {
    match path.metadata() {
        Ok(about) if !about.is_file() => {
            let name = shown(path.as_os_str());
            Err(Trouble(format!("{name} is no plain file")))
        }
        _ => Ok(Source::File(path.to_path_buf())),
    }
}
