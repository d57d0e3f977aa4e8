//! What a verb, an option and a request are. Parser and help go by these
//! alone and know no verb by its name.

use crate::input::source::Source;
use crate::status::{Status, Trouble};
use std::ffi::{OsStr, OsString};

/// A verb: a row of the table.
pub struct Verb {
    pub name: &'static str,
    /// How its operands are written in usage.
    pub operands: &'static str,
    /// How many networks it takes; they come first.
    pub networks: usize,
    /// How many sheets it takes, behind these.
    pub sheets: Sheets,
    /// Checks the last operand where that is no file to be read, as a gap, a stop or a file to
    /// be written.
    pub last: Option<Check>,
    /// Its options in the order of its help.
    pub options: &'static [&'static CommandOption],
    /// Its line of the overview.
    pub summary: &'static str,
    /// Its help between usage and options.
    pub about: &'static str,
    /// Loads what the request names, asks the engine and prints its answer.
    pub run: fn(&Request) -> Result<Status, Trouble>,
}

/// How many sheets a verb takes.
pub enum Sheets {
    Exactly(usize),
    /// Sheets and folders of sheets.
    AtLeastOne,
}

/// An option: declared once, shared by the verbs that have it.
pub struct CommandOption {
    /// With its dashes.
    pub name: &'static str,
    /// The value that comes behind it, if any.
    pub value: Option<Value>,
    /// Its line of a verb's help.
    pub help: &'static str,
    /// The names of the options that can't be given beside it.
    pub excludes: &'static [&'static str],
    /// What is said of a verb that hasn't it, where there are better words than
    /// that it hasn't.
    pub missing: Option<&'static str>,
}

/// The value of an option.
pub struct Value {
    /// How it is written in help.
    pub placeholder: &'static str,
    /// What it is in words, for the message that it isn't there.
    pub words: &'static str,
    pub check: Check,
}

/// Says what is wrong with a value, which it shows by `engine::text::shown`.
pub type Check = fn(&OsStr) -> Result<(), String>;

/// What a verb is to do: its operands and options.
#[derive(Default)]
pub struct Request {
    pub networks: Vec<Source>,
    pub sheets: Vec<Source>,
    /// The last operand, checked, where that is no file to be read.
    pub last: Option<OsString>,
    given: Vec<Given>,
}

struct Given {
    option: &'static str,
    value: Option<OsString>,
}

/// The options of all verbs; a shared one comes as often as it is shared.
pub fn all_options(verbs: &[&Verb]) -> impl Iterator<Item = &'static CommandOption> {
    let options: Vec<&[&CommandOption]> = verbs.iter().map(|verb| verb.options).collect();
    options.concat().into_iter()
}

impl Verb {
    /// How many operands it takes, at least.
    pub fn operand_count(&self) -> usize {
        let sheets = match self.sheets {
            Sheets::Exactly(count) => count,
            Sheets::AtLeastOne => 1,
        };
        self.networks + sheets + usize::from(self.last.is_some())
    }

    /// Whether it takes so many operands.
    pub fn takes(&self, operands: usize) -> bool {
        match self.sheets {
            Sheets::Exactly(_) => operands == self.operand_count(),
            Sheets::AtLeastOne => operands >= self.operand_count(),
        }
    }

    pub fn has(&self, option: &CommandOption) -> bool {
        self.options.iter().any(|own| own.name == option.name)
    }
}

impl CommandOption {
    /// An option without a value, free to be given beside every other.
    pub const fn flag(name: &'static str, help: &'static str) -> CommandOption {
        CommandOption {
            name,
            value: None,
            help,
            excludes: &[],
            missing: None,
        }
    }

    /// The same, never beside other options.
    pub const fn excluding(self, excludes: &'static [&'static str]) -> CommandOption {
        CommandOption { excludes, ..self }
    }
}

impl Request {
    /// Adds an option that was given.
    pub fn give(&mut self, option: &CommandOption, value: Option<OsString>) {
        let option = option.name;
        self.given.push(Given { option, value });
    }

    pub fn has(&self, option: &CommandOption) -> bool {
        self.has_named(option.name)
    }

    pub fn has_named(&self, option: &str) -> bool {
        self.given.iter().any(|given| given.option == option)
    }

    /// The value of an option, which the parser takes once.
    pub fn value(&self, option: &CommandOption) -> Option<&OsStr> {
        let mut given = self.given.iter();
        let given = given.find(|given| given.option == option.name)?;
        given.value.as_deref()
    }
}
