//! A network: a plan, typed or as bytes.

use super::source::Source;
use crate::status::Trouble;
use engine::plan::{self, Names, Plan};
use engine::typed::{self, Typed};

/// How a network is written: never guessed from what it holds.
#[derive(Clone, Copy, Debug, PartialEq, Eq)]
pub enum Form {
    /// Names and decimal numbers.
    Plan,
    /// Hexadecimal pairs.
    Typed,
    Bytes,
}

/// What a name's ending says.
const ENDINGS: [(&str, Form); 4] = [
    ("plan", Form::Plan),
    ("hex", Form::Typed),
    ("txt", Form::Typed),
    ("net", Form::Bytes),
];

/// Document 01: a file's "first 4,096 bytes decide".
const DECIDING: u64 = 4_096;
/// A typed network has some 3,000 digits at most, a plan some 300 statements;
/// the rest is comments.
const LIMIT: u64 = 1 << 24;

/// A network file with the name that messages give it.
#[derive(Clone, Debug, PartialEq, Eq)]
pub struct Network {
    pub name: String,
    /// The names of lines and stops; none where it isn't a plan.
    pub names: Names,
    content: Content,
}

#[derive(Clone, Debug, PartialEq, Eq)]
enum Content {
    Plan(Plan),
    Typed(Typed),
    Bytes(Vec<u8>),
}

impl Network {
    /// The bytes, for the engine.
    pub fn bytes(&self) -> &[u8] {
        match &self.content {
            Content::Plan(plan) => plan.bytes(),
            Content::Typed(typed) => typed.bytes(),
            Content::Bytes(bytes) => bytes,
        }
    }

    /// The text line of which a byte was made, and its number.
    pub fn text_line(&self, place: usize) -> Option<(usize, &str)> {
        match &self.content {
            Content::Plan(plan) => plan.line(place),
            Content::Typed(typed) => typed.line(place),
            Content::Bytes(_) => None,
        }
    }
}

/// Loads a network in the form that an option or else the name's ending says.
pub fn load(source: &Source, option: Option<Form>) -> Result<Network, Trouble> {
    source.demand_file()?;
    let name = source.name();
    let Some(form) = option.or_else(|| source.form(&ENDINGS)) else {
        return Err(Trouble(format!(
            "{name}: say --plan, --typed or --bytes, or let the name end in .plan, in .hex or \
             .txt (typed) or in .net (bytes)"
        )));
    };
    let mut names = Names::default();
    let content = match form {
        Form::Bytes => Content::Bytes(source.first_bytes(DECIDING)?),
        Form::Typed => {
            let text = source.all_bytes(LIMIT)?;
            let typed = typed::read(&text).map_err(|why| Trouble(format!("{name}, {why}")))?;
            Content::Typed(typed)
        }
        Form::Plan => {
            let text = source.all_bytes(LIMIT)?;
            let plan = plan::read(&text).map_err(|why| Trouble(format!("{name}, {why}")))?;
            names = plan.names().clone();
            Content::Plan(plan)
        }
    };
    Ok(Network {
        name,
        names,
        content,
    })
}
