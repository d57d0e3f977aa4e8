//! The networks and sheets of a request, loaded, its key, and its last operand: a gap, a stop
//! or a file to be written.

use super::near::meant;
use super::options::{self, CIRCLE, KEY};
use super::table::Request;
use super::words::{in_digits, stop_of, Stop};
use crate::input::network::{self, Network};
use crate::input::sheet;
use crate::input::source::Source;
use crate::output::target::Target;
use crate::status::Trouble;
use engine::text::shown;
use engine::Sheet;
use std::ffi::OsStr;

/// The networks, as many as the verb's row of the table says.
pub fn networks<const COUNT: usize>(request: &Request) -> Result<[Network; COUNT], Trouble> {
    let form = options::network_form(request);
    let load = |source| network::load(source, form);
    counted(request.networks.iter().map(load))
}

/// The sheets, as many as the verb's row of the table says.
pub fn sheets<const COUNT: usize>(request: &Request) -> Result<[Sheet; COUNT], Trouble> {
    let form = options::sheet_form(request);
    let load = |source| sheet::load(source, form);
    counted(request.sheets.iter().map(load))
}

/// The sheet of `--key` with its name for messages, in the form that sheets have.
pub fn key(request: &Request) -> Result<Option<(String, Sheet)>, Trouble> {
    let Some(word) = request.value(&KEY) else {
        return Ok(None);
    };
    let source = Source::of(word.to_os_string());
    let mut operands = request.networks.iter().chain(&request.sheets);
    if source == Source::Input && operands.any(|operand| *operand == source) {
        let message = "standard input ('-') can be read for one file only";
        return Err(Trouble(format!("{message}, and not for the key too")));
    }
    let sheet = sheet::load(&source, options::sheet_form(request))?;
    Ok(Some((source.name(), sheet)))
}

/// A wanted gap: every number of 16 bits.
pub fn gap(request: &Request) -> u16 {
    let given = request.last.as_deref().map(gap_of);
    match given {
        Some(Ok(gap)) => gap,
        // The parser goes by the table, and so the verb was written.
        _ => unreachable!("a gap that nobody has checked"),
    }
}

pub fn check_gap(word: &OsStr) -> Result<(), String> {
    gap_of(word).map(|_| ())
}

fn gap_of(word: &OsStr) -> Result<u16, String> {
    in_digits(word).ok_or_else(|| {
        format!(
            "the gap '{}' isn't a whole number of 0 to {}",
            shown(word.as_encoded_bytes()),
            u16::MAX
        )
    })
}

/// A stop: any number of 32 bits, or the name that a plan gives one.
pub fn stop(request: &Request, network: &Network) -> Result<u32, Trouble> {
    match request.last.as_deref() {
        Some(word) => numbered(word, network),
        // The parser goes by the table, and so the verb was written.
        None => unreachable!("a stop that isn't there"),
    }
}

/// The stop whose circle is asked for.
pub fn circle(request: &Request, network: &Network) -> Result<Option<u32>, Trouble> {
    let word = request.value(&CIRCLE);
    word.map(|word| numbered(word, network)).transpose()
}

/// The number of a stop.
fn numbered(word: &OsStr, network: &Network) -> Result<u32, Trouble> {
    match stop_of(word) {
        Ok(Stop::Number(number)) => Ok(number),
        Ok(Stop::Name(name)) => number_of(name, network),
        // The parser goes by the table, and so the verb was written.
        Err(_) => unreachable!("a stop that nobody has checked"),
    }
}

/// The number of the stop that has this name.
fn number_of(name: &str, network: &Network) -> Result<u32, Trouble> {
    let names = &network.names;
    if let Some(stop) = names.stops().find(|stop| names.stop(*stop) == Some(name)) {
        return Ok(u32::from(stop));
    }
    let (file, word) = (&network.name, shown(name.as_bytes()));
    Err(Trouble(match names.stops().next() {
        None => format!("{file} has no names, and the stop '{word}' isn't a number"),
        Some(_) => {
            let known = names.stops().filter_map(|stop| names.stop(stop));
            format!("{file} has no stop '{word}'{}", meant(name, known))
        }
    }))
}

/// Where a picture or a page goes.
pub fn target(request: &Request) -> Target {
    // The parser goes by the table, and so the verb was written.
    let word = request.last.as_deref();
    Target::of(word.unwrap_or_else(|| unreachable!("no file to be written")))
}

/// A file that is written has an ending of its own: by a slip in the order of the operands
/// no sheet is overwritten.
pub fn check_svg(word: &OsStr) -> Result<(), String> {
    check_ending(word, "a picture", ".svg")
}

pub fn check_html(word: &OsStr) -> Result<(), String> {
    check_ending(word, "a page", ".html")
}

fn check_ending(word: &OsStr, what: &str, ending: &str) -> Result<(), String> {
    match word == "-" || ends_in(word, ending) {
        true => Ok(()),
        false => Err(format!(
            "{what} isn't written to '{}': let the name end in {ending}, so that no slip \
             overwrites a sheet, or say - for standard output",
            shown(word.as_encoded_bytes())
        )),
    }
}

/// Whether a name ends so; capitals are as good as small letters.
fn ends_in(word: &OsStr, ending: &str) -> bool {
    let name = word.as_encoded_bytes().to_ascii_lowercase();
    name.ends_with(ending.as_bytes())
}

fn counted<T, const COUNT: usize>(
    loaded: impl Iterator<Item = Result<T, Trouble>>,
) -> Result<[T; COUNT], Trouble> {
    let loaded: Vec<T> = loaded.collect::<Result<_, _>>()?;
    let length = loaded.len();
    match loaded.try_into() {
        Ok(counted) => Ok(counted),
        // The parser goes by the table, and so the verb was written.
        Err(_) => unreachable!("{length} operands and not {COUNT}"),
    }
}
