//! Lines and stops by number and, where a plan gives one, name.

use engine::plan::Names;

/// `line 0 'Red'`, or `line 0`.
pub fn line(names: &Names, number: u8) -> String {
    format!("line {}", with(number, names.line(number)))
}

/// `stop 5 'Market'`, or `stop 5`.
pub fn stop(names: &Names, number: u8) -> String {
    format!("stop {}", with(number, names.stop(number)))
}

/// The same of a stop that was asked for: one above all that there can be has no name.
pub fn any_stop(names: &Names, number: u32) -> String {
    match u8::try_from(number) {
        Ok(number) => stop(names, number),
        Err(_) => format!("stop {number}"),
    }
}

/// `5 'Market'`, or `5`.
pub fn with(number: u8, name: Option<&str>) -> String {
    match name {
        Some(name) => format!("{number} '{name}'"),
        None => number.to_string(),
    }
}
