//! Text lines in columns.

/// The width of the longest number.
pub fn width<T: ToString>(numbers: impl Iterator<Item = T>) -> usize {
    let widths = numbers.map(|number| number.to_string().len());
    widths.max().unwrap_or(0)
}

/// A text line with a name at its end, where it needs no column.
pub fn ended(text: String, name: Option<&str>) -> String {
    match name {
        Some(name) => format!("{text}  {name}\n"),
        None => format!("{text}\n"),
    }
}
