//! A sitting as one page of HTML: the network, the key, and each sheet with its mark, what
//! decides and its picture. Nothing is loaded from elsewhere, and without its script the page
//! is read as well. It is well-formed XML, too.
//!
//! | file         | what                                                      |
//! |--------------|-----------------------------------------------------------|
//! | `style.css`, `script.js` | how it looks, and the table that sorts        |
//! | `html.rs`    | elements and tables                                       |
//! | `sitting.rs` | what is on the page                                       |
//! | `heading.rs` | the heading, with what belongs to the whole sitting       |
//! | `marks.rs`   | the table of all sheets                                   |
//! | `network.rs` | the network's lines and stops                             |
//! | `picture.rs` | a timetable's picture, in a box that scrolls              |
//! | `key.rs`     | the key                                                   |
//! | `sheet.rs`   | one sheet                                                 |
//!
//! Each uses those above it alone.

mod heading;
mod html;
mod key;
mod marks;
mod network;
mod picture;
mod sheet;
mod sitting;

pub use sitting::Sitting;

use engine::Refusal;
use html::escaped;

const STYLE: &str = include_str!("style.css");
const SCRIPT: &str = include_str!("script.js");

/// The page of a sitting whose network is accepted.
pub fn page(sitting: &Sitting) -> Result<String, Refusal> {
    let title = escaped(&format!("Marks for {}", sitting.network_name()));
    let (heading, key) = (heading::heading(sitting)?, key::section(sitting)?);
    let (marks, network) = (marks::section(sitting), network::section(sitting)?);
    let mut sheets = String::new();
    for (place, row) in sitting.rows.iter().enumerate() {
        sheets += &sheet::section(sitting, place, row)?;
    }
    Ok(format!(
        "<!DOCTYPE html>\n<html lang=\"en\">\n<head>\n<meta charset=\"utf-8\"/>\n\
         <meta name=\"viewport\" content=\"width=device-width, initial-scale=1\"/>\n\
         <title>{title}</title>\n<style>\n{STYLE}</style>\n</head>\n<body>\n\
         {heading}<main>\n{marks}{key}{network}{sheets}</main>\n\
         <script>\n{SCRIPT}</script>\n</body>\n</html>\n"
    ))
}
