//! The heading: what belongs to the whole sitting.

use super::html::{element, escaped};
use super::sitting::Sitting;
use crate::hall::checksum;
use crate::hall::report::tally;
use engine::Refusal;

/// Heading, numbers and contents.
pub fn heading(sitting: &Sitting) -> Result<String, Refusal> {
    let name = escaped(sitting.network_name());
    let tally = element("p", &tally(sitting.rows));
    let facts: String = facts(sitting)?
        .into_iter()
        .map(|(what, value)| {
            format!(
                "<div>{}{}</div>\n",
                element("dt", what),
                element("dd", &value)
            )
        })
        .collect();
    Ok(format!(
        "<a class=\"skip\" href=\"#sheets\">Skip to the sheets</a>\n<header>\n\
         <h1>Marks for {name}</h1>\n{tally}\n<dl>\n{facts}</dl>\n{CONTENTS}</header>\n"
    ))
}

const CONTENTS: &str = "\
<nav aria-label=\"Contents\">
<ul>
<li><a href=\"#sheets\">All sheets</a></li>
<li><a href=\"#key\">The key</a></li>
<li><a href=\"#network\">The network</a></li>
<li><a href=\"#sheet-1\">Sheet by sheet</a></li>
</ul>
</nav>
";

fn facts(sitting: &Sitting) -> Result<[(&'static str, String); 10], Refusal> {
    let file = sitting.network.bytes();
    let counts = engine::read(file)?;
    Ok([
        ("Lines", counts.lines.to_string()),
        ("Stops", counts.served_stops.to_string()),
        ("Calls", counts.calls.to_string()),
        ("Common cycle", format!("{} minutes", counts.cycle)),
        ("Edition", engine::contents(file)?.edition.to_string()),
        ("CRC-32", checksum::of_network(file)?),
        ("Engine", engine::VERSION.to_string()),
        ("Command", env!("CARGO_PKG_VERSION").to_string()),
        ("Budget", format!("{} tries", sitting.budget)),
        ("Search", format!("{} tries", sitting.tries())),
    ])
}
