//! The table of all sheets.

use super::html::{boxed, element, escaped};
use super::sitting::{sheet_id, Sitting};
use crate::hall::outcome::{Row, WORDS};
use crate::output::names::shown;

/// A heading, which way a first click sorts by it, and the column that decides between equals
/// before the name does.
struct Column {
    head: &'static str,
    down: bool,
    then: Option<usize>,
}

const COLUMNS: [Column; 6] = [
    column("Sheet", false),
    column("Status", false),
    column("Gap", true),
    column("Sum", true),
    Column {
        head: "Mark",
        down: true,
        then: Some(5),
    },
    column("Remainder", true),
];

const fn column(head: &'static str, down: bool) -> Column {
    Column {
        head,
        down,
        then: None,
    }
}

/// The table, by name until somebody sorts it. Without a script its headings are texts; the
/// script makes buttons of them.
pub fn section(sitting: &Sitting) -> String {
    let heads: String = COLUMNS.iter().map(Column::markup).collect();
    let rows = sitting.rows.iter().enumerate();
    let rows: String = rows.map(|(place, sheet)| row(place, sheet)).collect();
    let table = format!(
        "<table id=\"marks\">\n<caption>Sheets and their marks</caption>\n<thead>\n<tr>{heads}</tr>\n\
         </thead>\n<tbody>\n{rows}</tbody>\n</table>\n"
    );
    format!(
        "<section id=\"sheets\" aria-labelledby=\"sheets-head\">\n\
         <h2 id=\"sheets-head\">All sheets</h2>\n{LEGEND}\
         <p id=\"hint\" hidden=\"hidden\">A click on a heading sorts the table.</p>\n{}</section>\n",
        boxed("table", "All sheets", &table)
    )
}

const LEGEND: &str = "\
<p>A stop's gap is the fewest minutes between two arrivals there. A sheet is rated by its
least gap, and of two with the same by the sum of the gaps. The mark is the whole part of 100
times the sheet's least gap over the best one, with the remainder; sums don't enter, so that
a sheet may have 100 and be below the best.</p>
";

impl Column {
    fn markup(&self) -> String {
        let down = if self.down { " data-down=\"down\"" } else { "" };
        let then = self.then.map(|then| format!(" data-then=\"{then}\""));
        let sorted = if self.head == "Sheet" {
            " aria-sort=\"ascending\""
        } else {
            ""
        };
        format!(
            "<th scope=\"col\"{sorted}{down}{}>{}</th>",
            then.unwrap_or_default(),
            escaped(self.head)
        )
    }
}

/// A sheet's row. Each cell has a number by which the script sorts; what a sheet hasn't comes
/// last.
fn row(place: usize, row: &Row) -> String {
    let (id, name, word) = (
        sheet_id(place),
        escaped(&shown(&row.name)),
        row.outcome.word(),
    );
    let status = WORDS
        .iter()
        .position(|known| *known == word)
        .unwrap_or(WORDS.len());
    let numbers = [
        row.outcome.rating().map(|rating| rating.least),
        row.outcome.rating().map(|rating| rating.sum),
        row.outcome.hundred().map(|hundred| hundred.mark),
        row.outcome.hundred().map(|hundred| hundred.remainder),
    ];
    let numbers: String = numbers.iter().map(|number| cell(*number)).collect();
    format!(
        "<tr><th scope=\"row\" class=\"name\" data-value=\"{place}\"><a href=\"#{id}\">{name}</a></th>\
         <td data-value=\"{status}\">{word}</td>{numbers}</tr>\n"
    )
}

fn cell(number: Option<u32>) -> String {
    match number {
        Some(number) => format!("<td class=\"number\" data-value=\"{number}\">{number}</td>"),
        None => element("td", ""),
    }
}
