//! Elements and tables.

pub use crate::output::xml::escaped;

/// An element that has a text alone.
pub fn element(tag: &str, text: &str) -> String {
    format!("<{tag}>{}</{tag}>", escaped(text))
}

/// A row of a table, by its cells.
pub fn row(cells: &[String]) -> String {
    format!("<tr>{}</tr>\n", cells.concat())
}

/// A cell with a number, which stands on the right.
pub fn number(number: impl ToString) -> String {
    format!("<td class=\"number\">{}</td>", escaped(&number.to_string()))
}

/// The cell that heads a row, a name, which may be long.
pub fn head(name: &str) -> String {
    format!("<th scope=\"row\" class=\"name\">{}</th>", escaped(name))
}

/// A cell with a list: an item under the other, or in the class `flow` one behind the other.
pub fn list(class: &str, items: impl Iterator<Item = String>) -> String {
    let items: String = items.map(|item| element("li", &item)).collect();
    format!("<td><ul class=\"calls {class}\">{items}</ul></td>")
}

/// A table in a box of its own, which scrolls where it is wider than the page, also by keys.
/// Its cells are markup.
pub fn table(caption: &str, heads: &[&str], rows: &str) -> String {
    let heads: String = heads
        .iter()
        .map(|head| format!("<th scope=\"col\">{}</th>", escaped(head)))
        .collect();
    let table = format!(
        "<table>\n<caption>{}</caption>\n<thead>\n<tr>{heads}</tr>\n</thead>\n<tbody>\n\
         {rows}</tbody>\n</table>\n",
        escaped(caption)
    );
    boxed("table", caption, &table)
}

/// A box that scrolls by itself.
pub fn boxed(class: &str, label: &str, content: &str) -> String {
    let label = escaped(label);
    format!(
        "<div class=\"box {class}\" role=\"region\" aria-label=\"{label}\" tabindex=\"0\">\n\
         {content}</div>\n"
    )
}

#[cfg(test)]
mod tests {
    use super::{element, head, list, number, row, table};

    #[test]
    fn texts_are_escaped() {
        let signs = "<b> & \"c\"";
        let written = "&lt;b&gt; &amp; &quot;c&quot;";
        assert_eq!(element("p", signs), format!("<p>{written}</p>"));
        let cells = row(&[head(signs), number(-3)]);
        let expected = format!(
            "<tr><th scope=\"row\" class=\"name\">{written}</th>\
             <td class=\"number\">-3</td></tr>\n"
        );
        assert_eq!(cells, expected);
        let items = list("flow", [signs.to_string()].into_iter());
        assert!(items.contains(&format!("<li>{written}</li>")), "{items}");
        let table = table(signs, &[signs], &cells);
        for piece in [
            format!("<caption>{written}</caption>"),
            format!("aria-label=\"{written}\""),
            format!("<th scope=\"col\">{written}</th>"),
        ] {
            assert!(table.contains(&piece), "no {piece} in {table}");
        }
    }
}
