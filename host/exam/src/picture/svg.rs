//! The element `<svg>` and what is common to all pictures.

use crate::output::xml::escaped;

/// The colours of lines and texts, by how much they are to be seen.
pub const INK: &str = "#111";
pub const GREY: &str = "#555";
pub const FAINT: &str = "#ddd";

/// A picture: its size, its words, and what is drawn.
pub struct Picture<'a> {
    pub id: &'a str,
    pub width: f64,
    pub height: f64,
    pub title: String,
    /// What is to be seen, for those who don't see it.
    pub words: String,
    pub definitions: String,
    pub body: String,
}

impl Picture<'_> {
    /// As wide as a page has room for, and no wider than it was laid out.
    pub fn element(&self) -> String {
        let (id, definitions, body) = (self.id, &self.definitions, &self.body);
        let (title, words) = (escaped(&self.title), escaped(&self.words));
        let (width, height) = (place(self.width), place(self.height));
        format!(
            "<svg xmlns=\"http://www.w3.org/2000/svg\" width=\"{width}\" height=\"{height}\" \
             viewBox=\"0 0 {width} {height}\" style=\"max-width:100%;height:auto\" role=\"img\" \
             aria-labelledby=\"{id}-title\" aria-describedby=\"{id}-desc\" \
             font-family=\"sans-serif\" fill=\"{INK}\">\n\
             <title id=\"{id}-title\">{title}</title>\n\
             <desc id=\"{id}-desc\">{words}</desc>\n\
             <defs>\n{definitions}</defs>\n\
             <rect width=\"{width}\" height=\"{height}\" fill=\"#fff\"/>\n\
             {body}</svg>"
        )
    }
}

/// A place on the paper, to a hundredth.
pub fn place(number: f64) -> String {
    let hundredths = (number * 100.0 + 0.5_f64.copysign(number)) as i64;
    (hundredths as f64 / 100.0).to_string()
}

#[cfg(test)]
mod tests {
    use super::place;

    #[test]
    fn places_are_short() {
        let shown = [0.0, -0.001, 12.0, 1.005_1, -2.5, 1.0 / 3.0].map(place);
        assert_eq!(shown, ["0", "0", "12", "1.01", "-2.5", "0.33"]);
    }
}
