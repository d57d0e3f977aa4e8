//! Texts in a picture. Nobody knows the font of those who look at it, so that widths are
//! estimated, and rather too large.

use super::svg::place;
use crate::output::xml::escaped;

/// Where a text has its place.
#[derive(Clone, Copy, Debug, PartialEq, Eq)]
pub enum Anchor {
    Start,
    Middle,
    End,
}

/// A text of one line.
pub struct Text {
    pub x: f64,
    pub y: f64,
    pub size: f64,
    pub anchor: Anchor,
    pub bold: bool,
}

/// Bold texts are so much wider.
const BOLD: f64 = 1.12;

impl Text {
    pub fn at(x: f64, y: f64, size: f64) -> Text {
        Text {
            x,
            y,
            size,
            anchor: Anchor::Start,
            bold: false,
        }
    }

    pub fn anchored(self, anchor: Anchor) -> Text {
        Text { anchor, ..self }
    }

    pub fn bold(self) -> Text {
        Text { bold: true, ..self }
    }

    pub fn element(&self, text: &str) -> String {
        format!("<text{}>{}</text>\n", self.attributes(), escaped(text))
    }

    /// A text that is cut where it is wider than its room; the whole is shown to who points
    /// at it.
    pub fn cut(&self, text: &str, room: f64) -> String {
        let room = if self.bold { room / BOLD } else { room };
        let fitting = fitting(text, self.size, room);
        if fitting == text {
            return self.element(text);
        }
        let (whole, fitting) = (escaped(text), escaped(&fitting));
        let attributes = self.attributes();
        format!("<text{attributes}><title>{whole}</title>{fitting}</text>\n")
    }

    fn attributes(&self) -> String {
        let [x, y, size] = [self.x, self.y, self.size].map(place);
        let anchor = match self.anchor {
            Anchor::Start => "",
            Anchor::Middle => " text-anchor=\"middle\"",
            Anchor::End => " text-anchor=\"end\"",
        };
        let bold = if self.bold {
            " font-weight=\"bold\""
        } else {
            ""
        };
        format!(" x=\"{x}\" y=\"{y}\" font-size=\"{size}\"{anchor}{bold}")
    }
}

/// The width of a text in a common font without serifs, rather too large.
pub fn width(text: &str, size: f64) -> f64 {
    text.chars().map(breadth).sum::<f64>() * size
}

/// How wide a character is beside the size of its font.
fn breadth(sign: char) -> f64 {
    match sign {
        'i' | 'j' | 'l' | 'I' | 'f' | 't' | 'r' | ' ' | '.' | ',' | ':' | ';' | '\'' | '|'
        | '!' | '(' | ')' => 0.4,
        'm' | 'w' | 'M' | 'W' | '@' | '%' => 1.05,
        'A'..='Z' | '<' | '>' | '&' => 0.76,
        // Letters of Latin, Greek, Cyrillic.
        '\0'..='\u{52F}' => 0.62,
        _ => 1.1,
    }
}

/// As much of a text as has room, with dots for what is left out.
fn fitting(text: &str, size: f64, room: f64) -> String {
    if width(text, size) <= room {
        return text.to_string();
    }
    let mut left = room / size - breadth('…');
    let fits = |sign: &char| {
        left -= breadth(*sign);
        left >= 0.0
    };
    let head: String = text.chars().take_while(fits).collect();
    format!("{}…", head.trim_end())
}

#[cfg(test)]
mod tests {
    use super::{fitting, width, Text};

    #[test]
    fn long_texts_are_cut() {
        assert_eq!(fitting("Market", 10.0, 100.0), "Market");
        assert_eq!(fitting("", 10.0, 0.0), "");
        for text in ["Wimmelmoor".repeat(20), "東京".repeat(100), "i".repeat(200)] {
            let cut = fitting(&text, 10.0, 120.0);
            assert!(cut.ends_with('…') && cut.chars().count() > 8, "{cut}");
            assert!(width(&cut, 10.0) <= 120.0 && text.starts_with(cut.trim_end_matches('…')));
        }
        assert_eq!(fitting("Market", 10.0, 1.0), "…");
    }

    /// The whole of a cut text is there too, escaped as what is drawn.
    #[test]
    fn the_whole_is_kept() {
        let text = "<&>".repeat(60);
        let drawn = Text::at(1.0, 2.5, 10.0).cut(&text, 60.0);
        let whole = "&lt;&amp;&gt;".repeat(60);
        assert!(drawn.starts_with("<text x=\"1\" y=\"2.5\" font-size=\"10\"><title>"));
        assert!(drawn.contains(&format!("<title>{whole}</title>&lt;&amp;")));
        assert!(drawn.ends_with("…</text>\n"));
    }
}
