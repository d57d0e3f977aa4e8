//! The marks of lines. Colours are those of Okabe and Ito, which the colour-blind can tell
//! apart; the eight shapes survive a print in black and white, and from line 8 on the marks
//! are hollow, so that no two lines have the same.

use super::svg::place;

/// The width of a mark.
pub const WIDTH: f64 = 11.0;

const OUTLINE: &str = "#222";
const YELLOW: &str = "#F0E442";

/// A colour and a shape, about the point 0, 0.
const KINDS: [(&str, &str); 8] = [
    ("#0072B2", "<circle r=\"4.7\"/>"),
    ("#E69F00", "<path d=\"M-4.3-4.3H4.3V4.3H-4.3Z\"/>"),
    ("#009E73", "<path d=\"M0-5.2L5.2 4.2H-5.2Z\"/>"),
    ("#CC79A7", "<path d=\"M0-5.8L5.2 0L0 5.8L-5.2 0Z\"/>"),
    ("#56B4E9", "<path d=\"M0 5.2L5.2-4.2H-5.2Z\"/>"),
    (
        "#D55E00",
        "<path d=\"M-1.9-5.3H1.9V-1.9H5.3V1.9H1.9V5.3H-1.9V1.9H-5.3V-1.9H-1.9Z\"/>",
    ),
    (
        YELLOW,
        "<path transform=\"rotate(45)\" \
         d=\"M-1.9-5.8H1.9V-1.9H5.8V1.9H1.9V5.8H-1.9V1.9H-5.8V-1.9H-1.9Z\"/>",
    ),
    ("#000000", "<path d=\"M-4.9-5H4.9L-4.9 5H4.9Z\"/>"),
];

/// The colour of a line.
pub fn colour(line: u8) -> &'static str {
    KINDS[usize::from(line) % KINDS.len()].0
}

/// Whether a line's mark is hollow, as those from line 8 on.
pub fn is_hollow(line: u8) -> bool {
    usize::from(line) >= KINDS.len()
}

/// The definitions of the marks of some lines, each in its full size and so much smaller.
pub fn definitions(id: &str, lines: impl Iterator<Item = u8>, scale: f64) -> String {
    lines.map(|line| definition(id, line, scale)).collect()
}

fn definition(id: &str, line: u8, scale: f64) -> String {
    let (colour, shape) = KINDS[usize::from(line) % KINDS.len()];
    let mark = match is_hollow(line) {
        false => {
            format!("<g fill=\"{colour}\" stroke=\"{OUTLINE}\" stroke-width=\"0.8\">{shape}</g>")
        }
        // A ring of the colour between the outline and a white middle.
        true => format!(
            "<g fill=\"#fff\" stroke-linejoin=\"round\" transform=\"scale(0.82)\">\
             <g stroke=\"{OUTLINE}\" stroke-width=\"3.8\">{shape}</g>\
             <g stroke=\"{colour}\" stroke-width=\"2\">{shape}</g>{}</g>",
            dot(colour)
        ),
    };
    let (small, whole) = (reference(id, line), whole(id, line));
    let scale = place(scale);
    format!("<g id=\"{small}\" transform=\"scale({scale})\"><g id=\"{whole}\">{mark}</g></g>\n")
}

/// What tells hollow from filled where the colour is as light as the paper.
fn dot(colour: &str) -> String {
    match colour == YELLOW {
        true => format!("<circle r=\"2.2\" fill=\"{OUTLINE}\"/>"),
        false => String::new(),
    }
}

/// The id of a line's mark.
pub fn reference(id: &str, line: u8) -> String {
    format!("{id}-line{line}")
}

/// The id of a line's mark in its full size, for a legend.
pub fn whole(id: &str, line: u8) -> String {
    format!("{id}-whole{line}")
}

/// How much smaller marks are to be, where they stand so close in a row.
pub fn scale(distance: f64) -> f64 {
    (distance / WIDTH).clamp(0.4, 1.0)
}

#[cfg(test)]
mod tests {
    use super::{definition, scale};
    use std::collections::BTreeSet;

    #[test]
    fn no_two_lines_have_the_same_mark() {
        let mark = |line: u8| {
            let mark = definition("a", line, 1.0);
            mark.replace(&format!("{line}\""), "\"")
        };
        let marks: BTreeSet<String> = (0..16).map(mark).collect();
        assert_eq!(marks.len(), 16);
        // Also without their colours.
        let shape = |mark: &String| {
            let pieces: Vec<&str> = mark.split('#').collect();
            let rest = pieces
                .iter()
                .skip(1)
                .filter_map(|piece| piece.split_once('"'));
            rest.map(|(_, rest)| rest.to_string()).collect::<String>()
        };
        let shapes: BTreeSet<String> = marks.iter().map(shape).collect();
        assert_eq!(shapes.len(), 16);
    }

    #[test]
    fn marks_that_stand_close_are_smaller() {
        assert_eq!([100.0, 11.0, 5.5, 0.0].map(scale), [1.0, 1.0, 0.5, 0.4]);
    }
}
