//! A timetable's picture, in a box that scrolls where the page is narrow.

use super::html::{boxed, element};
use super::sitting::Sitting;
use crate::picture::{arrivals, strips, Subject};
use engine::{Refusal, Sheet};

/// With more marks a page would be slow, and nobody could tell them apart.
const MOST_MARKS: usize = 20_000;

/// The picture of a sheet that fits. Its ids begin with this one.
pub fn picture(
    sitting: &Sitting,
    sheet: &Sheet,
    (id, label): (&str, &str),
) -> Result<String, Refusal> {
    let subject = Subject {
        network: sitting.network,
        sheet,
        window: None,
        id,
    };
    let count = arrivals(&subject)?;
    if count > MOST_MARKS {
        let words = format!(
            "There is no picture here: it would have {count} marks. A part of it is drawn by \
             exam draw with --from and --length."
        );
        return Ok(element("p", &words) + "\n");
    }
    let drawn = strips(&subject)?;
    let class = match is_tall(&drawn) {
        true => "picture",
        false => "picture whole",
    };
    Ok(boxed(class, label, &format!("{drawn}\n")))
}

/// Whether a picture is twice as high as wide or more. On one sheet of paper it would be too
/// small to be read, so that it goes on to the next; others are kept whole.
fn is_tall(svg: &str) -> bool {
    let sizes = svg.split_once("viewBox=\"").map(|(_, behind)| behind);
    let sizes = sizes.and_then(|behind| behind.split('"').next());
    let sizes = sizes.unwrap_or_default().split(' ');
    let sizes: Vec<f64> = sizes.filter_map(|size| size.parse().ok()).collect();
    matches!(sizes[..], [_, _, width, height] if height >= 2.0 * width)
}

#[cfg(test)]
mod tests {
    use super::is_tall;

    #[test]
    fn tall_pictures() {
        let svg = |width: u32, height: u32| format!("<svg viewBox=\"0 0 {width} {height}\">");
        assert!(is_tall(&svg(1_000, 4_751)) && is_tall(&svg(100, 200)));
        assert!(!is_tall(&svg(1_000, 1_206)) && !is_tall(&svg(100, 199)));
        assert!(!is_tall("<svg>") && !is_tall("<svg viewBox=\"0 0 x\">"));
    }
}
