//! The key: the best timetable, or that it isn't known.

use super::html::element;
use super::picture::picture;
use super::sitting::{in_line_order, Sitting};
use crate::hall::bound;
use crate::output::lines::shown;
use engine::{Best, Refusal, Searched, Sheet};

pub fn section(sitting: &Sitting) -> Result<String, Refusal> {
    let content = match sitting.searched {
        Searched::Finished(best) => found(sitting, best)?,
        Searched::Stopped { .. } | Searched::StoppedWithNone { .. } => unknown(sitting),
    };
    Ok(format!(
        "<section id=\"key\" aria-labelledby=\"key-head\">\n<h2 id=\"key-head\">The key</h2>\n\
         {content}</section>\n"
    ))
}

fn found(sitting: &Sitting, best: &Best) -> Result<String, Refusal> {
    let words = "The best timetable: no whole-number starts are rated higher.";
    let rating = format!("{} tries {}", shown(best.rating()), best.tries());
    let key = Sheet::of_starts(best.starts());
    let picture = picture(sitting, &key, ("key-picture", "Picture of the key"))?;
    let (words, rating) = (element("p", words), element("code", &rating));
    let starts = element("p", &in_line_order(best.starts()));
    Ok(format!("{words}\n<p>{rating}</p>\n{starts}\n{picture}"))
}

fn unknown(sitting: &Sitting) -> String {
    let words = "Undecided: the budget was used up before the best timetable was known, so that \
                 there is no key and no sheet has a mark.";
    let advice = bound::advice(sitting.network.bytes());
    let (words, advice) = (element("p", words), element("p", advice.trim()));
    format!("{words}\n{advice}\n")
}
