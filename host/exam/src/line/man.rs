//! The manual page, by the table: `exam.1`, for `man`.

use super::help::{usage, written, INPUT, STATUSES, WHAT};
use super::table::{all_options, Verb};
use std::collections::BTreeSet;

pub fn page(verbs: &[&Verb]) -> String {
    let version = env!("CARGO_PKG_VERSION");
    let mut page = format!(".TH EXAM 1 \"\" \"exam {version}\" \"User Commands\"\n");
    page += &format!(".SH NAME\nexam \\- {}\n.SH SYNOPSIS\n", plain(what()));
    for verb in verbs {
        page += &format!("{} [OPTIONS]\n.br\n", bold(&usage(verb)));
    }
    page += &format!(
        "{}\n.br\n{}\n",
        bold("exam help [VERB]"),
        bold("exam --version")
    );
    page += &format!(".SH FILES\n{}", paragraphs(INPUT));
    page += ".SH VERBS\n";
    for verb in verbs {
        page += &format!(".SS {}\n{}", plain(&usage(verb)), paragraphs(verb.about));
        let names: Vec<&str> = verb.options.iter().map(|option| option.name).collect();
        page += &format!(".PP\nOptions: {}\n", plain(&names.join(", ")));
    }
    page += ".SH OPTIONS\n";
    let mut seen = BTreeSet::new();
    for option in all_options(verbs).filter(|option| seen.insert(option.name)) {
        page += &format!(".TP\n{}\n{}\n", bold(&written(option)), plain(option.help));
    }
    page += &format!(".TP\n{}\nmore about a verb\n", bold("--help"));
    page + &format!(".SH EXIT STATUS\n{}", paragraphs(STATUSES))
}

/// What the command does, without its name and the full stop.
fn what() -> &'static str {
    let what = WHAT.trim_end().trim_end_matches('.');
    what.strip_prefix("exam: ").unwrap_or(what)
}

/// Text with its paragraphs. Lines that are set in are shown as they are.
fn paragraphs(text: &str) -> String {
    let mut page = String::new();
    let mut shown = false;
    for line in text.lines() {
        let set_in = line.starts_with("  ");
        if set_in != shown {
            page += if set_in { ".RS\n.nf\n" } else { ".fi\n.RE\n" };
            shown = set_in;
        }
        match line.trim() {
            "" => page += ".PP\n",
            line => page += &format!("{}\n", plain(line)),
        }
    }
    page + if shown { ".fi\n.RE\n" } else { "" }
}

/// Text that nothing is read into: a dash stays a dash, and a full stop or an
/// apostrophe that begins a line asks for nothing.
fn plain(text: &str) -> String {
    let text = text.replace('\\', "\\e").replace('-', "\\-");
    match text.starts_with(['.', '\'']) {
        true => format!("\\&{text}"),
        false => text,
    }
}

fn bold(text: &str) -> String {
    format!("\\fB{}\\fR", plain(text))
}

#[cfg(test)]
mod tests {
    use super::{bold, paragraphs};

    /// No line of help asks for anything, whatever it begins with.
    #[test]
    fn text_asks_for_nothing() {
        let text = "one-way\n.sheet ends\n'NAME'\n\na\\b\n  shown\n  .as is\nbehind\n  last\n";
        let page = "one\\-way\n\\&.sheet ends\n\\&'NAME'\n.PP\na\\eb\n\
                    .RS\n.nf\nshown\n\\&.as is\n.fi\n.RE\nbehind\n\
                    .RS\n.nf\nlast\n.fi\n.RE\n";
        assert_eq!(paragraphs(text), page);
        assert_eq!(bold("--raw"), "\\fB\\-\\-raw\\fR");
    }
}
