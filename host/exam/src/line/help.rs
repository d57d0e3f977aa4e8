//! What `--help` prints, by the table.

use super::table::{all_options, CommandOption, Verb};

/// The help of the whole command.
pub fn overview(verbs: &[&Verb]) -> String {
    let of_verb = |verb: &&Verb| (usage(verb), verb.summary);
    let mut rows: Vec<(String, &str)> = verbs.iter().map(of_verb).collect();
    rows.push(("exam VERB --help".to_string(), "more about a verb"));
    rows.push(("exam --version".to_string(), "this command and its engine"));
    let width = rows.iter().map(|(usage, _)| usage.len()).max().unwrap_or(0) + 4;
    let lines: String = rows
        .iter()
        .map(|(usage, summary)| format!("  {usage:width$}{summary}\n"))
        .collect();
    format!("{WHAT}\n{lines}\n{INPUT}\n{STATUSES}")
}

/// The help of a verb.
pub fn of_verb(verbs: &[&Verb], verb: &Verb) -> String {
    // The same column for every verb.
    let widths = all_options(verbs).map(|option| written(option).len());
    let width = widths.max().unwrap_or(0) + 3;
    let options: String = verb
        .options
        .iter()
        .map(|option| format!("  {:width$}{}\n", written(option), option.help))
        .collect();
    let (usage, about) = (usage(verb), verb.about);
    format!("{usage} [OPTIONS]\n\n{about}\nOptions:\n{options}\n{STATUSES}")
}

/// A verb with its operands.
pub fn usage(verb: &Verb) -> String {
    format!("exam {} {}", verb.name, verb.operands)
}

/// An option with its value.
pub fn written(option: &CommandOption) -> String {
    match &option.value {
        None => option.name.to_string(),
        Some(value) => format!("{} {}", option.name, value.placeholder),
    }
}

pub const WHAT: &str = "\
exam: rates and marks timetables, and finds the best one.
";

pub const INPUT: &str = "\
NETWORK: a name that ends in .plan is a plan, with names and decimal numbers (see
exam plan --help); .hex or .txt is typed text, hexadecimal pairs with blanks, line
ends and comments from # to the end of the text line; .net is bytes.
SHEET: .sheet or .txt holds whole numbers, one start for each line of the
network, in line order, with blanks, line ends and # comments; .bin is bytes, 4
for each start. A flag (see a verb's help) stands above the ending. A file named
- is standard input and needs a flag.
";

pub const STATUSES: &str = "\
Exit status: 0 done; 1 refused (the words are on standard error), neither sheet,
or two networks; 2 bad usage, or a file that can't be read or written; 3 undecided,
the budget was used up; 130 ended by Ctrl-C.
";
