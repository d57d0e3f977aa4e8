//! A file for each verb, with its row of the table.

mod archive;
mod best;
mod better;
mod board;
mod classes;
mod draw;
mod explain;
mod mark;
mod plan;
mod rate;
mod read;
mod report;
mod same;
mod show;
mod typing;
mod wanted;

use crate::line::table::Verb;

/// All verbs, in the order of help.
pub const ALL: [&Verb; 16] = [
    &read::VERB,
    &show::VERB,
    &rate::VERB,
    &board::VERB,
    &draw::VERB,
    &classes::VERB,
    &best::VERB,
    &wanted::VERB,
    &better::VERB,
    &mark::VERB,
    &explain::VERB,
    &report::VERB,
    &archive::VERB,
    &same::VERB,
    &plan::VERB,
    &typing::VERB,
];

#[cfg(test)]
mod tests {
    use super::ALL;
    use crate::line::table::all_options;
    use std::collections::BTreeSet;

    #[test]
    fn names_are_those_of_one_verb() {
        let names: BTreeSet<&str> = ALL.iter().map(|verb| verb.name).collect();
        assert_eq!(names.len(), ALL.len());
    }

    /// Usage has a word for each operand.
    #[test]
    fn operands_are_written_as_they_are_counted() {
        for verb in ALL {
            let words: Vec<&str> = verb.operands.split(' ').collect();
            assert_eq!(words.len(), verb.operand_count(), "{}", verb.name);
            let networks = words.iter().filter(|word| **word == "NETWORK");
            assert_eq!(networks.count(), verb.networks, "{}", verb.name);
            // A number, a stop, or a file to be written.
            let unread = ["GAP", "STOP", "FILE.svg", "OUT.html"].contains(&words[words.len() - 1]);
            assert_eq!(unread, verb.last.is_some(), "{}", verb.name);
        }
    }

    /// An option is excluded by those that it excludes, and some verb has both.
    #[test]
    fn options_exclude_each_other() {
        for option in all_options(&ALL) {
            for name in option.excludes {
                let both = ALL.iter().filter(|verb| verb.has(option));
                let mut both = both.flat_map(|verb| verb.options);
                let other = both.find(|other| other.name == *name);
                let other = other.unwrap_or_else(|| panic!("{} beside no {name}", option.name));
                assert!(other.excludes.contains(&option.name));
            }
        }
        assert!(all_options(&ALL).all(|option| option.name.starts_with("--")));
    }
}
