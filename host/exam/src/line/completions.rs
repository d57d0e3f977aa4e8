//! What the shells are told, so that they complete verbs and options. Names of
//! files they complete by themselves.

use super::table::{all_options, Verb};
use std::collections::BTreeSet;

/// The words that aren't verbs and may stand in a verb's place.
const FIRST: &str = "help --help --version";

/// For bash: a function that it asks.
pub fn bash(verbs: &[&Verb]) -> String {
    let names = names(verbs);
    let of_verb = |verb: &&Verb| {
        let options: Vec<&str> = verb.options.iter().map(|option| option.name).collect();
        format!(
            "        {}) options='{} --help' ;;\n",
            verb.name,
            options.join(" ")
        )
    };
    let cases: String = verbs.iter().map(of_verb).collect();
    format!(
        "\
# Completions of exam for bash, by: exam help --completions bash
_exam() {{
    local word=${{COMP_WORDS[COMP_CWORD]}} options=
    COMPREPLY=()
    if [ \"$COMP_CWORD\" -eq 1 ]; then
        COMPREPLY=($(compgen -W '{names} {FIRST}' -- \"$word\"))
        return
    fi
    case ${{COMP_WORDS[1]}} in
        help) options='{names}' ;;
{cases}    esac
    # Another word than an option may be a file's name, which bash completes itself.
    if [ \"${{COMP_WORDS[1]}}\" = help ] || [ \"${{word:0:1}}\" = - ]; then
        COMPREPLY=($(compgen -W \"$options\" -- \"$word\"))
    fi
}}
complete -o default -F _exam exam
"
    )
}

/// For fish: a line for each word.
pub fn fish(verbs: &[&Verb]) -> String {
    let mut lines =
        vec!["# Completions of exam for fish, by: exam help --completions fish".to_string()];
    for verb in verbs {
        let (name, summary) = (verb.name, quoted(verb.summary));
        lines.push(format!(
            "complete -c exam -n __fish_use_subcommand -f -a {name} -d {summary}"
        ));
    }
    let mut seen = BTreeSet::new();
    for option in all_options(verbs).filter(|option| seen.insert(option.name)) {
        let owners = verbs.iter().filter(|verb| verb.has(option));
        let owners: Vec<&str> = owners.map(|verb| verb.name).collect();
        let when = quoted(&format!("__fish_seen_subcommand_from {}", owners.join(" ")));
        let (name, help) = (option.name.trim_start_matches('-'), quoted(option.help));
        let value = if option.value.is_some() { " -x" } else { "" };
        lines.push(format!(
            "complete -c exam -n {when} -l {name}{value} -d {help}"
        ));
    }
    lines.push("complete -c exam -l help -d 'more about a verb'".to_string());
    lines.join("\n") + "\n"
}

fn names(verbs: &[&Verb]) -> String {
    let names: Vec<&str> = verbs.iter().map(|verb| verb.name).collect();
    names.join(" ")
}

/// A text between quotation marks, for fish.
fn quoted(text: &str) -> String {
    format!("'{}'", text.replace('\\', "\\\\").replace('\'', "\\'"))
}
