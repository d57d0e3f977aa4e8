//! The words of the command line as a request, by the table.

use super::near::meant;
use super::pages::{Page, Shell};
use super::table::{all_options, CommandOption, Request, Verb};
use crate::input::source::Source;
use crate::status::Trouble;
use engine::text::shown;
use std::ffi::{OsStr, OsString};
use std::os::unix::ffi::OsStrExt;

/// The words that ask for help, for the version, and behind help for pages that
/// are files elsewhere.
const HELP: [&str; 2] = ["--help", "-h"];
const VERSION: [&str; 2] = ["--version", "-V"];
const MAN: &str = "--man";
const COMPLETIONS: &str = "--completions";

pub enum Asked {
    Page(Page),
    Run(&'static Verb, Request),
}

/// The words behind a verb, told apart.
#[derive(Default)]
struct Told {
    help: bool,
    request: Request,
    operands: Vec<OsString>,
}

/// Understands the words behind `exam`.
pub fn asked(verbs: &[&'static Verb], words: Vec<OsString>) -> Result<Asked, Trouble> {
    let mut words = words.into_iter();
    let Some(first) = words.next() else {
        return Err(usage("say what to do", None));
    };
    let text = first.to_string_lossy();
    if text == "help" || HELP.contains(&text.as_ref()) {
        return page(verbs, words).map(Asked::Page);
    }
    if VERSION.contains(&text.as_ref()) {
        return no_more(words, None).map(|()| Asked::Page(Page::Version));
    }
    let verb = verb_of(verbs, &first)?;
    let told = told_apart(verbs, verb, words)?;
    match told.help {
        true => Ok(Asked::Page(Page::Of(verb))),
        false => request(verb, told).map(|request| Asked::Run(verb, request)),
    }
}

/// What stands behind `help`.
fn page(
    verbs: &[&'static Verb],
    mut words: impl Iterator<Item = OsString>,
) -> Result<Page, Trouble> {
    let page = match words.next() {
        None => Page::Overview,
        Some(word) if word == MAN => Page::Man,
        Some(word) if word == COMPLETIONS => {
            let shell = words.next().unwrap_or_default();
            let known = Shell::ALL.into_iter().find(|known| shell == known.name());
            let names = Shell::ALL.map(Shell::name).join(" or ");
            Page::Completions(
                known
                    .ok_or_else(|| usage(&format!("{COMPLETIONS} wants a shell, {names}"), None))?,
            )
        }
        Some(word) => Page::Of(verb_of(verbs, &word)?),
    };
    no_more(words, None).map(|()| page)
}

/// Nothing more is wanted.
fn no_more(mut words: impl Iterator<Item = OsString>, verb: Option<&Verb>) -> Result<(), Trouble> {
    match words.next() {
        None => Ok(()),
        Some(word) => Err(usage(&format!("'{}' is one too many", named(&word)), verb)),
    }
}

/// The verb of a name. What stands before the verb in its place is told from a
/// name that isn't there.
fn verb_of(verbs: &[&'static Verb], word: &OsStr) -> Result<&'static Verb, Trouble> {
    let text = word.to_string_lossy();
    if let Some(verb) = verbs.iter().find(|verb| verb.name == text) {
        return Ok(verb);
    }
    let name = text.split('=').next().unwrap_or_default();
    if all_options(verbs).any(|option| option.name == name) {
        let message = format!("'{name}' stands before the verb; options come after it");
        return Err(usage(&message, None));
    }
    let word = named(word);
    let message = match text.starts_with('-') {
        true => {
            let own = HELP.into_iter().chain(VERSION);
            let names = all_options(verbs).map(|option| option.name).chain(own);
            format!("there is no option '{word}'{}", meant(name, names))
        }
        false => {
            let names = verbs.iter().map(|verb| verb.name).chain(["help"]);
            format!("there is no verb '{word}'{}", meant(&text, names))
        }
    };
    Err(usage(&message, None))
}

/// A word for messages.
fn named(word: &OsStr) -> String {
    shown(word.as_encoded_bytes())
}

/// Tells the options of a verb from its operands.
fn told_apart(
    verbs: &[&Verb],
    verb: &Verb,
    mut words: impl Iterator<Item = OsString>,
) -> Result<Told, Trouble> {
    let mut told = Told::default();
    let mut only_operands = false;
    while let Some(word) = words.next() {
        let text = word.to_string_lossy();
        let number = verb.last.is_some() && is_negative(&text);
        if only_operands || number || text == "-" || !text.starts_with('-') {
            told.operands.push(word);
        } else if text == "--" {
            only_operands = true;
        } else if HELP.contains(&text.as_ref()) {
            told.help = true;
        } else {
            let (option, value) = option((verbs, verb), &word, &mut words)?;
            add(verb, &mut told.request, option, value)?;
        }
    }
    Ok(told)
}

/// Whether a word is a number below 0, which is better refused as a number than as
/// an option.
fn is_negative(text: &str) -> bool {
    let digits = text.strip_prefix('-').unwrap_or_default();
    !digits.is_empty() && digits.bytes().all(|byte| byte.is_ascii_digit())
}

/// The option that a word begins, and its value, which stands behind `=` or is
/// the next word. Also of an option that only other verbs have.
fn option(
    (verbs, verb): (&[&Verb], &Verb),
    word: &OsStr,
    words: &mut impl Iterator<Item = OsString>,
) -> Result<(&'static CommandOption, Option<OsString>), Trouble> {
    let text = word.to_string_lossy();
    let (name, behind) = match text.split_once('=') {
        // A known name has as many bytes in the word itself, whatever the value is.
        Some((name, _)) => (name, word.as_bytes().get(name.len() + 1..)),
        None => (text.as_ref(), None),
    };
    let known = all_options(verbs).find(|option| option.name == name);
    match known.map(|option| (option, &option.value, behind)) {
        Some((option, None, None)) => Ok((option, None)),
        Some((option, None, Some(_))) => {
            let message = format!("{} takes no value", option.name);
            Err(usage(&message, Some(verb)))
        }
        Some((option, Some(_), Some(value))) => {
            Ok((option, Some(OsStr::from_bytes(value).to_os_string())))
        }
        Some((option, Some(wanted), None)) => match words.next() {
            Some(value) => Ok((option, Some(value))),
            None => {
                let message = format!("{} wants {}", option.name, wanted.words);
                Err(usage(&message, Some(verb)))
            }
        },
        None => {
            let names = verb.options.iter().map(|option| option.name).chain(HELP);
            Err(no_option(verb, &named(word), &meant(name, names)))
        }
    }
}

fn no_option(verb: &Verb, word: &str, more: &str) -> Trouble {
    let message = format!("'{}' has no option '{word}'{more}", verb.name);
    usage(&message, Some(verb))
}

/// Adds an option to a request, if the verb has it and its value will do.
fn add(
    verb: &Verb,
    request: &mut Request,
    option: &'static CommandOption,
    value: Option<OsString>,
) -> Result<(), Trouble> {
    if !verb.has(option) {
        return Err(match option.missing {
            Some(words) => usage(&format!("'{}' {words}", verb.name), Some(verb)),
            None => no_option(verb, option.name, ""),
        });
    }
    if let (Some(wanted), Some(value)) = (&option.value, &value) {
        (wanted.check)(value).map_err(|message| usage(&message, Some(verb)))?;
    }
    let name = option.name;
    if request.has(option) {
        return Err(usage(&format!("{name} is given twice"), Some(verb)));
    }
    let contradicts = |other: &&&str| request.has_named(other);
    if let Some(other) = option.excludes.iter().find(contradicts) {
        let message = format!("{other} and {name} contradict each other");
        return Err(usage(&message, Some(verb)));
    }
    request.give(option, value);
    Ok(())
}

/// Puts options and operands together.
fn request(verb: &Verb, told: Told) -> Result<Request, Trouble> {
    let (mut request, mut operands) = (told.request, told.operands);
    if !verb.takes(operands.len()) {
        return Err(miscounted(verb, &operands));
    }
    if let Some(check) = verb.last {
        // One is there: there are as many as the verb takes.
        let last = operands.pop().unwrap_or_default();
        check(&last).map_err(|message| usage(&message, Some(verb)))?;
        request.last = Some(last);
    }
    let mut networks: Vec<Source> = operands.into_iter().map(Source::of).collect();
    let from_input = |source: &&Source| **source == Source::Input;
    if networks.iter().filter(from_input).count() > 1 {
        let message = "standard input ('-') can be read for one file only";
        return Err(usage(message, Some(verb)));
    }
    request.sheets = networks.split_off(verb.networks);
    request.networks = networks;
    Ok(request)
}

/// More or fewer operands than a verb wants, with the first that is too many or
/// isn't there.
fn miscounted(verb: &Verb, operands: &[OsString]) -> Trouble {
    let wanted = verb.operands;
    let which = match operands.get(verb.operand_count()) {
        Some(word) => format!("'{}' is one too many", named(word)),
        None => {
            let missing = wanted.split(' ').nth(operands.len()).unwrap_or(wanted);
            let missing = missing.trim_end_matches("..");
            format!("{missing} is missing")
        }
    };
    usage(
        &format!("'{}' wants {wanted}; {which}", verb.name),
        Some(verb),
    )
}

/// Bad usage, with the way to help.
fn usage(message: &str, verb: Option<&Verb>) -> Trouble {
    let verb = verb.map_or(String::new(), |verb| format!(" {}", verb.name));
    Trouble(format!("{message}\ntry: exam{verb} --help"))
}
