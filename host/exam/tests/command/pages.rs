//! The version, the manual page and what shells read.

use crate::common::{exam, Folder, ROOT};
use std::collections::BTreeSet;
use std::process::{Command, Stdio};

/// What help says there is: verbs, and options with the verbs that have them.
fn verbs() -> Vec<(String, Vec<String>)> {
    let overview = exam(&["--help"]).out;
    let lines = overview
        .lines()
        .filter_map(|line| line.strip_prefix("  exam "));
    let first = |line: &str| line.split(' ').next().map(str::to_string);
    let names = lines
        .filter_map(first)
        .filter(|name| name.chars().all(char::is_lowercase));
    let with_options = |name: String| {
        let help = exam(&[&name, "--help"]).out;
        let options = help.lines().filter_map(|line| line.strip_prefix("  --"));
        let options = options
            .filter_map(first)
            .map(|option| format!("--{option}"));
        let options: Vec<String> = options.collect();
        (name, options)
    };
    let verbs: Vec<_> = names.map(with_options).collect();
    assert!(verbs.len() >= 8 && verbs.iter().all(|(_, options)| options.len() >= 2));
    verbs
}

/// A page that is printed and nothing else.
fn page(words: &[&str]) -> String {
    let ran = exam(words);
    assert_eq!((ran.status, ran.err.as_str()), (0, ""));
    ran.out
}

/// The version of the package, and the engine as `cksum` tells it.
#[test]
fn version() {
    let text = page(&["--version"]);
    assert_eq!(text, page(&["-V"]));
    let lines: Vec<&str> = text.lines().collect();
    let [command, engine] = lines[..] else {
        panic!("{text} has other lines");
    };
    assert_eq!(command, format!("exam {}", env!("CARGO_PKG_VERSION")));
    let sum = engine.strip_prefix("engine libexamination.a, proved in Rattle, cksum ");
    let sum = sum.expect("the engine's library");
    let folder = std::env::var("EXAMINATION_LIB").unwrap_or(format!("{ROOT}/target/staticlib"));
    let library = format!("{folder}/libexamination.a");
    match Command::new("cksum").arg(&library).output() {
        Ok(output) => {
            let said = String::from_utf8_lossy(&output.stdout).into_owned();
            assert_eq!(said, format!("{sum} {library}\n"));
        }
        Err(error) => println!("skipped, there is no cksum: {error}"),
    }
}

/// Every verb and option is in the manual page, each option once as a heading.
#[test]
fn manual_page() {
    let page = page(&["help", "--man"]);
    assert!(page.starts_with(".TH EXAM 1 "));
    for heading in [
        "NAME",
        "SYNOPSIS",
        "FILES",
        "VERBS",
        "OPTIONS",
        "EXIT STATUS",
    ] {
        assert!(page.contains(&format!("\n.SH {heading}\n")), "{heading}");
    }
    let roff = |text: &str| text.replace('-', "\\-");
    let mut options = BTreeSet::from(["--help".to_string()]);
    for (verb, own) in verbs() {
        assert!(page.contains(&format!("\n.SS exam {verb} ")), "{verb}");
        let listed = format!("\nOptions: {}\n", roff(&own.join(", ")));
        assert!(page.contains(&listed), "{verb}: {listed}");
        options.extend(own);
    }
    for option in &options {
        let heading = format!("\n.TP\n\\fB{}", roff(option));
        let ends = [format!("{heading}\\fR"), format!("{heading} ")];
        let count: usize = ends.iter().map(|end| page.matches(end).count()).sum();
        assert_eq!(count, 1, "{option}");
    }
    // Requests are of this page, and no line of help became one.
    let known = [
        ".TH", ".SH", ".SS", ".PP", ".TP", ".RS", ".RE", ".nf", ".fi", ".br",
    ];
    for line in page.lines().filter(|line| line.starts_with(['.', '\''])) {
        let request = line.split(' ').next().unwrap_or(line);
        assert!(known.contains(&request), "{line}");
    }
}

/// The program that sets manual pages finds nothing to warn of, and what it sets
/// has the words of help.
#[test]
fn manual_page_as_it_is_set() {
    let folder = Folder::new();
    let file = folder.file("exam.1", page(&["help", "--man"]));
    let set = Command::new("groff")
        .args([
            "-man", "-Tutf8", "-ww", "-P-c", "-P-b", "-P-o", "-P-u", &file,
        ])
        .stdin(Stdio::null())
        .output();
    let Ok(set) = set else {
        return println!("skipped, there is no groff");
    };
    assert_eq!(String::from_utf8_lossy(&set.stderr), "");
    assert!(set.status.success());
    let text = String::from_utf8_lossy(&set.stdout).into_owned();
    let text: Vec<&str> = text.split_whitespace().collect();
    let text = text.join(" ");
    for words in [
        "exam - rates and marks timetables, and finds the best one",
        "exam mark NETWORK SHEET-OR-FOLDER.. [OPTIONS]",
        "exam board NETWORK SHEET STOP [OPTIONS]",
        "exam draw NETWORK SHEET FILE.svg [OPTIONS]",
        "exam explain NETWORK SHEET [OPTIONS]",
        "exam report NETWORK FOLDER OUT.html [OPTIONS]",
        "--key SHEET take this sheet for the key, and search nothing",
        "--from M begin at minute M, which may be negative (otherwise 0)",
        "--budget N stop after N tries, 0 to 4294967295 or max (otherwise 1000000)",
        "gap 2 sum 2 tries 21 starts 0 3",
    ] {
        assert!(text.contains(words), "no '{words}' in {text}");
    }
}

/// What bash proposes where these words are typed and the last is begun.
fn proposed(file: &str, words: &[&str]) -> Vec<String> {
    let script = "source \"$1\"; shift; COMP_WORDS=(\"$@\"); COMP_CWORD=$(($# - 1)); _exam; \
                  printf '%s\\n' \"${COMPREPLY[@]}\"";
    let shell = ["--norc", "-c", script, "bash", file];
    let output = Command::new("bash").args(shell).args(words).output();
    let output = output.expect("bash");
    assert_eq!(String::from_utf8_lossy(&output.stderr), "");
    let text = String::from_utf8_lossy(&output.stdout).into_owned();
    text.split_whitespace().map(str::to_string).collect()
}

#[test]
fn completions_for_bash() {
    let folder = Folder::new();
    let file = folder.file("exam.bash", page(&["help", "--completions", "bash"]));
    let checked = Command::new("bash").args(["-n", &file]).output();
    let checked = checked.expect("bash");
    assert_eq!((checked.status.code(), checked.stderr), (Some(0), vec![]));
    let verbs = verbs();
    let mut first: Vec<String> = verbs.iter().map(|(verb, _)| verb.clone()).collect();
    assert_eq!(proposed(&file, &["exam", "help", ""]), first);
    first.extend(["help", "--help", "--version"].map(str::to_string));
    assert_eq!(proposed(&file, &["exam", ""]), first);
    for (verb, mut options) in verbs {
        options.push("--help".to_string());
        assert_eq!(
            proposed(&file, &["exam", &verb, "a", "-"]),
            options,
            "{verb}"
        );
    }
    assert_eq!(proposed(&file, &["exam", "arc"]), ["archive"]);
    assert_eq!(
        proposed(&file, &["exam", "best", "a.net", "--bu"]),
        ["--budget"]
    );
    // A file's name bash completes by itself.
    assert!(proposed(&file, &["exam", "best", "sam"]).is_empty());
}

/// A line for each verb, and for each option one with the verbs that have it.
#[test]
fn completions_for_fish() {
    let text = page(&["help", "--completions", "fish"]);
    for (verb, options) in verbs() {
        assert!(
            text.contains(&format!("_subcommand -f -a {verb} -d '")),
            "{verb}"
        );
        for option in options {
            let named = format!(" -l {} ", option.trim_start_matches('-'));
            let lines: Vec<&str> = text.lines().filter(|line| line.contains(&named)).collect();
            assert_eq!(lines.len(), 1, "{option}");
            assert!(lines[0].contains(&format!(" {verb}")), "{verb} {option}");
        }
    }
    for line in text.lines().skip(1) {
        assert!(line.starts_with("complete -c exam "), "{line}");
        assert_eq!(
            line.replace("\\'", "").matches('\'').count() % 2,
            0,
            "{line}"
        );
    }
}
