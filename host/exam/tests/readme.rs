//! Everything that the README shows of `exam` is what `exam` prints, and the
//! samples are what the README says.

mod common;

use common::{ended, exam, Folder, Ran, ROOT};
use papers::child::Limited;
use std::fs::Permissions;
use std::os::unix::fs::PermissionsExt;
use std::os::unix::process::CommandExt;
use std::process::{Command, Stdio};

fn readme() -> String {
    std::fs::read_to_string(format!("{ROOT}/README.md")).expect("the README")
}

/// A command as it is typed after `$`, and what is printed.
struct Shown {
    command: String,
    printed: String,
}

/// The sessions of the README: indented lines, commands after `$ ` and, where
/// they go on, after `> `. An empty line between two indented ones is printed.
fn sessions(text: &str) -> Vec<Shown> {
    let mut all: Vec<Shown> = Vec::new();
    let mut within = false;
    let mut lines = text.lines().peekable();
    while let Some(line) = lines.next() {
        let next_is_indented = lines.peek().is_some_and(|next| next.starts_with("    "));
        let line = match line.strip_prefix("    ") {
            Some(line) => line,
            None if line.is_empty() && next_is_indented => line,
            None => {
                within = false;
                continue;
            }
        };
        if let Some(command) = line.strip_prefix("$ ") {
            within = true;
            all.push(Shown {
                command: command.to_string(),
                printed: String::new(),
            });
        } else if let (true, Some(shown)) = (within, all.last_mut()) {
            match line.strip_prefix("> ") {
                Some(more) => shown.command += &format!("\n{more}"),
                None => shown.printed += &format!("{line}\n"),
            }
        }
    }
    all
}

/// Runs a command as a person in the repository's folder does, both outputs on
/// one screen.
fn on_screen(folder: &Folder, command: &str) -> String {
    let exam = std::path::Path::new(env!("CARGO_BIN_EXE_exam"));
    let beside = exam.parent().expect("a folder").display();
    let path = format!("{beside}:{}", std::env::var("PATH").unwrap_or_default());
    let mut shell = Command::new("sh");
    shell
        .args(["-c", &format!("exec 2>&1\n{command}")])
        .current_dir(folder.path())
        .env("PATH", path)
        .stdin(Stdio::null())
        .stdout(Stdio::piped())
        // What hangs is ended with all that the shell has started.
        .process_group(0);
    let output = Limited::start(&mut shell).output();
    let text = String::from_utf8_lossy(&output.stdout).into_owned();
    // On a slow machine a search shows signs of life.
    let lines = text.lines().filter(|line| !is_sign_of_life(line));
    lines.map(|line| format!("{line}\n")).collect()
}

fn is_sign_of_life(line: &str) -> bool {
    let words: Vec<&str> = line.split(' ').collect();
    words.len() > 3 && words[0] == "exam:" && words[2] == "s," && words[1].parse::<u64>().is_ok()
}

#[test]
fn the_sessions_are_real() {
    let folder = Folder::new();
    let samples = format!("{ROOT}/samples");
    std::os::unix::fs::symlink(samples, folder.path().join("samples")).expect("a link");
    let sessions = sessions(&readme());
    assert!(sessions.len() >= 14, "{} commands", sessions.len());
    let verbs = [
        "read", "show", "rate", "board", "draw", "classes", "best", "wanted", "better", "mark",
        "explain", "report", "archive", "same", "plan", "type",
    ];
    for verb in verbs {
        let word = format!("exam {verb} ");
        assert!(sessions.iter().any(|shown| shown.command.contains(&word)));
    }
    for shown in sessions {
        let printed = on_screen(&folder, &shown.command);
        assert_eq!(printed, shown.printed, "{}", shown.command);
    }
    pictures_are_what_is_drawn(&folder);
}

/// Each picture is, to the byte, the file that the command above it has just written; and
/// the README shows all that there are.
fn pictures_are_what_is_drawn(folder: &Folder) {
    let pictures = format!("{ROOT}/docs/pictures");
    let mut shown = Vec::new();
    let mut drawn = None;
    for line in readme().lines() {
        if line.starts_with("    $ exam draw ") {
            let mut words = line.split(' ');
            drawn = words
                .find(|word| word.ends_with(".svg"))
                .map(str::to_string);
        }
        let name = line
            .strip_prefix("![")
            .and_then(|line| line.split_once("](docs/pictures/"));
        if let Some((_, name)) = name {
            let name = name.trim_end_matches(')');
            let drawn = drawn.take().expect("a command above the picture");
            let read = |path: &std::path::Path| std::fs::read(path).expect("a picture");
            let picture = read(&std::path::Path::new(&pictures).join(name));
            assert!(
                picture == read(&folder.path().join(&drawn)),
                "{name} isn't {drawn}"
            );
            shown.push(name.to_string());
        }
    }
    let there = std::fs::read_dir(&pictures).expect("a folder");
    let names = there.map(|entry| entry.expect("a file").file_name().into_string());
    let mut names: Vec<String> = names.map(|name| name.expect("a plain name")).collect();
    names.sort();
    shown.sort();
    assert_eq!(shown, names);
    assert_eq!(names, ["market_circle.svg", "town_key.svg"]);
}

/// The table of samples: network, lines, stops, best, tries.
#[test]
fn the_samples_are_as_described() {
    let readme = readme();
    let rows: Vec<Vec<&str>> = readme
        .lines()
        .filter(|line| line.starts_with("| `samples/"))
        .map(|line| line.split('|').map(|cell| cell.trim()).collect())
        .collect();
    assert_eq!(rows.len(), 6);
    for row in rows {
        let [_, network, lines, stops, rating, tries, _] = row[..] else {
            panic!("{row:?} has other columns");
        };
        let network = network.trim_matches('`');
        let counts = exam(&["read", network]).out;
        let described = format!("lines {lines} stops {stops} calls ");
        assert!(counts.starts_with(&described), "{network}: {counts}");
        let found = exam(&["best", network, "--quiet", "--budget", "5000000"]);
        let described = format!("{rating} tries {tries} starts ");
        assert!(found.out.starts_with(&described), "{network}: {found:?}");
        sheets_are_as_named(network);
    }
}

/// A perfect sheet is equal to the best, a beaten one below it.
fn sheets_are_as_named(network: &str) {
    let folder = network.trim_end_matches(".hex");
    let marked = |name: &str| {
        let sheet = format!("{folder}/{name}.sheet");
        exam(&["mark", network, &sheet, "--quiet", "--budget", "5000000"]).out
    };
    let perfect = marked("perfect");
    assert!(
        perfect.contains(" equal mark 100 remainder 0 tries "),
        "{folder}: {perfect}"
    );
    if folder != "samples/one_line" {
        let beaten = marked("beaten");
        assert!(beaten.contains(" below mark "), "{folder}: {beaten}");
    }
}

/// The sample that comes as bytes too is the same network.
#[test]
fn two_lines_as_bytes() {
    let typed = exam(&["best", "samples/two_lines.hex"]);
    let bytes = exam(&["best", "samples/two_lines.net"]);
    assert_eq!(typed.out, "gap 2 sum 2 tries 21 starts 0 3\n");
    assert_eq!(bytes.out, typed.out);
    // The README's first command says the same.
    assert!(readme().contains("It prints `gap 2 sum 2 tries 21 starts 0 3`"));
}

/// The first command, found as `.ci/run` finds it: the first indented line under
/// its heading.
fn first_command() -> String {
    let readme = readme();
    let under = readme.split("## Two commands\n").nth(1).expect("a heading");
    let command = under.lines().find_map(|line| line.strip_prefix("    "));
    command.expect("an indented line").to_string()
}

/// Where the first command puts the engine's library, from the repository's folder.
const LIBRARY: &str = "target/staticlib/libexamination.a";

/// Runs the first command with other programs in place of the prover and of cargo, in a
/// folder that has nothing but the script that it runs, the exports' empty folder, and a
/// library of an earlier time.
fn first_command_with(rt: &str) -> (Ran, Folder) {
    let folder = Folder::new();
    for inner in ["tools", "crates/examination_c", "target/staticlib"] {
        std::fs::create_dir_all(folder.path().join(inner)).expect("a folder");
    }
    let script = folder.path().join("tools/staticlib");
    std::fs::copy(format!("{ROOT}/tools/staticlib"), script).expect("the script");
    std::fs::write(folder.path().join(LIBRARY), "of an earlier time").expect("a library");
    for (name, script) in [("rt", rt), ("cargo", "echo cargo \"$@\"")] {
        let program = folder.file(name, format!("#!/bin/sh\n{script}\n"));
        std::fs::set_permissions(&program, Permissions::from_mode(0o755)).expect("a mode");
    }
    let path = std::env::var("PATH").unwrap_or_default();
    let mut shell = Command::new("bash");
    shell.args(["-c", &first_command()]);
    shell.current_dir(folder.path());
    shell.env("PATH", format!("{}:{path}", folder.name()));
    shell.stdin(Stdio::null());
    shell.stdout(Stdio::piped()).stderr(Stdio::piped());
    (ended(shell.spawn().expect("a shell")), folder)
}

/// The prover's notes don't stand in front of a clerk, but for a proof that
/// fails; then nothing is built.
#[test]
fn the_first_command_keeps_the_notes() {
    let builds = "mkdir out; echo proved > out/libexamination_c.a";
    let (ran, folder) = first_command_with(&format!(
        "echo \"rt $@ in $PWD\"; echo a note >&2; {builds}"
    ));
    assert_eq!((ran.status, ran.err.as_str()), (0, ""));
    assert!(
        ran.out.starts_with("cargo run -q --release --offline "),
        "{ran:?}"
    );
    assert!(
        ran.out.ends_with(" -- best samples/two_lines.hex\n"),
        "{ran:?}"
    );
    assert_eq!(ran.out.lines().count(), 1);
    let log = std::fs::read_to_string(folder.path().join("target/prove.log"));
    let log = log.expect("a log");
    // Built for every processor, and in the folder of the exports.
    assert!(log.starts_with("rt lib --cpu x86-64 in "), "{log}");
    assert!(log.ends_with("/crates/examination_c\na note\n"), "{log}");
    let library = std::fs::read_to_string(folder.path().join(LIBRARY));
    assert_eq!(library.expect("the library"), "proved\n");
    let (ran, folder) = first_command_with(&format!(
        "echo a note; {builds}; echo why it fails >&2; exit 3"
    ));
    assert_eq!(ran.out, "a note\nwhy it fails\n");
    assert_ne!(ran.status, 0);
    // Nothing can be linked that isn't proved, and nothing that was proved before.
    assert!(!folder.path().join(LIBRARY).exists());
}

/// What the hall's computer needs: the C library, and what comes with it.
#[test]
fn the_command_needs_what_is_said() {
    let Ok(output) = Command::new("ldd").arg(env!("CARGO_BIN_EXE_exam")).output() else {
        return println!("skipped, there is no ldd");
    };
    let text = String::from_utf8_lossy(&output.stdout).into_owned();
    let known = [
        "linux-vdso.so.1",
        "libgcc_s.so.1",
        "libc.so.6",
        "ld-linux-x86-64.so.2",
    ];
    for line in text.lines() {
        assert!(known.iter().any(|name| line.contains(name)), "{line}");
    }
    assert!(text.contains("libc.so.6"), "{text}");
}
