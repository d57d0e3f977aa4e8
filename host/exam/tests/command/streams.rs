//! Input that can't be read and output that can't be written.

use crate::common::{command, ended, exam, exam_with, Folder, Ran, HEX, NET, P9, ROOT};
use std::ffi::OsStr;
use std::fs::{File, Permissions};
use std::io::Write;
use std::os::unix::ffi::OsStrExt;
use std::os::unix::fs::{symlink, MetadataExt, PermissionsExt};
use std::os::unix::process::CommandExt;
use std::process::{Command, Stdio};

/// Runs a line of the shell in which `exam` is this command.
fn in_shell(line: &str) -> Ran {
    let mut shell = Command::new("bash");
    shell.args(["-c", line]).current_dir(ROOT);
    shell.env("exam", env!("CARGO_BIN_EXE_exam"));
    shell
        .stdin(Stdio::null())
        .stdout(Stdio::piped())
        .stderr(Stdio::piped());
    ended(shell.spawn().expect("a shell"))
}

#[test]
fn input_that_cannot_be_read() {
    let folder = Folder::new();
    let sheet = |text: &str| folder.file("bad.sheet", text);
    let bad = |text: &str, piece: &str| {
        exam(&["rate", HEX, &sheet(text)]).told("", 2, &["bad.sheet, text line", piece]);
    };
    bad("0\nthree", "line 2: 'three' is no whole number");
    bad("0 3.5", "'3.5' is no whole number");
    bad("0, 3", "'0,' is no whole number");
    bad(
        "0 2147483648",
        "2147483648 isn't within -2147483648 to 2147483647",
    );
    bad("-2147483649 0", "-2147483649 isn't within");
    bad(
        "0 99999999999999999999",
        "99999999999999999999 isn't within",
    );
    let good = sheet("0 3");
    exam(&["rate", "no.net", &good]).told("", 2, &["no.net: there is no such file"]);
    exam(&["rate", HEX, "no.sheet"]).told("", 2, &["no.sheet: there is no such file"]);
    exam(&["mark", HEX, "no_folder"]).told("", 2, &["no_folder: there is no such file"]);
    exam(&["best", "samples"]).told("", 2, &["samples is a folder, not a file"]);
    let sheets = ["better", HEX, "samples", "samples"];
    exam(&sheets).told("", 2, &["samples is a folder, not a file"]);
    let no_folder = "x.net: there is no such file: a part of its path is no folder\n";
    exam(&["best", "samples/one_line.hex/x.net"]).told("", 2, &[no_folder]);
    exam(&["best", ""]).told("", 2, &["exam: '': there is no such file\n"]);
    let long_name = "x".repeat(300) + ".net";
    exam(&["best", &long_name]).told("", 2, &[".net: the name is too long\n"]);
    let odd = folder.file("odd.hex", "4C000F\n4C 014 45");
    exam(&["best", &odd]).told("", 2, &["odd.hex, text line 2: '014' isn't in pairs"]);
    let long = folder.file("long.sheet", "0 ".repeat(600_000));
    exam(&["rate", HEX, &long]).told("", 2, &["longer than"]);
}

/// Files that the system itself doesn't give, in words of our own.
#[test]
fn input_that_the_system_refuses() {
    let folder = Folder::new();
    let circle = folder.path().join("circle.net");
    symlink(&circle, &circle).expect("a link");
    let name = circle.to_str().expect("a plain name");
    exam(&["best", name]).told("", 2, &["circle.net: its links lead in a circle\n"]);
    // Its first byte is no part of the memory.
    let error = "/proc/self/mem: the disk or device reports an error\n";
    exam(&["best", "--bytes", "/proc/self/mem"]).told("", 2, &[error]);
}

/// Whoever may read everything runs it as somebody who may not.
#[test]
fn input_without_permission() {
    let folder = Folder::new();
    let secret = folder.file("secret.net", "");
    let root = folder.path().metadata().expect("a folder").uid() == 0;
    std::fs::set_permissions(&secret, Permissions::from_mode(0o000)).expect("a mode");
    // The command's own folder may be closed to others.
    let copy = folder.path().join("exam");
    std::fs::copy(env!("CARGO_BIN_EXE_exam"), &copy).expect("a copy");
    let mut command = Command::new(&copy);
    command.args(["best", &secret]);
    command
        .stdin(Stdio::null())
        .stdout(Stdio::piped())
        .stderr(Stdio::piped());
    if root {
        command.uid(65534).gid(65534);
    }
    match command.spawn() {
        Ok(child) => ended(child).told("", 2, &["secret.net: permission is denied\n"]),
        Err(error) => println!("skipped, nobody else can run it: {error}"),
    }
}

/// Text from any editor, and the message for what can't be seen.
#[test]
fn text_from_any_editor() {
    let folder = Folder::new();
    let sheet = folder.file("word.sheet", "\u{FEFF}0\u{A0}\u{2212}17\r\n");
    let network = folder.file(
        "word.hex",
        "\u{FEFF}4C\u{A0}000F 4C0014\r\n4300000008\u{202F}4301000011 45\r\n",
    );
    exam(&["rate", &network, &sheet]).printed("gap 2 sum 2\n", 0);
    let wide = folder.file("wide.hex", "4C 000F\r\n4C ００14 45");
    let words =
        "wide.hex, text line 2: '００14' isn't hexadecimal (column 4: U+FF10 is full-width; type 0)\n";
    exam(&["read", &wide]).told("", 2, &[words]);
    let utf16: Vec<u8> = "\u{FEFF}0 3"
        .encode_utf16()
        .flat_map(u16::to_le_bytes)
        .collect();
    let words = "(column 1: the text is UTF-16; save it as UTF-8)";
    exam(&["rate", HEX, &folder.file("wide.sheet", utf16)]).told("", 2, &[words]);
    let unseen = folder.file("unseen.sheet", "0\n3\u{200B}");
    let words = "unseen.sheet, text line 2: '3\\u{200b}' is no whole number (column 2: U+200B can't be seen; delete it)\n";
    exam(&["rate", HEX, &unseen]).told("", 2, &[words]);
}

/// Names come from a file system, which knows nothing of text.
#[test]
fn names_that_are_no_text() {
    let name = OsStr::from_bytes(b"no\xFF.net");
    let ran = ended(command(&["best"]).arg(name).spawn().expect("exam starts"));
    ran.told("", 2, &["no\\xFF.net: there is no such file"]);
    let ran = ended(command(&[]).arg(name).spawn().expect("exam starts"));
    ran.told("", 2, &["there is no verb 'no\\xFF.net'"]);
    let ran = ended(
        command(&["best", NET])
            .arg(name)
            .spawn()
            .expect("exam starts"),
    );
    ran.told("", 2, &["'no\\xFF.net' is one too many"]);
    let cases: [(&[&str], &[u8], &str); 3] = [
        (
            &["wanted", NET],
            b"\xFF",
            "the gap '\\xFF' isn't a whole number",
        ),
        (
            &["best", NET, "--budget"],
            b"\xFF",
            "the budget '\\xFF' isn't a number",
        ),
        (
            &["best", NET],
            b"--budget=5\xFF",
            "the budget '5\\xFF' isn't a number",
        ),
    ];
    for (words, last, message) in cases {
        let mut command = command(words);
        let ran = command.arg(OsStr::from_bytes(last)).spawn();
        ended(ran.expect("exam starts")).told("", 2, &[message]);
    }
}

/// What is typed, and what is in a file, never does anything to a terminal, and
/// begins no line of its own.
#[test]
fn messages_do_nothing_to_a_terminal() {
    let folder = Folder::new();
    let odd = "x\u{1B}[2J\r\u{9B}1m\u{202E}\nexam: gap 9 sum 9";
    let shown = "x\\u{1b}[2J\\u{d}\\u{9b}1m\\u{202e}\\u{a}exam: gap 9 sum 9";
    let network = folder.file(&format!("{odd}.hex"), "4C05A1 # \u{1B}[2J\t\u{202E}\u{7}");
    let sheet = folder.file(&format!("{odd}.sheet"), "0 3\u{1B}[2J");
    let option = format!("--{odd}");
    let budget = format!("--budget={odd}");
    let cases: [&[&str]; 12] = [
        &[odd],
        &["help", odd],
        &["best", odd],
        &["best", &format!("{odd}.net")],
        &["best", NET, odd],
        &["best", NET, &option],
        &["best", NET, &budget],
        &["best", &network],
        &["rate", HEX, &sheet],
        &["rate", HEX, &folder.file(odd, "0 3")],
        &["same", HEX, &network],
        &["--version", odd],
    ];
    for words in cases {
        does_nothing(&exam(words), shown);
    }
    let line = "line 1: 4C05A1 # \\u{1b}[2J \\u{202e}\\u{7}\n";
    exam(&["best", &network]).told("refused 5 at 0\n", 1, &[line, shown]);
}

/// One message, with this piece, and nothing in it that can't be seen but its own
/// line ends.
fn does_nothing(ran: &Ran, shown: &str) {
    assert!(ran.err.starts_with("exam: "), "{ran:?}");
    assert!(ran.err.contains(shown), "{ran:?}");
    let unseen = |sign: char| sign != '\n' && (sign.is_control() || sign == '\u{202E}');
    assert!(!ran.err.contains(unseen), "{ran:?}");
    assert_eq!(ran.err.matches("\nexam: ").count(), 0, "{ran:?}");
}

/// Names that come from a folder, and not from the command line: neither message
/// nor mark begins another line by them.
#[test]
fn folders_do_nothing_to_a_terminal() {
    let folder = Folder::new();
    let inner = folder.path().join("in\u{1B}[2J\u{202E}\nexam: x");
    std::fs::create_dir(&inner).expect("a folder");
    let name = inner.to_str().expect("a plain name");
    let shown = "in\\u{1b}[2J\\u{202e}\\u{a}exam: x";
    does_nothing(&exam(&["mark", HEX, name]), shown);
    does_nothing(&exam(&["best", name]), shown);
    std::fs::write(inner.join("a\u{1B}\nb.sheet"), "x").expect("a file");
    symlink("/dev/zero", inner.join("c\u{202E}.bin")).expect("a link");
    let ran = exam(&["mark", HEX, name]);
    let lines = "a\\u{1b}\\u{a}b.sheet: unreadable\nc\\u{202e}.bin: unreadable\n";
    ran.told(lines, 2, &["c\\u{202e}.bin is no plain file\n"]);
    // Two messages and the tally.
    assert_eq!(ran.err.lines().count(), 3, "{ran:?}");
    assert_eq!(ran.err.matches(shown).count(), 2, "{ran:?}");
}

/// Nor has a message a line without an end.
#[test]
fn messages_have_an_end() {
    let folder = Folder::new();
    let long = "7".repeat(100_000);
    let sheet = folder.file("long.sheet", &long);
    let network = folder.file("long.hex", format!("4C05A1 # {long}"));
    let cases: [&[&str]; 6] = [
        &[&long],
        &["best", &long],
        &["best", NET, &long],
        &["best", NET, "--budget", &long],
        &["rate", HEX, &sheet],
        &["best", &network],
    ];
    for words in cases {
        let err = exam(words).err;
        assert!(err.contains("777..777"), "{err}");
        assert!(err.lines().all(|line| line.len() < 500), "{err}");
    }
}

/// Nobody can store what it prints.
#[test]
fn output_that_cannot_be_written() {
    let full = "exam: standard output can't be written: no space is left on the disk\n";
    for words in [&["best", NET][..], &["archive", NET, "--raw"], &["--help"]] {
        let mut command = command(words);
        let to = File::options().write(true).open("/dev/full");
        command.stdout(to.expect("a full disk"));
        let ran = ended(command.spawn().expect("exam starts"));
        ran.told("", 2, &[]);
        assert_eq!(ran.err, full);
    }
}

/// Whoever reads what it prints may leave, as `head` does; nothing is said of it.
#[test]
fn a_reader_who_leaves() {
    let mut command = command(&["best", "-", "--typed"]);
    let mut child = command.stdin(Stdio::piped()).spawn().expect("exam starts");
    // The answer can only come after the input, and by then the pipe is closed.
    drop(child.stdout.take());
    let mut stdin = child.stdin.take().expect("a pipe");
    stdin.write_all(P9.as_bytes()).expect("an input");
    drop(stdin);
    ended(child).printed("", 2);
}

/// Closed is another thing than `/dev/null`, however that was opened.
#[test]
fn closed_streams() {
    let line = "exam: standard output is closed\n";
    for words in [
        "best samples/two_lines.hex",
        "--help",
        "--version",
        "read no.hex",
    ] {
        let ran = in_shell(&format!("\"$exam\" {words} >&-"));
        assert_eq!((ran.status, ran.err.as_str()), (2, line));
    }
    in_shell("\"$exam\" best samples/two_lines.hex > /dev/null").printed("", 0);
    in_shell("\"$exam\" best samples/two_lines.hex 1<> /dev/null").printed("", 0);
    let ran = in_shell("\"$exam\" best - --typed <&-");
    assert_eq!(
        (ran.status, ran.err.as_str()),
        (2, "exam: standard input is closed\n")
    );
    in_shell("\"$exam\" best samples/two_lines.hex <&-").told(
        "gap 2 sum 2 tries 21 starts 0 3\n",
        0,
        &[],
    );
    exam_with(&["read", "-", "--typed"], b"").told("refused 1 at 0\n", 1, &[]);
    // Where nobody listens to messages, the status says it.
    in_shell("\"$exam\" best no.hex 2>&-").printed("", 2);
    in_shell("\"$exam\" best no.hex >&- 2>&-").printed("", 2);
}
