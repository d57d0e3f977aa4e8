//! Long searches: the sign of life, and Ctrl-C.

use crate::common::{command, Folder};
use papers::files::{dense_file, Dice};
use papers::sections::network::read;
use papers::sections::walk::{walk, Answer};
use std::io::{BufRead, BufReader, Read};
use std::os::unix::process::ExitStatusExt;
use std::process::{Child, ChildStderr, Command, ExitStatus, Stdio};
use std::sync::mpsc;
use std::time::Duration;

/// A network whose search takes longer than a test waits.
fn long_network(folder: &Folder) -> String {
    let file = dense_file(&mut Dice::new(3), 16, 64);
    let net = read(&file).expect("an accepted file");
    assert!(matches!(
        walk(&net, 2_000_000).answer,
        Answer::Stopped { .. }
    ));
    folder.file("long.net", file)
}

/// A run that is ended when the test is.
struct Running(Child);

impl Running {
    /// Starts `exam` so that Ctrl-C reaches it, also where the tests themselves are a
    /// shell's job in the background, which is deaf to it.
    fn new(words: &[&str]) -> Running {
        let exam = command(&[]).get_program().to_os_string();
        let mut heeding = Command::new("env");
        heeding.arg("--default-signal=INT").arg(exam).args(words);
        heeding.stdin(Stdio::null());
        heeding.stdout(Stdio::piped()).stderr(Stdio::piped());
        Running(heeding.spawn().expect("exam starts"))
    }

    /// The next line on standard error, for which nobody waits longer than some
    /// seconds.
    fn line_said(&mut self) -> String {
        let mut stderr = BufReader::new(self.0.stderr.take().expect("a pipe"));
        let (sender, receiver) = mpsc::channel();
        std::thread::spawn(move || {
            let mut line = String::new();
            let read = stderr.read_line(&mut line);
            sender.send((read.map(|_| line), stderr.into_inner()))
        });
        let said = receiver.recv_timeout(Duration::from_secs(20));
        let (line, stderr): (_, ChildStderr) = said.expect("a sign in time");
        self.0.stderr = Some(stderr);
        let line = line.expect("a line");
        // Whoever waits for a certain sign would wait for ever.
        assert_ne!(line, "", "it ended without a word");
        line
    }

    /// What Ctrl-C does.
    fn interrupt(&self) {
        let kill = format!("kill -INT {}", self.0.id());
        let sent = Command::new("sh").args(["-c", &kill]).status();
        assert!(sent.expect("a shell").success());
    }

    /// What it said last, and how it ended.
    fn ended(&mut self) -> (String, ExitStatus) {
        let mut said = String::new();
        let stderr = self.0.stderr.as_mut().expect("a pipe");
        stderr.read_to_string(&mut said).expect("what it said");
        (said, self.0.wait().expect("an end"))
    }

    /// Ends the run and returns what it said on standard error.
    fn stopped(mut self) -> String {
        self.0.kill().expect("a running exam");
        let mut said = String::new();
        let mut stderr = self.0.stderr.take().expect("a pipe");
        stderr.read_to_string(&mut said).expect("what it said");
        said
    }
}

impl Drop for Running {
    fn drop(&mut self) {
        let _ = self.0.kill();
        let _ = self.0.wait();
    }
}

/// After a second, with what is known by then: the first stage may be done or not.
#[test]
fn a_sign_of_life() {
    let folder = Folder::new();
    let network = long_network(&folder);
    let sheets = Folder::new();
    let sheet = sheets.file("a.sheet", "0 ".repeat(16));
    sheets.file("b.sheet", "1 ".repeat(16));
    let cases: [(&[&str], &str); 6] = [
        (&["best", &network], "searching"),
        (&["wanted", &network, "2"], "searching"),
        (&["mark", &network, &sheet], "marking"),
        (&["explain", &network, &sheet], "marking"),
        (
            &["report", &network, &sheets.name(), "-"],
            "marking 2 sheets",
        ),
        (&["mark", &network, &sheets.name()], "marking 2 sheets"),
    ];
    for (words, doing) in cases {
        let mut running = Running::new(&[words, &["--budget", "max"]].concat());
        let line = running.line_said();
        let (elapsed, sign) = line.split_once(" s, ").expect("a sign");
        let nothing_known = format!("{doing}, budget 4294967295\n");
        let of_best = ["gap ", "no timetable "]
            .iter()
            .any(|word| sign.starts_with(word));
        let known = of_best && sign.contains(" of 4294967295 tries, ");
        assert!(sign == nothing_known || known, "{line}");
        assert!(!line.contains('\r'), "no terminal: {line}");
        let seconds: u64 = elapsed
            .trim_start_matches("exam: ")
            .parse()
            .expect("seconds");
        assert!((1..20).contains(&seconds), "{line}");
    }
}

/// On a terminal, which `script` lends, there is one line, written over, and
/// blank before anything else comes.
#[test]
fn a_sign_of_life_on_a_terminal() {
    let folder = Folder::new();
    let network = long_network(&folder);
    let exam = command(&[]).get_program().to_string_lossy().into_owned();
    let words =
        format!("timeout --foreground -s INT 2.5 {exam} best {network} --budget 1000000000");
    let mut script = Command::new("script");
    let script = script
        .args(["-qec", &words, "/dev/null"])
        .stdin(Stdio::null());
    let Ok(ran) = script.output() else {
        println!("not tested: there is no command 'script' here");
        return;
    };
    let screen = String::from_utf8_lossy(&ran.stdout).into_owned();
    let (signs, last) = screen.rsplit_once(" \r").expect("a line made blank");
    assert!(signs.starts_with("\rexam: 1 s, "), "{screen}");
    assert!(!signs.contains('\n'), "{screen}");
    assert!(last.starts_with("exam: interrupted; "), "{screen}");
}

#[test]
fn no_sign_of_life_where_none_is_wanted() {
    let folder = Folder::new();
    let network = long_network(&folder);
    let sheet = folder.file("a.sheet", "0 ".repeat(16));
    for words in [
        &["best", &network][..],
        &["wanted", &network, "2"],
        &["mark", &network, &sheet],
    ] {
        let running = Running::new(&[words, &["--budget=max", "--quiet"]].concat());
        std::thread::sleep(Duration::from_millis(1_500));
        assert_eq!(running.stopped(), "");
    }
}

/// Ctrl-C: the best that is known is said, and the command ends by the signal,
/// for which a shell has status 130.
#[test]
fn an_interrupted_search_says_what_it_has() {
    let folder = Folder::new();
    let network = long_network(&folder);
    let sheet = folder.file("a.sheet", "0 ".repeat(16));
    let page = format!("{}/a.html", folder.name());
    let cases: [(&[&str], &str); 5] = [
        (&["best", &network], "gap "),
        (&["mark", &network, &sheet], "gap "),
        (&["explain", &network, &sheet], "gap "),
        (&["report", &network, &sheet, &page], "gap "),
        (&["wanted", &network, "2"], "tries "),
    ];
    for (words, has) in cases {
        // The first of its stages is short, so that the first sign has it, or the
        // next where the machine has much to do.
        let mut running = Running::new(&[words, &["--budget=1000000000"]].concat());
        let mut sign = running.line_said();
        while !sign.contains(" tries, ") {
            sign = running.line_said();
        }
        running.interrupt();
        let (said, status) = running.ended();
        let stopped = format!("exam: interrupted; stopped {has}");
        assert!(said.starts_with(&stopped), "{sign}{said}");
        assert_eq!(said.contains(" starts 0 "), has == "gap ", "{said}");
        assert_eq!((said.lines().count(), status.signal()), (1, Some(2)));
    }
    // No page was written.
    assert!(!std::path::Path::new(&page).exists());
}

/// Nobody wants words then, and the signal does what it always does.
#[test]
fn an_interrupted_quiet_search() {
    let folder = Folder::new();
    let network = long_network(&folder);
    let mut running = Running::new(&["best", &network, "--budget=max", "--quiet"]);
    std::thread::sleep(Duration::from_millis(200));
    running.interrupt();
    let (said, status) = running.ended();
    assert_eq!((said.as_str(), status.signal()), ("", Some(2)));
}

/// A shell's job in the background is deaf to Ctrl-C, and stays so.
#[test]
fn an_interruption_that_is_passed_over() {
    let folder = Folder::new();
    let network = long_network(&folder);
    let exam = command(&[]).get_program().to_os_string();
    let mut shell = Command::new("sh");
    shell
        .args(["-c", "trap '' INT; exec \"$@\"", "sh"])
        .arg(exam);
    shell.args(["best", &network, "--budget=1000000000"]);
    shell.stderr(Stdio::piped());
    let mut running = Running(shell.spawn().expect("a shell"));
    running.line_said();
    running.interrupt();
    std::thread::sleep(Duration::from_millis(300));
    assert!(running.0.try_wait().expect("a state").is_none());
    assert_eq!(running.stopped(), "");
}
