//! The page of `exam report` in a real browser, at the widths of a desk and of a phone, and on
//! paper, and the texts of pictures. Where there is no Chromium the tests say that they are passed over.

use crate::common::{exam, Folder};
use papers::child::Limited;
use papers::files::{bytes_of, dense_file, sheet, sheet_bytes, valid_commands, Dice, Stated};
use std::os::unix::process::CommandExt;
use std::process::{Command, Stdio};

/// Whether Chromium is there; otherwise it is said that the test is passed over.
fn is_there() -> bool {
    let mut version = Command::new("chromium");
    version.arg("--version").stdin(Stdio::null());
    version.stdout(Stdio::null()).stderr(Stdio::null());
    let there = version.status().is_ok_and(|status| status.success());
    if !there {
        println!("passed over, there is no chromium");
    }
    there
}

/// What Chromium prints of a page. It has a folder of its own for what it keeps, and sixty
/// seconds; a start that fails, as it may on a busy machine, is tried again.
fn chromium(page: &str, more: &[&str]) -> Vec<u8> {
    for _ in 0..3 {
        let home = Folder::new();
        let mut browser = Command::new("chromium");
        browser
            .args([
                "--headless=new",
                "--no-sandbox",
                "--disable-gpu",
                "--hide-scrollbars",
            ])
            .args([
                "--disable-dev-shm-usage",
                "--no-first-run",
                "--disable-extensions",
            ])
            .arg(format!("--user-data-dir={}", home.name()))
            .args(more)
            .arg(format!("file://{page}"))
            .env("HOME", home.name())
            .stdin(Stdio::null())
            .stdout(Stdio::piped())
            .stderr(Stdio::null())
            // What hangs is ended with all that it has started.
            .process_group(0);
        let output = Limited::start(&mut browser).output();
        if output.status.success() {
            return output.stdout;
        }
    }
    panic!("chromium doesn't show {page}");
}

/// What a script finds in a page that is so wide. The page stands in a frame, since no window
/// of Chromium is as narrow as a phone's.
fn said(folder: &Folder, page: &str, width: u32, script: &str) -> String {
    let text = std::fs::read_to_string(page).expect("a page");
    let set = "document.documentElement.setAttribute('data-said', said)";
    let script = format!("<script>var said = '';\n{script}\n{set};</script></body>");
    let text = text.replace("</body>", &script);
    let text = text.replace('&', "&amp;").replace('"', "&quot;");
    let around = format!(
        "<!DOCTYPE html><meta charset=\"utf-8\"><body>\
         <iframe style=\"border:0;width:{width}px;height:900px\" srcdoc=\"{text}\"></iframe>\
         <script>onload = function () {{\
         var framed = document.querySelector('iframe').contentDocument.documentElement;\
         document.title = 'said:' + framed.getAttribute('data-said') + ':said'; }};</script>"
    );
    let copy = folder.file("copy.html", around);
    let dom = chromium(&copy, &["--dump-dom", "--window-size=1400,1000"]);
    let dom = String::from_utf8_lossy(&dom).into_owned();
    let said = dom.split_once("said:").map(|(_, behind)| behind);
    let said = said.and_then(|behind| behind.split_once(":said"));
    let (said, _) = said.unwrap_or_else(|| panic!("the script said nothing: {dom}"));
    said.to_string()
}

/// The page of a network and its sheets.
fn page(folder: &Folder, network: &str, sheets: &str, more: &[&str]) -> String {
    let page = format!("{}/page.html", folder.name());
    let ran = exam(&[&["report", network, sheets, &page, "--quiet"], more].concat());
    assert!(ran.out.starts_with(&page), "{ran:?}");
    page
}

/// A full network, with names as long as they may be.
fn full_page(folder: &Folder) -> String {
    let file = dense_file(&mut Dice::new(5), 16, 64);
    let network = folder.file("full.net", file);
    let sheets = Folder::new();
    sheets.file(&format!("{}.sheet", "n".repeat(200)), "0 ".repeat(16));
    sheets.file("short.sheet", "0");
    page(folder, &network, &sheets.name(), &["--budget", "20"])
}

/// Whatever is wide scrolls in a box of its own or is made smaller.
#[test]
fn no_page_is_wider_than_its_window() {
    if !is_there() {
        return;
    }
    let script = "var root = document.documentElement;\n\
                  said = [innerWidth, root.clientWidth, root.scrollWidth].join(' ');";
    let folder = Folder::new();
    let village = page(&folder, "samples/village.plan", "samples/village", &[]);
    let village = std::fs::rename(&village, folder.path().join("village.html"))
        .map(|()| format!("{}/village.html", folder.name()));
    for page in [village.expect("a page"), full_page(&folder)] {
        for width in [1_280, 390, 360] {
            let said = said(&folder, &page, width, script);
            assert_eq!(said, format!("{width} {width} {width}"), "{page}");
        }
    }
    // What is too wide is seen.
    let wide = format!("document.body.style.minWidth = '500px';\n{script}");
    let village = format!("{}/village.html", folder.name());
    assert_eq!(said(&folder, &village, 390, &wide), "390 390 500");
}

/// Clicks on the headings of marks, twice, names, twice, statuses and sums; what is said is the
/// order of the sheets and what the headings say of it, before and behind each.
const CLICKS: &str = "
var heads = Array.from(document.querySelectorAll('#marks thead th'));
function look() {
  var rows = Array.from(document.querySelectorAll('#marks tbody tr'));
  var names = rows.map(function (row) { return row.cells[0].textContent[0]; });
  var sorted = heads.map(function (head) { return head.getAttribute('aria-sort') || '-'; });
  said += names.join('') + ' ' + sorted.join(' ') + ';';
}
look();
[4, 4, 0, 0, 1, 3].forEach(function (column) {
  var button = heads[column].querySelector('button');
  button.focus();
  said += document.activeElement === button ? '' : 'no focus;';
  button.click();
  look();
});
said += document.getElementById('hint').hidden ? 'no hint' : 'hint';
";

/// A click sorts, the largest mark first, and a second one turns it round; sheets without a
/// mark stay last. The headings are buttons, which keys reach.
#[test]
fn a_click_sorts() {
    if !is_there() {
        return;
    }
    let folder = Folder::new();
    let sheets = Folder::new();
    for (name, starts) in [
        ("a", "0 718"),
        ("b", "0 719"),
        ("c", "0"),
        ("d", "0 1"),
        ("e", "x"),
        ("f", "0 720"),
    ] {
        sheets.file(&format!("{name}.sheet"), starts);
    }
    // Of 720 minutes both 718 and 719 have the mark 99, and the remainders decide.
    let network = folder.file("day.hex", "4C05A0 4C05A0 4300000000 4301000000 45");
    let page = page(&folder, &network, &sheets.name(), &[]);
    let ranked = exam(&["mark", &network, &sheets.name(), "--ranked"]).out;
    let ranked = ranked.lines().filter_map(|line| line.chars().next());
    assert_eq!(ranked.collect::<String>(), "fbadce");
    let expected = [
        "abcdef ascending - - - - -",
        "fbadce - - - - descending -",
        "dabfce - - - - ascending -",
        "abcdef ascending - - - - -",
        "fedcba descending - - - - -",
        "fabdce - ascending - - - -",
        "fbadce - - - descending - -",
        "hint",
    ];
    let said = said(&folder, &page, 1_280, CLICKS);
    assert_eq!(said.split(';').collect::<Vec<_>>(), expected);
}

/// On paper the sitting has pages of its own, and each sheet begins another.
#[test]
fn on_paper() {
    if !is_there() {
        return;
    }
    let folder = Folder::new();
    let page = page(&folder, "samples/village.plan", "samples/village", &[]);
    let pdf = format!("{}/page.pdf", folder.name());
    chromium(&page, &[&format!("--print-to-pdf={pdf}")]);
    let written = std::fs::read(&pdf).expect("a PDF");
    assert!(written.starts_with(b"%PDF-"));
    let text = String::from_utf8_lossy(&written).into_owned();
    let count = text.split_once("/Count ").map(|(_, behind)| behind);
    let count = count.and_then(|behind| behind.split(|sign: char| !sign.is_ascii_digit()).next());
    let count: usize = count.and_then(|count| count.parse().ok()).expect("pages");
    assert!((5..20).contains(&count), "{count} pages");
}

/// The text of a picture without its marks, which may be very many.
fn drawn(network: &str, sheet: &str, more: &[&str]) -> String {
    let ran = exam(&[&["draw", network, sheet, "-"], more].concat());
    let (_, svg) = ran.out.split_once("?>").expect("a picture");
    let mut pieces = svg.split("<use class=\"a\" ");
    let head = pieces.next().unwrap_or_default().to_string();
    let rests = pieces.filter_map(|piece| piece.split_once("/>"));
    head + &rests.map(|(_, rest)| rest).collect::<String>()
}

/// A full network whose names are as long and wide as they may be.
fn wide_plan() -> String {
    let name = |number: usize| format!("{}{number}", "W".repeat(58));
    let stops = (0..64).map(|stop| format!("stop {stop} {}\n", name(stop)));
    let line = |line: usize| {
        let stop = |call: usize| name((line * 16 + call) % 64);
        let call = |call: usize| format!("  {} at {}\n", stop(call), line * 7 + call * 5);
        let head = format!("line {} every 60\n", name(line));
        head + &(0..16).map(call).collect::<String>()
    };
    stops.chain((0..16).map(line)).collect()
}

/// A page with pictures of samples, of networks from a seed and of a full network, strips and
/// circles.
fn pictures(folder: &Folder) -> String {
    let mut dice = Dice::new(2_404);
    let full = folder.file("full.plan", wide_plan());
    let zeros = folder.file("zeros.sheet", "0 ".repeat(16));
    let mut svgs = drawn(&full, &zeros, &["--from=-2147483648"]);
    svgs += &drawn(&full, &zeros, &["--circle=63"]);
    svgs += &drawn("samples/town.hex", "samples/town/perfect.sheet", &[]);
    for _ in 0..30 {
        let commands = valid_commands(&mut dice);
        let stated = Stated::by(&commands);
        let network = folder.file("one.net", bytes_of(&commands));
        let starts = sheet(&mut dice, stated.periods.len());
        let starts = folder.file("one.bin", sheet_bytes(&starts));
        let stop = dice.pick(&stated.calls).1.to_string();
        svgs += &drawn(&network, &starts, &[]);
        svgs += &drawn(&network, &starts, &["--circle", &stop]);
    }
    folder.file("pictures.html", page_of(&svgs))
}

fn page_of(svgs: &str) -> String {
    format!("<!DOCTYPE html><body>{svgs}</body>")
}

/// No text of a picture leads out of it, and none stands in the way of another.
#[test]
fn texts_of_pictures_have_room() {
    if !is_there() {
        return;
    }
    let script = "
        function placed(text) {
          var box = text.getBoundingClientRect();
          var rim = box.width > box.height ? box.height / 5 : 0;
          return { words: text.textContent, left: box.left, right: box.right,
            top: box.top + rim, bottom: box.bottom - rim };
        }
        var count = 0;
        document.querySelectorAll('svg').forEach(function (svg) {
          var paper = svg.getBoundingClientRect();
          var texts = Array.from(svg.querySelectorAll('text')).map(placed);
          count += texts.length;
          texts.forEach(function (one, at) {
            if (one.left < paper.left || one.right > paper.right || one.bottom > paper.bottom)
              said += one.words + ' is outside; ';
            texts.slice(at + 1).forEach(function (other) {
              if (one.left < other.right && other.left < one.right &&
                  one.top < other.bottom && other.top < one.bottom)
                said += one.words + ' is over ' + other.words + '; ';
            });
          });
        });
        said += count > 3000 ? 'looked at' : count;";
    let folder = Folder::new();
    let page = pictures(&folder);
    assert_eq!(said(&folder, &page, 1_280, script), "looked at");
    // What has no room is seen.
    let moved = "var texts = document.querySelectorAll('text');\n\
                 texts[0].setAttribute('x', 990); texts[1].setAttribute('y', 30);";
    let moved = said(&folder, &page, 1_280, &format!("{moved}{script}"));
    assert!(
        moved.contains(" is outside; ") && moved.len() > 20,
        "{moved}"
    );
}
