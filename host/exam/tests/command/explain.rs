//! `exam explain`.

use crate::common::{exam, exam_on, exam_with, Folder, Ran, HEX, P9};
use engine::{Arrival, Sheet};
use papers::files::{sheet, sheet_bytes, Dice};
use papers::small::small_file_for_gaps;
use std::cmp::Ordering;
use std::collections::BTreeMap;

const LEGEND_BESIDE_KEY: &str = "
A stop's gap is the fewest minutes between two arrivals there; under each stop are two
that are so far apart. The sheet loses where its gap is smaller than the key's, and gains
where it is larger; 'least' is its least gap.

";

const LEGEND: &str = "
A stop's gap is the fewest minutes between two arrivals there; under each stop are two
that are so far apart. 'least' is the sheet's least gap.

";

/// Two lines of 15 and 20 that meet at the market.
const MARKET: &str = "\
line Red every 15
  Market at 8
line Green every 20
  Market at 17
";

/// Explains a sheet of a typed network.
fn typed(network: &str, starts: &str, more: &[&str]) -> Ran {
    exam_on("explain", (network, "--typed"), starts, more)
}

/// Explains a sheet of the plan.
fn market(starts: &str, more: &[&str]) -> Ran {
    exam_on("explain", (MARKET, "--plan"), starts, more)
}

/// Demands the text line, the sentences and the stops, beside a key.
fn beside_key(ran: &Ran, line: &str, sentences: &str, stops: &str) {
    let text = format!("{line}\n\n{sentences}{LEGEND_BESIDE_KEY}{stops}");
    ran.printed(&text, 0);
}

/// The same beside the best timetable.
fn beside_best(ran: &Ran, line: &str, sentences: &str, stops: &str) {
    let sentences = format!("{sentences}The key is the best timetable.\n");
    beside_key(ran, line, &sentences, stops);
}

/// By hand: at 37 and 38 the lines are one minute apart.
#[test]
fn the_least_gap_decides() {
    let line = "gap 1 sum 1 best gap 2 sum 2 below mark 50 remainder 0 tries 21";
    let sentences = "Below the best: the least gap decides, 1 minute here and 2 in the key.\n\
                     The least gap is at stop 0 'Market'.\n";
    let stops = "stop 0 'Market'  gap 1  key 2  loses  least\n  \
                 time 37  day 0  00:37  line 1  Green\n  \
                 time 38  day 0  00:38  line 0  Red\n";
    beside_best(&market("0 0", &[]), line, sentences, stops);
    // The example of help, and the same without names.
    let help = exam(&["explain", "--help"]).out;
    let set_in: String = stops.lines().map(|line| format!("  {line}\n")).collect();
    assert!(help.contains(&set_in), "no {set_in} in {help}");
    let folder = Folder::new();
    let zeros = folder.file("zeros.sheet", "0 0");
    let [sentences, stops] = [sentences, stops].map(|text| {
        text.replace(" 'Market'", "")
            .replace("  Green", "")
            .replace("  Red", "")
    });
    beside_best(&exam(&["explain", HEX, &zeros]), line, &sentences, &stops);
}

/// P9: least gaps are equal, so that the mark is 100, and sums decide.
#[test]
fn the_sum_decides() {
    let line = "gap 3 sum 10 best gap 3 sum 11 below mark 100 remainder 0 tries 31";
    let sentences = "Below the best: the least gap is 3 minutes here and in the key.\n\
                     So the sum of the gaps decides, 10 here and 11 in the key.\n\
                     The sheet loses at stops 0 and 1.\n\
                     The sheet gains at stop 2.\n";
    let stops = "stop 0  gap 3  key 4  loses  least\n  \
                 time 0  day 0  00:00  line 0\n  time 3  day 0  00:03  line 1\n\
                 stop 1  gap 3  key 4  loses  least\n  \
                 time 47  day 0  00:47  line 0\n  time 50  day 0  00:50  line 1\n\
                 stop 2  gap 4  key 3  gains\n  \
                 time 41  day 0  00:41  line 1\n  time 45  day 0  00:45  line 0\n";
    beside_best(&typed(P9, "0 3", &[]), line, sentences, stops);
}

#[test]
fn equal_to_the_best() {
    let line = "gap 2 sum 2 best gap 2 sum 2 equal mark 100 remainder 0 tries 21";
    let equal = "Equal to the best: the least gap and the sum of the gaps are those of the key.\n";
    let sentences = format!("{equal}The least gap is 2 minutes, at stop 0 'Market'.\n");
    let stops = "stop 0 'Market'  gap 2  key 2  same  least\n  \
                 time 38  day 0  00:38  line 0  Red\n  \
                 time 40  day 0  00:40  line 1  Green\n";
    beside_best(&market("0 3", &[]), line, &sentences, stops);
}

/// A loop meets itself: both arrivals are those of one line, at two minutes or at one.
#[test]
fn a_line_by_itself() {
    let equal = "Equal to the best: the least gap and the sum of the gaps are those of the key.\n";
    let line = "gap 2 sum 2 best gap 2 sum 2 equal mark 100 remainder 0 tries 1";
    let sentences = format!("{equal}The least gap is 2 minutes, at stop 0.\n");
    let stops = "stop 0  gap 2  key 2  same  least\n  \
                 time 3  day 0  00:03  line 0\n  time 5  day 0  00:05  line 0\n";
    let network = "4C000A 4300000003 4300000005 45";
    beside_best(&typed(network, "0", &[]), line, &sentences, stops);
    let line = "gap 0 sum 0 best gap 0 sum 0 equal mark 100 remainder 0 tries 1";
    let sentences = format!("{equal}The least gap is 0 minutes, at stop 0.\n");
    let stops = "stop 0  gap 0  key 0  same  least\n  \
                 time 3  day 0  00:03  line 0\n  time 3  day 0  00:03  line 0\n";
    let network = "4C000A 4300000003 430000000D 45";
    beside_best(&typed(network, "0", &[]), line, &sentences, stops);
}

/// Two lines at one minute; the best keeps them half a period apart.
#[test]
fn at_one_minute() {
    let line = "gap 0 sum 0 best gap 5 sum 5 below mark 0 remainder 0 tries 11";
    let sentences = "Below the best: the least gap decides, 0 minutes here and 5 in the key.\n\
                     The least gap is at stop 0.\n";
    let stops = "stop 0  gap 0  key 5  loses  least\n  \
                 time 6  day 0  00:06  line 0\n  time 6  day 0  00:06  line 1\n";
    let network = "4C000A 4C000A 4300000000 4301000000 45";
    beside_best(&typed(network, "6 16", &[]), line, sentences, stops);
}

/// Line 2 is alone at stop 1; its second arrival is behind the cycle.
#[test]
fn one_call_alone() {
    let network = "4C003C 4C003C 4C003C 4300000000 4301000000 4302010000 45";
    let ran = typed(network, "0 5 59", &[]);
    let stops = "stop 0  gap 5  key 30  loses  least\n  \
                 time 0  day 0  00:00  line 0\n  time 5  day 0  00:05  line 1\n\
                 stop 1  gap 60  key 60  same\n  \
                 one call alone, of line 2: the gap is the line's period\n  \
                 time  59  day 0  00:59  line 2\n  time 119  day 0  01:59  line 2\n";
    assert!(ran.out.ends_with(stops), "{ran:?}");
    let ring = exam(&["explain", "samples/loop.plan", "samples/loop/perfect.sheet"]);
    let alone = "  one call alone, of line 0 'Ring bus': the gap is the line's period\n";
    assert!(ring.status == 0 && ring.out.contains(alone), "{ring:?}");
}

/// The gaps are there, and no key; status and words are those of `exam mark`.
#[test]
fn undecided() {
    let text = "undecided gap 1 sum 1 tries 20\n\n\
                Undecided: the best timetable isn't known, so that there is no key.\n\
                The least gap is 1 minute, at stop 0 'Market'.\n";
    let stops = "stop 0 'Market'  gap 1  least\n  \
                 time 37  day 0  00:37  line 1  Green\n  \
                 time 38  day 0  00:38  line 0  Red\n";
    let words = "exam: the budget was used up before the best timetable was known (--budget N)\n  \
                 a budget of 21 always suffices for this network\n";
    for more in [&["--budget", "20"][..], &["--budget=20", "--quiet"]] {
        market("0 0", more).said(&format!("{text}{LEGEND}{stops}"), 3, words);
    }
    let smallest_first = typed(P9, "0 3", &["--budget", "2"]).out;
    let heads: Vec<&str> = smallest_first
        .lines()
        .filter(|line| line.starts_with("stop "))
        .collect();
    let expected = [
        "stop 0  gap 3  least",
        "stop 1  gap 3  least",
        "stop 2  gap 4",
    ];
    assert_eq!(heads, expected);
}

/// The words of a key that was given can't be taken for those of a mark.
#[test]
fn a_key_that_was_given() {
    let folder = Folder::new();
    let key = folder.file("key.sheet", "0 3");
    let line = "gap 1 sum 1 key gap 2 sum 2 below by this key 50 remainder 0";
    let sentences = format!(
        "Below the key given: the least gap decides, 1 minute here and 2 in the key.\n\
         The least gap is at stop 0 'Market'.\n\
         The key is {key}, which needn't be the best: nothing was searched.\n\
         What the sheet has by this key is no mark.\n"
    );
    let stops = "stop 0 'Market'  gap 1  key 2  loses  least\n  \
                 time 37  day 0  00:37  line 1  Green\n  \
                 time 38  day 0  00:38  line 0  Red\n";
    let below = market("0 0", &["--key", &key]);
    beside_key(&below, line, &sentences, stops);
    for words in [" best gap ", " mark 50", "tries"] {
        assert!(!below.out.contains(words), "{below:?}");
    }
    let help = exam(&["explain", "--help"]).out;
    assert!(help.contains(&format!("\n  {line}\n")), "{help}");
}

#[test]
fn above_and_equal_to_a_key() {
    let folder = Folder::new();
    // In bytes, by the flag.
    let [sheet, key] = [("a", [0, 3]), ("key", [0, 0])]
        .map(|(name, starts)| folder.file(name, sheet_bytes(&starts)));
    let above = exam(&["explain", HEX, &sheet, "--sheet-bytes", "--key", &key]);
    let line = "gap 2 sum 2 key gap 1 sum 1 above by this key 200 remainder 0\n\n\
                Above the key given: the least gap decides, 2 minutes here and 1 in the key.\n";
    assert!(
        above.status == 0 && above.out.starts_with(line),
        "{above:?}"
    );
    let stop = "\nstop 0  gap 2  key 1  gains  least\n";
    assert!(above.out.contains(stop), "{above:?}");
    let equal = exam(&["explain", HEX, &sheet, "--sheet-bytes", "--key", &sheet]);
    let line = "gap 2 sum 2 key gap 2 sum 2 equal by this key 100 remainder 0\n\n\
                Equal to the key given: the least gap and the sum of the gaps are those of the \
                key.\n";
    assert!(
        equal.status == 0 && equal.out.starts_with(line),
        "{equal:?}"
    );
}

#[test]
fn a_key_above_by_the_sum() {
    let folder = Folder::new();
    let key = folder.file("key.sheet", "0 3");
    let line = "gap 3 sum 11 key gap 3 sum 10 above by this key 100 remainder 0\n\n\
                Above the key given: the least gap is 3 minutes here and in the key.\n\
                So the sum of the gaps decides, 11 here and 10 in the key.\n\
                The sheet loses at stop 2.\n\
                The sheet gains at stops 0 and 1.\n";
    let ran = typed(P9, "0 4", &["--key", &key]);
    assert!(ran.status == 0 && ran.out.starts_with(line), "{ran:?}");
}

/// Which of the two doesn't fit is said; of two the sheet.
#[test]
fn refused() {
    let folder = Folder::new();
    let [good, short] = [("good.sheet", "0 3"), ("short.sheet", "0")]
        .map(|(name, starts)| folder.file(name, starts));
    let misfit = "exam: refused 15 at 0: the sheet hasn't one start for each line\n  ";
    let said = |words: &[&str], more: &str| {
        let words = [&["explain", HEX][..], words].concat();
        exam(&words).said("refused 15 at 0\n", 1, &format!("{misfit}{more}\n"));
    };
    said(&[&short], "lines: 2; sheet: 1 starts");
    let sheet = "the sheet doesn't fit: lines: 2; sheet: 1 starts";
    said(&[&short, "--key", &good], sheet);
    said(&[&short, "--key", &short], sheet);
    let key = "the key doesn't fit: lines: 2; sheet: 1 starts";
    said(&[&good, "--key", &short], key);
    let network = folder.file("bad.hex", "4C000F 4300000008");
    let words = [
        "refused 1 at 8: the file ends where a command is due",
        "bad.hex",
    ];
    for more in [&[][..], &["--key", &short]] {
        let ran = exam(&[&["explain", &network, &good], more].concat());
        ran.told("refused 1 at 8\n", 1, &words);
    }
}

#[test]
fn trouble() {
    let folder = Folder::new();
    let good = folder.file("good.sheet", "0 3");
    let told = |more: &[&str], message: &str| {
        let words = [&["explain", HEX, &good], more].concat();
        exam(&words).told("", 2, &[message]);
    };
    told(
        &["--key", "no.sheet"],
        "exam: no.sheet: there is no such file\n",
    );
    told(
        &["--key", "samples"],
        "exam: samples is a folder, not a file\n",
    );
    told(
        &["--key"],
        "exam: --key wants a sheet\ntry: exam explain --help\n",
    );
    told(&["--key=a", "--key=b"], "exam: --key is given twice\n");
    let both = "exam: --key and --budget contradict each other: beside a key nothing is searched\n\
                try: exam explain --help\n";
    told(&["--key", &good, "--budget=5"], both);
    let words = ["explain", HEX, "-", "--key", "-", "--sheet-numbers"];
    let once =
        "exam: standard input ('-') can be read for one file only, and not for the key too\n";
    exam_with(&words, b"0 3").said("", 2, once);
    let words = ["explain", HEX, &good, "--key", "-", "--sheet-numbers"];
    let ran = exam_with(&words, b"0 0");
    let key = "The key is standard input, which needn't be the best";
    assert!(ran.status == 0 && ran.out.contains(key), "{ran:?}");
}

/// Any name is put out as it is, and a file's is written out where a terminal would obey it.
#[test]
fn names() {
    let folder = Folder::new();
    let long = "x".repeat(60);
    let plan =
        format!("line <a> & \"b\" every 15\n  {long} at 8\nline 'Grün' every 20\n  {long} at 17\n");
    let network = folder.file("odd.plan", plan);
    let sheet = folder.file("a.sheet", "0 0");
    let key = folder.file(&format!("k\u{1B}[2J\n{}.sheet", "y".repeat(200)), "0 3");
    let ran = exam(&["explain", &network, &sheet, "--key", &key]);
    let stop = format!("stop 0 '{long}'  gap 1  key 2  loses  least\n");
    for piece in [
        &stop,
        "  line 0  <a> & \"b\"\n",
        "  line 1  'Grün'\n",
        "k\\u{1b}[2J\\u{a}yyyyyyyy",
    ] {
        assert!(ran.out.contains(piece), "no '{piece}' in {ran:?}");
    }
    assert!(!ran.out.contains('\u{1B}'));
}

/// A stop as it is printed.
#[derive(Default)]
struct Told {
    gap: u32,
    key: u32,
    words: Vec<String>,
    /// Time and line of each arrival.
    arrivals: Vec<(i64, u8)>,
}

fn number<T: std::str::FromStr>(word: &str) -> T {
    word.parse()
        .unwrap_or_else(|_| panic!("'{word}' is no number"))
}

/// What is printed of each stop, by its number.
fn told(text: &str) -> BTreeMap<u8, Told> {
    let mut stops: BTreeMap<u8, Told> = BTreeMap::new();
    let mut latest = 0;
    for line in text.lines() {
        let words: Vec<&str> = line.split_whitespace().collect();
        match words[..] {
            ["stop", stop, "gap", gap, "key", key, ref words @ ..] => {
                latest = number(stop);
                let told = Told {
                    gap: number(gap),
                    key: number(key),
                    words: words.iter().map(|word| word.to_string()).collect(),
                    arrivals: Vec::new(),
                };
                assert!(stops.insert(latest, told).is_none(), "{text}");
            }
            ["time", time, "day", _, _, "line", line] => {
                let told = stops.get_mut(&latest).expect("a stop above");
                told.arrivals.push((number(time), number(line)));
            }
            _ => {}
        }
    }
    stops
}

/// A stop's words are by its gaps, and its arrivals on the board and as far apart as the gap.
fn is_so(told: &Told, least: u32, is_arrival: impl Fn(i64, u8) -> bool) {
    let change = match told.gap.cmp(&told.key) {
        Ordering::Less => "loses",
        Ordering::Equal => "same",
        Ordering::Greater => "gains",
    };
    let least = (told.gap == least).then_some("least");
    let words: Vec<&str> = [change].into_iter().chain(least).collect();
    assert_eq!(told.words, words);
    let [one, other] = told.arrivals[..] else {
        panic!("{} arrivals", told.arrivals.len());
    };
    assert_eq!(other.0 - one.0, i64::from(told.gap));
    for (time, line) in [one, other] {
        assert!(is_arrival(time, line), "line {line} at {time}");
    }
}

/// What is printed is the engine's own, on seeded files: the first line that of `exam mark`,
/// gaps whose least and sum are the rating, arrivals of the stop's board.
#[test]
fn on_seeded_files() {
    let mut dice = Dice::new(315);
    let folder = Folder::new();
    let mut seen: BTreeMap<String, usize> = BTreeMap::new();
    for _ in 0..150 {
        let (file, net) = small_file_for_gaps(&mut dice, 2_000);
        let starts = sheet(&mut dice, net.lines());
        let network = folder.file("one.net", &file);
        let path = folder.file("one.bin", sheet_bytes(&starts));
        let ran = exam(&["explain", &network, &path]);
        let marked = exam(&["mark", &network, &path]);
        assert!(
            ran.status == 0 && ran.out.starts_with(&marked.out),
            "{ran:?}"
        );
        let sheet = Sheet::of_starts(&starts);
        let stops = told(&ran.out);
        let rating = engine::rate(&file, &sheet).expect("a sheet that fits");
        let gaps = || stops.values().map(|told| told.gap);
        assert_eq!(
            (gaps().min(), gaps().sum()),
            (Some(rating.least), rating.sum)
        );
        for (stop, told) in &stops {
            is_so(told, rating.least, |time, line| {
                let board = engine::board(&file, &sheet, u32::from(*stop), time as i32, 1);
                board.expect("a board").contains(&Arrival { time, line })
            });
            *seen.entry(told.words[0].clone()).or_default() += 1;
        }
    }
    let words = ["loses", "same", "gains"];
    assert!(words.iter().all(|word| seen[*word] > 5), "{seen:?}");
}
