//! Every call on seeded files and sheets of every kind.

use engine::{Hundred, Mark, Refusal, Sheet};
use papers::answers::{
    arrivals, classed, counts, gaps, marked, out_of_hundred, rating_or_refusal, refusal, sought,
    walked,
};
use papers::files::{
    any_budget, any_file, any_gap, any_sheet_bytes, any_window, random_bytes, roomy_file,
    sheet_bytes, Dice, GROUNDS,
};
use papers::sections;
use papers::sections::archive::archive_form;
use papers::sections::board::{board_bytes, Arrival, Window, MAX_LENGTH};
use papers::sections::gaps::{gaps_bytes, NO_GAP};
use papers::sections::hundred::by_key_bytes;
use papers::sections::network::{read, Network, LATEST_EDITION};
use papers::sections::sheets::{better_bytes, mark_bytes, rate_bytes, weighted_bytes, Better};
use papers::sections::walk::{walk, Answer};
use papers::sections::wanted::{seek, Wanted};
use std::array::from_fn;
use std::fmt::Debug;
use std::panic::{catch_unwind, AssertUnwindSafe};
use std::sync::atomic::{AtomicUsize, Ordering};

const USUAL_CASES: usize = 20_000;

/// EXAM_CASES asks for more cases, never for fewer.
fn cases() -> usize {
    let asked = std::env::var("EXAM_CASES").map(|number| number.parse());
    let asked = asked.map_or(0, |number| number.expect("EXAM_CASES is a number"));
    USUAL_CASES.max(asked)
}

/// What a case was, to see that every kind came.
#[derive(Clone, Copy, Debug, Default, PartialEq, Eq)]
struct Kind {
    /// The ground that rate gave, 0 if it rated.
    ground: u32,
    /// Finished, stopped, stopped with none.
    search: Option<usize>,
    /// Found, none, stopped.
    wanted: Option<usize>,
    /// First, second, neither.
    better: usize,
    /// Decided equal, decided below, undecided.
    mark: Option<usize>,
    /// Of a decided mark: 0, a part of the best, one with a remainder, 100.
    hundred: Option<usize>,
    /// The mark beside another sheet is above 100.
    above_key: bool,
    /// Empty, with arrivals, refused by its stop, its length, its rows.
    board: Option<usize>,
    /// Of rated gaps: with a lone stop, a line twice at a stop, a gap of 0, one above 8 bits,
    /// stop 63 served.
    gaps: [bool; 5],
    empty: bool,
    very_long: bool,
    /// Fewer classes than served stops.
    alike: bool,
    /// The archive form isn't the file itself.
    untidy: bool,
    /// The edition, 0 if the file is refused.
    edition: u8,
}

/// Compares every call on the case of a number.
fn case(number: usize) -> Kind {
    let mut dice = Dice::new(0x0EE0_0000_0000 + number as u64);
    let file = any_file(&mut dice);
    let net = read(&file).map_err(refusal);
    let lines = net
        .as_ref()
        .map_or_else(|_| dice.below(6), |net| net.lines());
    let sheets = [0, 1].map(|_| any_sheet_bytes(&mut dice, lines));
    let mut kind = Kind {
        empty: file.is_empty(),
        very_long: file.len() >= 10_000,
        edition: net.as_ref().map_or(0, |net| net.edition),
        ..Kind::default()
    };
    assert_eq!(
        engine::read(&file),
        net.as_ref().map(counts).map_err(|&why| why)
    );
    compare_classes(&file, &net, &mut kind);
    compare_search(&mut dice, &file, &net, &mut kind);
    compare_wanted(&mut dice, &file, &net, &mut kind);
    compare_sheets(&mut dice, &file, &net, &sheets, &mut kind);
    if dice.once_in(2) {
        compare_roomy_mark(&mut dice, &mut kind);
    }
    compare_archive(&mut dice, &file, &net, &sheets, &mut kind);
    compare_board(&mut dice, &file, &sheets[0], &mut kind);
    compare_gaps(&mut dice, &file, &sheets[0], &mut kind);
    kind
}

fn compare_classes(file: &[u8], net: &Result<Network, Refusal>, kind: &mut Kind) {
    let found = engine::classes(file);
    match net {
        Err(why) => assert_eq!(found, Err(*why)),
        Ok(net) => {
            let paper = sections::classes::classes(net);
            kind.alike = paper.count < net.served_stops().len();
            assert_eq!(found, Ok(classed(paper)));
        }
    }
}

fn compare_search(dice: &mut Dice, file: &[u8], net: &Result<Network, Refusal>, kind: &mut Kind) {
    let budget = any_budget(dice);
    let found = engine::search(file, budget);
    match net {
        Err(why) => assert_eq!(found, Err(*why)),
        Ok(net) => {
            let paper = walk(net, budget);
            let ended = match paper.answer {
                Answer::Finished { .. } => 0,
                Answer::Stopped { .. } => 1,
                Answer::StoppedWithNone { .. } => 2,
            };
            assert_eq!(found.map(walked), Ok(paper));
            kind.search = Some(ended);
        }
    }
}

/// On the file, or in its place on one where lines can keep away from each other.
fn compare_wanted(dice: &mut Dice, file: &[u8], net: &Result<Network, Refusal>, kind: &mut Kind) {
    let roomy = dice.once_in(2).then(|| roomy_file(dice));
    let file = roomy.as_deref().unwrap_or(file);
    let (gap, budget) = (any_gap(dice, file), any_budget(dice));
    let found = engine::wanted(file, gap, budget);
    let net = match roomy {
        Some(_) => read(file).map_err(refusal),
        None => net.clone(),
    };
    match net {
        Err(why) => assert_eq!(found, Err(why)),
        Ok(net) => {
            let paper = seek(&net, gap, budget);
            let ended = match paper.answer {
                Wanted::Found { .. } => 0,
                Wanted::None { .. } => 1,
                Wanted::Stopped { .. } => 2,
            };
            assert_eq!(found.map(sought), Ok(paper));
            kind.wanted = Some(ended);
        }
    }
}

fn compare_sheets(
    dice: &mut Dice,
    file: &[u8],
    net: &Result<Network, Refusal>,
    [first, second]: &[Vec<u8>; 2],
    kind: &mut Kind,
) {
    let [one, other] = [first, second].map(|bytes| Sheet::of_bytes(bytes.clone()));
    let paper = rating_or_refusal(rate_bytes(file, first));
    kind.ground = paper.map_or_else(|why| why.ground.number(), |_| 0);
    assert_eq!(engine::rate(file, &one), paper);
    let paper = rating_or_refusal(weighted_bytes(file, first));
    assert_eq!(engine::weighted(file, &one), paper);
    let (expected, at) = match better_bytes(file, first, second) {
        Better::First => (engine::Better::First, 0),
        Better::Second => (engine::Better::Second, 1),
        Better::Neither => (engine::Better::Neither, 2),
    };
    assert_eq!(engine::better(file, &one, &other), expected);
    kind.better = at;
    let by_key = by_key_bytes(file, first, second).map(out_of_hundred);
    let by_key = by_key.map_err(refusal);
    assert_eq!(engine::mark_by_key(file, &one, &other), by_key);
    kind.above_key = by_key.is_ok_and(|it| it.mark > 100);
    let budget = any_budget(dice);
    compare_mark(file, first, budget, kind);
    // Candidates hand in the best timetable more often than chance does.
    if let (Ok(net), true) = (net, dice.once_in(4)) {
        if let Some(starts) = walk(net, budget).starts {
            compare_mark(file, &sheet_bytes(&starts), budget, kind);
        }
    }
}

/// Where lines can keep away from each other there are marks between 0 and 100.
fn compare_roomy_mark(dice: &mut Dice, kind: &mut Kind) {
    let file = roomy_file(dice);
    let lines = read(&file).expect("a valid file").lines();
    let (sheet, budget) = (any_sheet_bytes(dice, lines), any_budget(dice));
    compare_mark(&file, &sheet, budget, kind);
}

fn compare_mark(file: &[u8], sheet: &[u8], budget: u32, kind: &mut Kind) {
    let paper = mark_bytes(file, sheet, budget).map(marked).map_err(refusal);
    let found = engine::mark(file, &Sheet::of_bytes(sheet.to_vec()), budget);
    assert_eq!(found, paper);
    kind.mark = paper.ok().map(|mark| match mark {
        Mark::Decided { equal: true, .. } => 0,
        Mark::Decided { equal: false, .. } => 1,
        Mark::Undecided { .. } => 2,
    });
    if let Ok(Mark::Decided { hundred, .. }) = paper {
        kind.hundred = Some(match hundred {
            Hundred { remainder: 1.., .. } => 2,
            Hundred { mark: 0, .. } => 0,
            Hundred { mark: 100, .. } => 3,
            _ => 1,
        });
    }
}

/// The board beside the papers', in the wrapper's rows, which are long enough, and in the
/// caller's.
fn compare_board(dice: &mut Dice, file: &[u8], sheet: &[u8], kind: &mut Kind) {
    let window = any_window(dice, file);
    let most = 32 * window.length.min(MAX_LENGTH) as usize;
    let (mut times, mut lines) = (vec![0; most], vec![0; most]);
    let paper = board_bytes(file, sheet, window, &mut times, &mut lines);
    let list = paper.map(|count| {
        let listed = times[..count].iter().zip(&lines);
        let listed = listed.map(|(&time, &line)| Arrival { time, line });
        arrivals(&listed.collect::<Vec<Arrival>>())
    });
    let handed = Sheet::of_bytes(sheet.to_vec());
    let found = engine::board(file, &handed, window.stop, window.first, window.length);
    assert_eq!(found, list.map_err(refusal), "{window:?}");
    // A place too few, just enough, or some more.
    let [times, lines] = [0, 1].map(|_| (paper.unwrap_or(3) + dice.below(6)).saturating_sub(1));
    compare_board_rows(file, sheet, window, (times, lines), kind);
}

fn compare_board_rows(
    file: &[u8],
    sheet: &[u8],
    window: Window,
    (times, lines): (usize, usize),
    kind: &mut Kind,
) {
    let (mut time_row, mut line_row) = (vec![-1; times], vec![99; lines]);
    let (mut times, mut lines) = (time_row.clone(), line_row.clone());
    let paper = board_bytes(file, sheet, window, &mut times, &mut lines);
    let found = engine::board_into(
        file,
        &Sheet::of_bytes(sheet.to_vec()),
        window.stop,
        window.first,
        window.length,
        &mut time_row,
        &mut line_row,
    );
    let expected = paper.map(|count| count as u32).map_err(refusal);
    assert_eq!(found, expected, "{window:?}");
    assert!((time_row, line_row) == (times, lines), "{window:?}");
    kind.board = match paper {
        Ok(0) => Some(0),
        Ok(_) => Some(1),
        Err(why) if why.number == 8 && why.place == 0 => Some(2),
        Err(why) if why.number == 22 => Some(3),
        Err(why) if why.number == 23 => Some(4),
        Err(_) => None,
    };
}

/// The gaps beside the papers', in the wrapper's row and in the caller's, which a refusal
/// leaves; and the rating beside them is that of the rate call.
fn compare_gaps(dice: &mut Dice, file: &[u8], sheet: &[u8], kind: &mut Kind) {
    let before: [u16; 64] = from_fn(|_| dice.bits() as u16);
    let [mut row, mut found_row] = [before; 2];
    let paper = gaps_bytes(file, sheet, &mut row);
    let handed = Sheet::of_bytes(sheet.to_vec());
    let found = engine::gaps_into(file, &handed, &mut found_row);
    assert_eq!((found, found_row), (rating_or_refusal(paper), row));
    assert_eq!(engine::rate(file, &handed), found);
    let whole = paper.map(|rating| gaps(row, rating)).map_err(refusal);
    assert_eq!(engine::gaps(file, &handed), whole);
    if let (Ok(rating), Ok(net)) = (paper, read(file)) {
        kind.gaps = kinds_of_gaps(&net, &row);
        let served = row.iter().filter(|&&gap| gap != NO_GAP);
        assert_eq!(rating.sum, served.map(|&gap| u32::from(gap)).sum());
        assert_eq!(Some(rating.least), row.iter().min().map(|&gap| gap.into()));
    }
}

fn kinds_of_gaps(net: &Network, row: &[u16; 64]) -> [bool; 5] {
    let calls = || (0..64).map(|stop| net.calls_at(stop));
    let large = |gap: &u16| (256..NO_GAP).contains(gap);
    [
        calls().any(|calls| calls.len() == 1),
        calls().any(|calls| calls.windows(2).any(|two| two[0].line == two[1].line)),
        row.contains(&0),
        row.iter().any(large),
        row[63] != NO_GAP,
    ]
}

/// The archive form beside the papers', in a row that is longer by some bytes;
/// and every call answers the same on the file and on its archive form.
fn compare_archive(
    dice: &mut Dice,
    file: &[u8],
    net: &Result<Network, Refusal>,
    sheets: &[Vec<u8>; 2],
    kind: &mut Kind,
) {
    let form = engine::archive(file);
    let paper = net.as_ref().map(archive_form).map_err(|&why| why);
    assert_eq!(form, paper);
    let guard = random_bytes(dice, 1_340);
    let mut row = guard.clone();
    let length = engine::archive_into(file, &mut row);
    let Ok(form) = form else {
        assert_eq!((length, row), (form.map(|form| form.len()), guard));
        return;
    };
    assert_eq!(length, Ok(form.len()));
    assert_eq!(row, [&form, &guard[form.len()..]].concat());
    kind.untidy = form != file;
    let asked = (any_gap(dice, file), any_budget(dice));
    let sheets = sheets.clone().map(Sheet::of_bytes);
    let on_form = answers(&form, &sheets, asked);
    assert_eq!(answers(file, &sheets, asked), on_form);
}

/// What every call answers on a file, with a wanted gap and a budget.
fn answers(
    file: &[u8],
    [first, second]: &[Sheet; 2],
    (gap, budget): (u16, u32),
) -> impl PartialEq + Debug {
    (
        engine::read(file),
        engine::rate(file, first),
        engine::weighted(file, first),
        engine::classes(file),
        engine::search(file, budget),
        engine::wanted(file, gap, budget),
        engine::better(file, first, second),
        engine::mark(file, first, budget),
        engine::mark_by_key(file, first, second),
        engine::archive(file),
        // Tuples of more than twelve can't be compared.
        (
            engine::board(file, first, 0, -60, 120),
            engine::gaps(file, first),
        ),
    )
}

/// The cases on two threads, which call the engine at once.
fn all_kinds(cases: usize) -> Vec<Kind> {
    let next = AtomicUsize::new(0);
    let work = || {
        let mut kinds = Vec::new();
        loop {
            let number = next.fetch_add(1, Ordering::Relaxed);
            if number >= cases {
                return kinds;
            }
            let kind = catch_unwind(AssertUnwindSafe(|| case(number)));
            kinds.push(kind.unwrap_or_else(|_| panic!("case {number} differs, see above")));
        }
    };
    std::thread::scope(|scope| {
        let threads = [scope.spawn(work), scope.spawn(work)];
        threads
            .map(|thread| thread.join().expect("no case differs"))
            .concat()
    })
}

/// How many files were in each edition.
fn editions(kinds: &[Kind]) -> [usize; LATEST_EDITION as usize] {
    let editions = from_fn(|before| {
        let in_it = |kind: &&Kind| usize::from(kind.edition) == before + 1;
        kinds.iter().filter(in_it).count()
    });
    println!("each edition, from 1: {editions:?}");
    editions
}

/// How many boards were of each kind.
fn boards(kinds: &[Kind]) -> [usize; 5] {
    let boards = from_fn(|at| kinds.iter().filter(|kind| kind.board == Some(at)).count());
    println!("boards empty, with arrivals, refused by 8, 22, 23: {boards:?}");
    boards
}

/// How many rows of gaps were of each kind.
fn rows_of_gaps(kinds: &[Kind]) -> [usize; 5] {
    let rows = from_fn(|at| kinds.iter().filter(|kind| kind.gaps[at]).count());
    println!("gaps with a lone stop, a line twice, 0, above 255, stop 63: {rows:?}");
    rows
}

#[test]
fn seeded_files_and_sheets() {
    let cases = cases();
    let kinds = all_kinds(cases);
    assert_eq!(kinds.len(), cases);
    let count = |test: &dyn Fn(&Kind) -> bool| kinds.iter().filter(|kind| test(kind)).count();
    let grounds = GROUNDS.map(|ground| count(&|kind| kind.ground == u32::from(ground)));
    let [rated, unfit] = [0, 15].map(|ground| count(&|kind| kind.ground == ground));
    let searches = [0, 1, 2].map(|end| count(&|kind| kind.search == Some(end)));
    let wanted = [0, 1, 2].map(|end| count(&|kind| kind.wanted == Some(end)));
    let betters = [0, 1, 2].map(|at| count(&|kind| kind.better == at));
    let marks = [0, 1, 2].map(|at| count(&|kind| kind.mark == Some(at)));
    let hundreds = [0, 1, 2, 3].map(|at| count(&|kind| kind.hundred == Some(at)));
    let above_key = count(&|kind| kind.above_key);
    let [long, empty] = [count(&|kind| kind.very_long), count(&|kind| kind.empty)];
    let [alike, untidy] = [count(&|kind| kind.alike), count(&|kind| kind.untidy)];
    println!("{cases} cases; rated {rated}, refused by 15 {unfit}, by the file {grounds:?}");
    println!("searches finished, stopped, stopped with none: {searches:?}");
    println!("wanted gaps found, none, stopped: {wanted:?}");
    println!("better first, second, neither: {betters:?}");
    println!("marks equal, below, undecided: {marks:?}");
    println!("marks of 0, a part, with a remainder, 100: {hundreds:?}; above a key {above_key}");
    println!("very long {long}, empty {empty}, with alike stops {alike}, untidy {untidy}");
    // The kinds that come least often are some twenty in 20,000.
    let least = cases / 1_000;
    let of_kinds = [
        &grounds[..],
        &searches,
        &wanted,
        &betters,
        &marks,
        &hundreds,
        &editions(&kinds),
        &boards(&kinds),
        &rows_of_gaps(&kinds),
        &[rated, unfit, long, empty, alike, untidy, above_key],
    ]
    .concat();
    assert!(of_kinds.iter().all(|&count| count >= least));
}
