//! The deepest search, the longest archive form, the fullest board and the gaps of most
//! calls on a small stack: 16 lines of the longest period, 256 calls, in a thread with
//! 512 KB.

mod raw;

use engine::{Arrival, Hundred, Mark, Searched, Sheet};
use papers::answers::{self, sought};
use papers::files::{bytes_of, fullest_file, retyped, Command, Dice, Stated};
use papers::sections::gaps::gaps;
use papers::sections::network::read;
use papers::sections::walk::{walk, Answer};
use papers::sections::wanted::{seek, Wanted};

const STACK: usize = 512 * 1_024;
const BUDGET: u32 = 3_000_000;

/// 16 lines of 1,440 that meet at 16 stops, with these offsets; the file is tidy.
fn deepest(offset: impl Fn(u16) -> u16) -> Vec<Command> {
    let lines = (0..16).map(|_| Command::Line { period: 1_440 });
    let calls = (0..256).map(|call: u16| Command::Call {
        line: (call / 16) as u8,
        stop: (call % 16) as u8,
        offset: offset(call),
    });
    lines.chain(calls).chain([Command::End]).collect()
}

/// Offsets all over the day.
fn scattered(call: u16) -> u16 {
    (u32::from(call) * 7_919 % 1_440) as u16
}

/// The same, and another difference of two lines at each stop.
fn jumbled(call: u16) -> u16 {
    (u32::from(call) * u32::from(call) * 31 % 1_440) as u16
}

/// Runs in a thread with the small stack; an overflow ends the whole process.
fn on_small_stack<T: Send>(work: impl FnOnce() -> T + Send) -> T {
    std::thread::scope(|scope| {
        let thread = std::thread::Builder::new()
            .stack_size(STACK)
            .spawn_scoped(scope, work);
        let thread = thread.expect("a thread");
        thread.join().expect("an answer")
    })
}

/// The engine's search on the small stack, beside the walk: finished or not,
/// least gap, sum, tries.
fn compare(commands: &[Command]) -> (bool, u32, u32, u32) {
    let file = &bytes_of(commands);
    let net = read(file).expect("an accepted file");
    assert_eq!((net.lines(), net.calls.len()), (16, 256));
    let found = on_small_stack(|| engine::search(file, BUDGET));
    let (finished, rating, tries, starts) = match found.expect("an accepted file") {
        Searched::Finished(best) => {
            let (rating, tries) = (best.rating(), best.tries());
            (true, rating, tries, best.starts().to_vec())
        }
        Searched::Stopped { so_far, tries } => {
            (false, so_far.rating(), tries, so_far.starts().to_vec())
        }
        Searched::StoppedWithNone { .. } => panic!("16 tries reach a full timetable"),
    };
    let found = (finished, rating.least, rating.sum, tries);
    let walked = walk(&net, BUDGET);
    let expected = match walked.answer {
        Answer::Finished { best, tries } => (true, best.least, best.sum, tries),
        Answer::Stopped { best, tries } => (false, best.least, best.sum, tries),
        Answer::StoppedWithNone { .. } => panic!("16 tries reach a full timetable"),
    };
    assert_eq!(found, expected);
    assert_eq!(Some(starts), walked.starts);
    found
}

/// With equal offsets every line finds its place, and the search is finished.
#[test]
fn a_finished_search_on_512_kilobytes() {
    assert_eq!(compare(&deepest(|_| 0)), (true, 90, 1_440, 1_836_001));
}

/// With offsets all over the day the budget is used up.
#[test]
fn a_stopped_search_on_512_kilobytes() {
    let (finished, _, _, tries) = compare(&deepest(scattered));
    assert_eq!((finished, tries), (false, BUDGET));
}

/// A wanted gap on the small stack, beside the papers.
fn compare_wanted(commands: &[Command], gap: u16) -> Wanted {
    let file = &bytes_of(commands);
    let found = on_small_stack(|| engine::wanted(file, gap, BUDGET));
    let found = found.map(sought).expect("an accepted file");
    let net = read(file).expect("an accepted file");
    assert_eq!(found, seek(&net, gap, BUDGET));
    found.answer
}

/// With equal offsets line after line is 90 minutes behind the one before: the walk
/// goes as deep as the search's.
#[test]
fn a_wanted_gap_on_512_kilobytes() {
    let found = Wanted::Found { tries: 10_816 };
    assert_eq!(compare_wanted(&deepest(|_| 0), 90), found);
    let none = Wanted::None { tries: 1 };
    assert_eq!(compare_wanted(&deepest(|_| 0), 91), none);
    let stopped = Wanted::Stopped { tries: BUDGET };
    assert_eq!(compare_wanted(&deepest(jumbled), 20), stopped);
}

/// Marking goes as deep, on top of its own rows; with the mark out of a hundred, as
/// the wrapper asks for it, and without.
#[test]
fn the_deepest_mark_on_512_kilobytes() {
    let file = bytes_of(&deepest(|_| 0));
    let sheet = Sheet::of_starts(&[i32::MIN; 16]);
    let mark = on_small_stack(|| engine::mark(&file, &sheet, 100_000));
    let Ok(Mark::Undecided { sheet, tries }) = mark else {
        panic!("the engine says {mark:?}");
    };
    assert_eq!((sheet.least, sheet.sum, tries), (0, 0, 100_000));
    let raw = on_small_stack(|| raw::mark(&file, &[0; 64], 100_000));
    assert_eq!(raw, (1, [0, 0, 0, 0, 0, 100_000]));
}

/// A mark whose search finishes, 16 lines deep: line after line stands 45 minutes
/// behind the one before, half of what is best.
#[test]
fn a_deep_mark_out_of_a_hundred() {
    let file = bytes_of(&deepest(|_| 0));
    let [half, best] = [45, 90].map(|gap| {
        let starts: [i32; 16] = std::array::from_fn(|line| gap * line as i32);
        Sheet::of_starts(&starts)
    });
    let mark = on_small_stack(|| engine::mark(&file, &half, BUDGET));
    let expected = Hundred {
        mark: 50,
        remainder: 0,
    };
    assert!(
        matches!(mark, Ok(Mark::Decided { hundred, tries: 1_836_001, .. }) if hundred == expected),
        "the engine says {mark:?}"
    );
    let by_key = on_small_stack(|| engine::mark_by_key(&file, &half, &best));
    assert_eq!(by_key, Ok(expected));
}

/// Hardly a command stands where the archive form has it, but for the edition.
#[test]
fn the_longest_archive_form_on_512_kilobytes() {
    let opening = vec![Command::Edition { edition: 2 }];
    let tidy = [opening, deepest(scattered)].concat();
    let typed = retyped(&mut Dice::new(95), &Stated::by(&tidy));
    assert_ne!(typed, tidy);
    let form = on_small_stack(|| engine::archive(&bytes_of(&typed)));
    assert_eq!(form, Ok(bytes_of(&tidy)));
}

/// 16 lines that call twice at a stop, every minute of a week: 322,560 arrivals.
#[test]
fn the_fullest_board_on_512_kilobytes() {
    let sheet = Sheet::of_starts(&[i32::MAX; 16]);
    let board = on_small_stack(|| engine::board(&fullest_file(), &sheet, 63, i32::MAX, 10_080));
    let board = board.expect("an accepted file");
    assert_eq!(board.len(), 322_560);
    for (number, arrival) in board.into_iter().enumerate() {
        let (time, line) = (i64::from(i32::MAX) + number as i64 / 32, number % 32 / 2);
        let line = line as u8;
        assert_eq!(arrival, Arrival { time, line });
    }
}

/// The network at which a search goes deepest, by the week.
#[test]
fn a_board_of_the_deepest_network() {
    let file = bytes_of(&deepest(scattered));
    let sheet = Sheet::of_starts(&[i32::MIN; 16]);
    let board = on_small_stack(|| engine::board(&file, &sheet, 15, i32::MAX, 10_080));
    // 16 lines, and 7 days of 1,440 minutes.
    assert_eq!(board.map(|board| board.len()), Ok(7 * 16));
}

/// Its gaps, with all starts at an end of 32 bits and one after another, also from there;
/// and those of a stop at which every line calls twice.
#[test]
fn gaps_on_512_kilobytes() {
    let every_90: [i32; 16] = std::array::from_fn(|line| 90 * line as i32);
    let from_the_end = every_90.map(|start| i32::MIN + start);
    let all = [deepest(scattered), deepest(jumbled), deepest(|_| 0)];
    for file in all.map(|commands| bytes_of(&commands)) {
        for starts in [[i32::MIN; 16], [i32::MAX; 16]] {
            compare_gaps(&file, &starts);
        }
    }
    for starts in [every_90, from_the_end] {
        let (row, least) = compare_gaps(&bytes_of(&deepest(|_| 0)), &starts);
        assert_eq!((&row[..16], least), (&[90; 16][..], 90));
    }
    let (row, least) = compare_gaps(&fullest_file(), &[i32::MAX; 16]);
    assert_eq!((row[63], least), (0, 0));
}

/// The row and the least gap on the small stack, beside the papers.
fn compare_gaps(file: &[u8], starts: &[i32]) -> ([u16; 64], u32) {
    let sheet = Sheet::of_starts(starts);
    let found = on_small_stack(|| engine::gaps(file, &sheet));
    let mut row = [0; 64];
    let rating = gaps(file, starts, &mut row).expect("an accepted file");
    assert_eq!(found, Ok(answers::gaps(row, rating)));
    (row, rating.least)
}
