//! The quick calls in Rust beside the papers' ones: a time says something only of
//! a program that answers rightly.

use papers::files::{
    any_budget, any_file, any_sheet_bytes, dense_file, faulty_file, sheet, sheet_bytes, valid_file,
    Dice, GROUNDS, OUTCOMES,
};
use papers::plain;
use papers::sections::network::{read, read_counts, Refusal};
use papers::sections::sheets::{
    better_bytes, mark_bytes, rate_by_counting, rate_bytes, Better, Marked,
};
use papers::sections::walk::walk;
use papers::strong;

/// Whether each ground of a file occurs often enough.
fn each_ground_in(outcomes: &[usize]) -> bool {
    GROUNDS
        .iter()
        .all(|&ground| outcomes[usize::from(ground)] > 20)
}

/// Files of any kind; counts and refusals on each ground of a file occur often
/// enough.
#[test]
fn reads_as_the_papers_do() {
    let mut dice = Dice::new(97);
    let mut outcomes = [0; OUTCOMES];
    for case in 0..20_000 {
        let file = any_file(&mut dice);
        let expected = read_counts(&file);
        assert_eq!(plain::read(&file), expected, "case {case}");
        outcomes[expected.map_or_else(|why| usize::from(why.number), |_| 0)] += 1;
    }
    println!("counts, then refusals 1 to 23: {outcomes:?}");
    assert!(outcomes[0] > 5_000, "{outcomes:?}");
    assert!(each_ground_in(&outcomes), "{outcomes:?}");
}

/// Sheets that fit and others; now and then both are the same. Each answer on a
/// file that is accepted, and files that are refused, occur often enough.
#[test]
fn betters_as_the_papers_do() {
    let mut dice = Dice::new(98);
    let mut outcomes = [0; 4];
    for case in 0..10_000 {
        let file = any_file(&mut dice);
        let net = read(&file);
        let lines = net.as_ref().map_or(3, |net| net.lines());
        let first = any_sheet_bytes(&mut dice, lines);
        let second = match dice.below(8) {
            0 => first.clone(),
            _ => any_sheet_bytes(&mut dice, lines),
        };
        let expected = better_bytes(&file, &first, &second);
        let found = plain::better(&file, &first, &second);
        assert_eq!(found, expected, "case {case}");
        outcomes[match (net, expected) {
            (Ok(_), Better::First) => 0,
            (Ok(_), Better::Second) => 1,
            (Ok(_), Better::Neither) => 2,
            (Err(_), _) => 3,
        }] += 1;
    }
    println!("first, second, neither, file refused: {outcomes:?}");
    assert!(outcomes.iter().all(|&count| count > 200), "{outcomes:?}");
}

/// By either walk; every fourth sheet that fits is the walk's own. Each kind of
/// mark, and refusals on each ground, occur often enough.
#[test]
fn marks_as_the_papers_do() {
    let mut dice = Dice::new(99);
    let (mut kinds, mut grounds) = ([0; 3], [0; OUTCOMES]);
    for case in 0..12_000 {
        let file = any_file(&mut dice);
        let budget = any_budget(&mut dice);
        let bytes = sheet_to_mark(&mut dice, &file, budget);
        let expected = mark_bytes(&file, &bytes, budget);
        let found = [
            plain::mark_by(walk, &file, &bytes, budget),
            plain::mark_by(strong::walk, &file, &bytes, budget),
        ];
        assert_eq!(found, [expected; 2], "case {case}");
        match expected {
            Ok(Marked::Decided { equal, .. }) => kinds[usize::from(equal)] += 1,
            Ok(Marked::Undecided { .. }) => kinds[2] += 1,
            Err(why) => grounds[usize::from(why.number)] += 1,
        }
    }
    println!("below, equal, undecided: {kinds:?}; refusals 1 to 23: {grounds:?}");
    assert!(kinds.iter().all(|&count| count > 500), "{kinds:?}");
    assert!(each_ground_in(&grounds) && grounds[15] > 20, "{grounds:?}");
}

/// A sheet for a file, now and then the best timetable that a walk finds.
fn sheet_to_mark(dice: &mut Dice, file: &[u8], budget: u32) -> Vec<u8> {
    let net = read(file);
    let lines = net.as_ref().map_or(3, |net| net.lines());
    let found = match net {
        Ok(net) if dice.once_in(4) => strong::walk(&net, budget).starts,
        _ => None,
    };
    found.map_or_else(
        || any_sheet_bytes(dice, lines),
        |starts| sheet_bytes(&starts),
    )
}

/// Files and sheets of any kind; ratings and refusals on each ground occur
/// often enough.
#[test]
fn rates_as_the_papers_do() {
    let mut dice = Dice::new(91);
    let mut outcomes = [0; OUTCOMES];
    for case in 0..20_000 {
        let file = any_file(&mut dice);
        let lines = read(&file).map_or(3, |net| net.lines());
        let bytes = any_sheet_bytes(&mut dice, lines);
        let expected = rate_bytes(&file, &bytes);
        assert_eq!(plain::rate(&file, &bytes), expected, "case {case}");
        outcomes[expected.map_or_else(|why| usize::from(why.number), |_| 0)] += 1;
    }
    println!("ratings, then refusals 1 to 23: {outcomes:?}");
    assert!(outcomes[0] > 5_000, "{outcomes:?}");
    assert!(
        each_ground_in(&outcomes) && outcomes[15] > 20,
        "{outcomes:?}"
    );
}

/// Against arrivals counted, by which nothing is shared but the network.
#[test]
fn rates_as_counting_does() {
    let mut dice = Dice::new(92);
    for case in 0..5_000 {
        let file = valid_file(&mut dice);
        let lines = read(&file).expect("a valid file").lines();
        let starts = sheet(&mut dice, lines);
        let expected = rate_by_counting(&file, &starts);
        assert_eq!(
            plain::rate(&file, &sheet_bytes(&starts)),
            expected,
            "case {case}"
        );
    }
}

/// The networks of the benchmark, and of other numbers of lines and stops.
#[test]
fn answers_on_large_networks() {
    let mut dice = Dice::new(93);
    for lines in 1..=16 {
        for stops in [1, 2, 8, 31, 32, 63, 64] {
            let file = dense_file(&mut dice, lines, stops);
            let sheets: [Vec<u8>; 9] =
                std::array::from_fn(|_| sheet_bytes(&sheet(&mut dice, lines)));
            compare_large(&file, &sheets);
        }
    }
}

/// All calls on a network that is accepted, with sheets that fit it.
fn compare_large(file: &[u8], sheets: &[Vec<u8>]) {
    let counts = read_counts(file);
    assert!(counts.is_ok());
    assert_eq!(plain::read(file), counts);
    let mark = mark_bytes(file, &sheets[0], 100);
    assert_eq!(plain::mark_by(walk, file, &sheets[0], 100), mark);
    assert_eq!(plain::mark_by(strong::walk, file, &sheets[0], 100), mark);
    for pair in sheets.windows(2) {
        let expected = rate_bytes(file, &pair[0]);
        assert!(expected.is_ok());
        assert_eq!(plain::rate(file, &pair[0]), expected);
        let expected = better_bytes(file, &pair[0], &pair[1]);
        assert_eq!(plain::better(file, &pair[0], &pair[1]), expected);
    }
}

/// Each ground of a file, with the place that it was made for.
#[test]
fn refuses_on_each_ground() {
    let mut dice = Dice::new(94);
    for ground in GROUNDS {
        for _ in 0..200 {
            let faulty = faulty_file(&mut dice, ground);
            let expected = Refusal {
                number: ground,
                place: faulty.place,
            };
            let bytes = any_sheet_bytes(&mut dice, 3);
            assert_eq!(plain::read(&faulty.bytes), Err(expected));
            assert_eq!(plain::rate(&faulty.bytes, &bytes), Err(expected));
            let better = plain::better(&faulty.bytes, &bytes, &bytes);
            assert_eq!(better, Better::Neither);
            let mark = plain::mark_by(walk, &faulty.bytes, &bytes, 100);
            assert_eq!(mark, Err(expected));
        }
    }
}
