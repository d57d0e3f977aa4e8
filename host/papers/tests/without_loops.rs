//! Loop routes (document 02, A.2) change nothing on files without them: every
//! call answers as the papers by lines did, tries included, and so does the
//! engine.

use engine::Sheet;
use papers::answers;
use papers::before_editions::is_of_before;
use papers::by_lines;
use papers::files::{any_file, faulty_file, sheet, valid_file, Dice};
use papers::sections::archive::archive_form;
use papers::sections::caps::cap;
use papers::sections::classes::{classes, weighted_rating};
use papers::sections::gaps::{gaps, NO_GAP};
use papers::sections::network::{read, Refusal, STOPS};
use papers::sections::rating::{rating, rating_by_counting, whole};
use papers::sections::walk::walk;

const BUDGET: u32 = 3_000;

/// What a file gives is the same but for a line's second call at a stop, which
/// was refused, and for editions, which there weren't. Returns the network by lines
/// where there is one.
fn compared(file: &[u8]) -> Option<by_lines::network::Network> {
    if !is_of_before(file) {
        return None;
    }
    match (by_lines::network::read(file), read(file)) {
        (Ok(before), now) => {
            assert_eq!(now.map(|net| net.counts()), Ok(before.counts()));
            Some(before)
        }
        (Err(Refusal { number: 9, .. }), _) => None,
        (Err(before), now) => {
            assert_eq!(now.map(|net| net.counts()), Err(before));
            None
        }
    }
}

/// The gap of each stop, by lines.
fn gaps_as_before(file: &[u8], before: &by_lines::network::Network, starts: &[i32]) {
    let gap = |stop| by_lines::rating::stop_gap(before, stop, &whole(starts));
    let row = std::array::from_fn(|stop| gap(stop).map_or(NO_GAP, |gap| gap as u16));
    let rating = by_lines::rating::rating(before, &whole(starts));
    let mut found = [0; STOPS];
    assert_eq!(gaps(file, starts, &mut found), Ok(rating));
    assert_eq!(found, row);
    let engines = engine::gaps(file, &Sheet::of_starts(starts));
    assert_eq!(engines, Ok(answers::gaps(row, rating)));
}

/// Ratings, weighted ratings, gaps, classes, caps, the archive form and the walk.
fn answers_as_before(dice: &mut Dice, file: &[u8], before: &by_lines::network::Network) {
    let net = read(file).expect("an accepted file");
    let found = classes(&net);
    assert_eq!(by_lines::classes::classes(before), found);
    assert_eq!(
        engine::classes(file).map(|rows| rows.class_row),
        Ok(found.class_row)
    );
    let form = by_lines::archive::archive_form(before);
    assert_eq!(archive_form(&net), form);
    assert_eq!(engine::archive(file), Ok(form));
    for stop in 0..STOPS {
        assert_eq!(by_lines::caps::cap(before, stop), cap(&net, stop));
    }
    let starts = sheet(dice, net.lines());
    let expected = by_lines::rating::rating(before, &whole(&starts));
    assert_eq!(rating(&net, &whole(&starts)), expected);
    assert_eq!(rating_by_counting(&net, &whole(&starts)), expected);
    assert_eq!(weighted_rating(&net, &whole(&starts)), expected);
    let rated = engine::rate(file, &Sheet::of_starts(&starts));
    assert_eq!(rated, Ok(answers::rated(expected)));
    gaps_as_before(file, before, &starts);
    let walked = by_lines::walk::walk(before, BUDGET);
    assert_eq!(walk(&net, BUDGET), walked);
    assert_eq!(
        engine::search(file, BUDGET).map(answers::walked),
        Ok(walked)
    );
}

#[test]
fn files_without_loops_are_answered_as_before() {
    let mut dice = Dice::new(91);
    let (mut without, mut with) = (0, 0);
    for _ in 0..5_000 {
        let file = valid_file(&mut dice);
        if !is_of_before(&file) {
            continue;
        }
        match compared(&file) {
            Some(before) => {
                answers_as_before(&mut dice, &file, &before);
                without += 1;
            }
            None => with += 1,
        }
    }
    println!("without loops {without}, with loops {with}");
    assert!(without > 2_000 && with > 300);
}

#[test]
fn other_files_are_refused_as_before() {
    let mut dice = Dice::new(92);
    for _ in 0..5_000 {
        compared(&any_file(&mut dice));
    }
    for ground in (1..=14).filter(|&ground| ground != 9) {
        for _ in 0..200 {
            compared(&faulty_file(&mut dice, ground).bytes);
        }
    }
}
