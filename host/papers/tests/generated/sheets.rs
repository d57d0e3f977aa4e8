//! Better-of-two and marks.

use crate::ratings::lines_for_sheet;
use papers::files::{any_budget, any_file, any_sheet, any_sheet_bytes, sheet_bytes, Dice};
use papers::sections::network::{read, Refusal};
use papers::sections::sheets::{
    better_of_two, mark, mark_bytes, rate, rate_by_counting, rate_bytes, Marked,
};
use papers::sections::walk::{walk, Answer};

/// Better-of-two by the section's own words.
#[test]
fn better_of_two_of_any_kind() {
    let mut dice = Dice::new(14);
    for _ in 0..4_000 {
        let file = any_file(&mut dice);
        let lines = lines_for_sheet(&mut dice, &file);
        let first = any_sheet(&mut dice, lines);
        let second = any_sheet(&mut dice, lines);
        let part = better_of_two(&file, &first, &second);
        let fits = |sheet: &[i32]| rate_by_counting(&file, sheet).ok();
        let expected = match (fits(&first), fits(&second)) {
            (None, None) => &first[..0],
            (one, other) if other > one => &second[..],
            _ => &first[..],
        };
        assert_eq!(part.as_ptr(), expected.as_ptr());
        assert_eq!(part.len(), expected.len());
    }
}

/// Marking against rating and searching alone.
#[test]
fn markings_of_any_kind() {
    let mut dice = Dice::new(15);
    let (mut decided, mut undecided) = (0, 0);
    for _ in 0..3_000 {
        let file = any_file(&mut dice);
        let lines = lines_for_sheet(&mut dice, &file);
        let sheet = any_sheet(&mut dice, lines);
        let budget = any_budget(&mut dice);
        let marked = mark(&file, &sheet, budget);
        assert_eq!(marked, mark_bytes(&file, &sheet_bytes(&sheet), budget));
        let rated = rate(&file, &sheet);
        match marked {
            Err(why) => assert_eq!(rated, Err(why)),
            Ok(Marked::Decided {
                sheet,
                best,
                equal,
                tries,
            }) => {
                decided += 1;
                assert_eq!(rated, Ok(sheet));
                let net = read(&file).expect("a valid file");
                assert_eq!(walk(&net, budget).answer, Answer::Finished { best, tries });
                assert_eq!(equal, sheet == best);
                assert!(sheet <= best);
            }
            Ok(Marked::Undecided { sheet, tries }) => {
                undecided += 1;
                assert_eq!(rated, Ok(sheet));
                assert_eq!(tries, budget);
            }
        }
    }
    assert!(decided > 200 && undecided > 200);
}

/// Byte sheets of any length.
#[test]
fn byte_sheets_of_any_length() {
    let mut dice = Dice::new(16);
    for _ in 0..2_000 {
        let file = any_file(&mut dice);
        let lines = lines_for_sheet(&mut dice, &file);
        let bytes = any_sheet_bytes(&mut dice, lines);
        let rated = rate_bytes(&file, &bytes);
        match read(&file) {
            Err(why) => assert_eq!(rated, Err(why)),
            Ok(net) if bytes.len() != 4 * net.lines() => {
                let why = Refusal {
                    number: 15,
                    place: 0,
                };
                assert_eq!(rated, Err(why));
            }
            Ok(_) => assert!(rated.is_ok()),
        }
    }
}
