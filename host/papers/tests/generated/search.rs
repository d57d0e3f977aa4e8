//! Searches.

use crate::ratings::lines_for_sheet;
use papers::files::{any_budget, any_file, any_sheet, Dice};
use papers::sections::network::read;
use papers::sections::rating::{rating_by_counting, whole};
use papers::sections::walk::{most_tries, search, Answer};

/// The search call over any file, row and budget: refusals leave the row, and
/// an answer's starts have its rating.
#[test]
fn searches_of_any_kind() {
    let mut dice = Dice::new(13);
    for _ in 0..3_000 {
        let file = any_file(&mut dice);
        let lines = lines_for_sheet(&mut dice, &file);
        let before = any_sheet(&mut dice, lines);
        let mut row = before.clone();
        let budget = any_budget(&mut dice);
        let answer = search(&file, &mut row, budget);
        let net = match read(&file) {
            Ok(net) => net,
            Err(why) => {
                assert_eq!(answer, Err(why));
                assert_eq!(row, before);
                continue;
            }
        };
        match answer {
            Err(why) => {
                assert_eq!((why.number, why.place), (16, 0));
                assert_ne!(before.len(), net.lines());
                assert_eq!(row, before);
            }
            Ok(Answer::StoppedWithNone { tries }) => {
                assert!(tries == budget && (tries as usize) < net.lines());
                assert_eq!(row, before);
            }
            Ok(Answer::Finished { best, tries }) => {
                assert!(tries <= budget && u128::from(tries) <= most_tries(&net));
                assert_eq!(rating_by_counting(&net, &whole(&row)), best);
            }
            Ok(Answer::Stopped { best, tries }) => {
                assert!(tries == budget && u128::from(tries) < most_tries(&net));
                assert_eq!(rating_by_counting(&net, &whole(&row)), best);
            }
        }
    }
}
