//! Three ratings of every sheet.

use papers::files::{any_file, any_sheet, dense_file, sheet, sheet_bytes, Dice};
use papers::sections::network::read;
use papers::sections::sheets::{rate, rate_by_counting, rate_bytes, weighted_rate};

/// The number of lines if the file is accepted, otherwise any.
pub fn lines_for_sheet(dice: &mut Dice, file: &[u8]) -> usize {
    match read(file) {
        Ok(net) => net.lines(),
        Err(_) => dice.below(6),
    }
}

/// "on every file and sheet, accepted or refused, the weighted rating and rate
/// answer alike" (demand 3), and so does the rating by counting.
#[test]
fn three_ratings_answer_alike() {
    let mut dice = Dice::new(11);
    let (mut rated, mut wrong, mut refused) = (0, 0, 0);
    for _ in 0..6_000 {
        let file = any_file(&mut dice);
        let lines = lines_for_sheet(&mut dice, &file);
        let sheet = any_sheet(&mut dice, lines);
        let one = rate(&file, &sheet);
        assert_eq!(one, weighted_rate(&file, &sheet));
        assert_eq!(one, rate_by_counting(&file, &sheet));
        assert_eq!(one, rate_bytes(&file, &sheet_bytes(&sheet)));
        match (one, read(&file)) {
            (Ok(_), Ok(net)) => {
                rated += 1;
                assert_eq!(net.lines(), sheet.len());
            }
            (Err(why), Ok(net)) => {
                wrong += 1;
                assert_ne!(net.lines(), sheet.len());
                assert_eq!((why.number, why.place), (15, 0));
            }
            (answer, Err(why)) => {
                refused += 1;
                assert_eq!(answer, Err(why));
            }
        }
    }
    assert!(rated > 1_500 && wrong > 300 && refused > 1_500);
}

/// Large networks: all lines, all stops, all calls.
#[test]
fn three_ratings_on_large_networks() {
    let mut dice = Dice::new(12);
    for (lines, stops) in [(4, 64), (5, 51), (8, 32), (16, 16), (16, 64)] {
        let file = dense_file(&mut dice, lines, stops);
        let net = read(&file).expect("a valid file");
        assert_eq!(net.lines(), lines);
        assert_eq!(net.served_stops().len(), stops);
        assert_eq!(net.calls.len(), lines * stops.min(256 / lines));
        for _ in 0..40 {
            let sheet = sheet(&mut dice, lines);
            let one = rate(&file, &sheet);
            assert_eq!(one, rate_by_counting(&file, &sheet));
            assert_eq!(one, weighted_rate(&file, &sheet));
        }
    }
}
