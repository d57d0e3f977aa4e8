//! Files of one network, and of two.

use papers::files::{bytes_of, retyped, valid_commands, Dice, Stated};
use papers::sections::network::{read, FIRST_EDITION, LATEST_EDITION};

/// One of the other editions that are known.
fn another_edition(dice: &mut Dice, edition: u8) -> u8 {
    let known = FIRST_EDITION..=LATEST_EDITION;
    let others: Vec<u8> = known.filter(|&other| other != edition).collect();
    dice.pick(&others)
}

/// The network with at most one change: an offset moved by a whole period or another
/// edition, neither of which a rating sees, or two lines exchanged.
fn varied(dice: &mut Dice, stated: &Stated) -> Stated {
    let mut varied = stated.clone();
    let lines = stated.periods.len();
    match dice.below(5) {
        0 => {
            let at = dice.below(varied.calls.len());
            let (line, _, offset) = &mut varied.calls[at];
            *offset = offset.wrapping_add(stated.periods[usize::from(*line)]);
        }
        1 => {
            let [one, other] = [0, 1].map(|_| dice.below(lines));
            varied.periods.swap(one, other);
            for (line, _, _) in &mut varied.calls {
                *line = match usize::from(*line) {
                    at if at == one => other as u8,
                    at if at == other => one as u8,
                    _ => *line,
                };
            }
        }
        2 => varied.edition = another_edition(dice, stated.edition),
        _ => {}
    }
    varied
}

/// Two files have equal archive bytes exactly where their periods, offsets and
/// editions are equal, in whatever way they are typed.
#[test]
fn archive_bytes_tell_one_network_from_two() {
    let mut dice = Dice::new(72);
    let (mut same, mut different, mut by_edition) = (0, 0, 0);
    for number in 0..4_000 {
        let commands = valid_commands(&mut dice);
        let varied = varied(&mut dice, &Stated::by(&commands));
        let one = bytes_of(&commands);
        let other = bytes_of(&retyped(&mut dice, &varied));
        let equal = engine::archive(&one) == engine::archive(&other);
        let [one, other] = [one, other].map(|file| read(&file).expect("a valid file"));
        assert_eq!(equal, one == other, "network {number}");
        let equal_but_for_it = (&one.periods, &one.calls) == (&other.periods, &other.calls);
        by_edition += usize::from(!equal && equal_but_for_it);
        match equal {
            true => same += 1,
            false => different += 1,
        }
    }
    println!("one network {same}, two networks {different}, by their editions {by_edition}");
    assert!(same > 1_000 && different > 1_000 && by_edition > 500);
}
