//! Networks so small that every timetable of them can be rated.

use crate::files::{bytes_of, roomy_file, valid_commands_of, Dice, Size};
use crate::sections::network::{read, Network};

/// A file with short periods and few lines, and its network, with at most so
/// many timetables of starts within the periods.
pub fn small_file(dice: &mut Dice, most_timetables: u32) -> (Vec<u8>, Network) {
    loop {
        let size = Size {
            lines: (1, 4),
            stops: (1, 6),
            cycle: dice.pick(&[6, 8, 12, 20, 24, 30, 36, 60, 60, 72, 210]),
            longest: dice.pick(&[6, 12, 20, 36]),
        };
        let file = bytes_of(&valid_commands_of(dice, &size));
        let net = read(&file).expect("a valid file");
        if net.periods.iter().product::<u32>() <= most_timetables {
            return (file, net);
        }
    }
}

/// The same for wanted gaps and marks: half of the networks are such that lines can keep
/// away from each other.
pub fn small_file_for_gaps(dice: &mut Dice, most_timetables: u32) -> (Vec<u8>, Network) {
    if dice.once_in(2) {
        return small_file(dice, most_timetables);
    }
    loop {
        let file = roomy_file(dice);
        let net = read(&file).expect("a valid file");
        if net.periods.iter().product::<u32>() <= most_timetables {
            return (file, net);
        }
    }
}

/// All timetables with each start in 0..period, in ascending order.
pub fn every_timetable(net: &Network) -> impl Iterator<Item = Vec<i64>> + '_ {
    let first = vec![0; net.lines()];
    std::iter::successors(Some(first), |starts| next_timetable(net, starts.clone()))
}

/// The timetable after this one, the last line fastest; `None` after the last.
fn next_timetable(net: &Network, mut starts: Vec<i64>) -> Option<Vec<i64>> {
    for line in (0..net.lines()).rev() {
        starts[line] += 1;
        if starts[line] < i64::from(net.periods[line]) {
            return Some(starts);
        }
        starts[line] = 0;
    }
    None
}
