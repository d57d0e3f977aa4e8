//! The gap of each stop: what holds of every row.

use crate::ratings::lines_for_sheet;
use papers::files::{
    any_file, any_sheet, bytes_of, dense_file, retyped, sheet, sheet_bytes, valid_commands,
    valid_file, Dice, Stated,
};
use papers::sections::archive::archive_form;
use papers::sections::classes::classes;
use papers::sections::gaps::{gaps, gaps_bytes, row_by_counting, NO_GAP};
use papers::sections::network::{read, Network, STOPS};
use papers::sections::rating::{rating_of_gaps, stop_gap, whole};
use papers::sections::sheets::rate;

/// The row by both methods.
fn row(net: &Network, sheet: &[i32]) -> [u16; STOPS] {
    let starts = whole(sheet);
    let row = row_by_counting(net, &starts);
    for (stop, &gap) in row.iter().enumerate() {
        let by_theorem = stop_gap(net, stop, &starts).unwrap_or(u32::from(NO_GAP));
        assert_eq!(u32::from(gap), by_theorem, "stop {stop}");
    }
    row
}

/// The gaps of the stops that are served.
fn served(row: &[u16; STOPS]) -> Vec<u32> {
    let gaps = row.iter().filter(|&&gap| gap != NO_GAP);
    gaps.map(|&gap| u32::from(gap)).collect()
}

/// The call over any file and sheet, the sheet as starts and as bytes: what it answers is
/// what rate answers, and the row is made of the served stops' gaps or left.
#[test]
fn gaps_of_any_kind() {
    let mut dice = Dice::new(36);
    let (mut rated, mut refused, mut lone, mut at_once) = (0, 0, 0, 0);
    for _ in 0..6_000 {
        let file = any_file(&mut dice);
        let lines = lines_for_sheet(&mut dice, &file);
        let sheet = any_sheet(&mut dice, lines);
        let before: [u16; STOPS] = std::array::from_fn(|_| dice.bits() as u16);
        let [mut filled, mut again] = [before; 2];
        let answer = gaps(&file, &sheet, &mut filled);
        let of_bytes = gaps_bytes(&file, &sheet_bytes(&sheet), &mut again);
        assert_eq!((answer, filled), (of_bytes, again));
        assert_eq!(answer, rate(&file, &sheet));
        let Ok(rating) = answer else {
            assert_eq!(filled, before);
            refused += 1;
            continue;
        };
        let net = read(&file).expect("a valid file");
        assert_eq!(filled, row(&net, &sheet));
        assert_eq!(rating, rating_of_gaps(&served(&filled)));
        assert_eq!(served(&filled).len(), net.served_stops().len());
        rated += 1;
        let lone_stop = |stop: &usize| net.calls_at(*stop).len() == 1;
        lone += usize::from(net.served_stops().iter().any(lone_stop));
        at_once += usize::from(filled.contains(&0));
    }
    println!(
        "rated {rated}, refused {refused}, with a lone stop {lone}, with a gap of 0 {at_once}"
    );
    assert!(rated > 1_500 && refused > 1_500 && lone > 500 && at_once > 500);
}

/// Large networks: all lines, all stops, all calls.
#[test]
fn gaps_of_large_networks() {
    let mut dice = Dice::new(37);
    for (lines, stops) in [(4, 64), (5, 51), (8, 32), (16, 16), (16, 64)] {
        let net = read(&dense_file(&mut dice, lines, stops)).expect("a valid file");
        for _ in 0..40 {
            let sheet = sheet(&mut dice, lines);
            let filled = row(&net, &sheet);
            assert_eq!(served(&filled).len(), stops);
            assert!(filled[stops..].iter().all(|&gap| gap == NO_GAP));
        }
    }
}

/// All starts moved by the same minutes, or one by whole periods, move no gap; and alike
/// stops have equal ones.
#[test]
fn gaps_that_stay() {
    let mut dice = Dice::new(38);
    let mut alike = 0;
    for _ in 0..4_000 {
        let net = read(&valid_file(&mut dice)).expect("a valid file");
        let starts = whole(&sheet(&mut dice, net.lines()));
        let before = row_by_counting(&net, &starts);
        let minutes = dice.below(20_000) as i64 - 10_000;
        let mut moved: Vec<i64> = starts.iter().map(|start| start + minutes).collect();
        let line = dice.below(net.lines());
        let periods = dice.below(20) as i64 - 10;
        moved[line] += periods * i64::from(net.periods[line]);
        assert_eq!(row_by_counting(&net, &moved), before);
        let lowest = classes(&net).class_row;
        for stop in net.served_stops() {
            let other = usize::from(lowest[stop]);
            assert_eq!(before[stop], before[other]);
            alike += usize::from(stop != other);
        }
    }
    assert!(alike > 1_000, "{alike}");
}

/// A network has one row, in whatever way it is typed: that of its archive form, and in
/// the other edition the same.
#[test]
fn gaps_of_one_network() {
    let mut dice = Dice::new(39);
    let mut untidy = 0;
    for _ in 0..2_000 {
        let stated = Stated::by(&valid_commands(&mut dice));
        let sheet = sheet(&mut dice, stated.periods.len());
        let mut rows = Vec::new();
        for edition in [1, 2] {
            let stated = Stated {
                edition,
                ..stated.clone()
            };
            let file = bytes_of(&retyped(&mut dice, &stated));
            let form = archive_form(&read(&file).expect("a valid file"));
            untidy += usize::from(file != form);
            for typed in [&file, &form] {
                rows.push(row(&read(typed).expect("a valid file"), &sheet));
            }
        }
        assert!(rows.iter().all(|other| *other == rows[0]));
    }
    assert!(untidy > 2_000, "{untidy}");
}
