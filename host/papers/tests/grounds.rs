//! Document 01, "Grounds for refusing", and document 02, A.6: one file per ground by
//! hand, the order of the grounds, and generated files for each ground.

use papers::files::{faulty_file, Dice, GROUNDS};
use papers::sections::network::{read, Refusal, LATEST_EDITION};

/// Number and place, (0, 0) if accepted.
fn refused(file: &[u8]) -> (u8, usize) {
    match read(file) {
        Err(Refusal { number, place }) => (number, place),
        Ok(_) => (0, 0),
    }
}

fn edition(edition: u8) -> Vec<u8> {
    vec![0x56, edition]
}

fn line(period: u16) -> Vec<u8> {
    let [high, low] = period.to_be_bytes();
    vec![0x4C, high, low]
}

fn call(line: u8, stop: u8, offset: u16) -> Vec<u8> {
    let [high, low] = offset.to_be_bytes();
    vec![0x43, line, stop, high, low]
}

fn follow(line: u8, stop: u8, ride: u16) -> Vec<u8> {
    let [high, low] = ride.to_be_bytes();
    vec![0x46, line, stop, high, low]
}

fn end() -> Vec<u8> {
    vec![0x45]
}

/// So many lines of 60.
fn lines(count: usize) -> Vec<u8> {
    line(60).repeat(count)
}

/// 256 calls: lines 0 to 3 at all 64 stops.
fn all_calls() -> Vec<u8> {
    let calls = (0..4).flat_map(|line| (0..64).map(move |stop| call(line, stop, 0)));
    calls.flatten().collect()
}

#[test]
fn ground_1_no_byte_where_a_command_is_due() {
    assert_eq!(refused(&[]), (1, 0));
    assert_eq!(refused(&line(15)), (1, 3));
    assert_eq!(refused(&[line(15), call(0, 0, 8)].concat()), (1, 8));
}

#[test]
fn ground_2_unknown_command() {
    assert_eq!(refused(&[0]), (2, 0));
    let file = [line(15), call(0, 0, 8), vec![0x44], end()].concat();
    assert_eq!(refused(&file), (2, 8));
    // Every byte but the five.
    for byte in (0..=255u8).filter(|byte| ![0x56, 0x4C, 0x43, 0x46, 0x45].contains(byte)) {
        let file = [line(15), vec![byte, 0, 0, 0, 0], end()].concat();
        assert_eq!(refused(&file), (2, 3));
    }
}

#[test]
fn ground_3_operands_cut_off() {
    assert_eq!(refused(&[0x4C]), (3, 0));
    assert_eq!(refused(&[0x4C, 0]), (3, 0));
    for length in 1..5 {
        let cut_call = [line(15), call(0, 0, 8)[..length].to_vec()].concat();
        assert_eq!(refused(&cut_call), (3, 3));
        let cut_follow = [line(15), follow(0, 0, 8)[..length].to_vec()].concat();
        assert_eq!(refused(&cut_follow), (3, 3));
        let cut_follow = [edition(2), follow(0, 0, 8)[..length].to_vec()].concat();
        assert_eq!(refused(&cut_follow), (3, 2));
    }
    assert_eq!(refused(&[0x56]), (3, 0));
    assert_eq!(refused(&[line(15), vec![0x56]].concat()), (3, 3));
}

#[test]
fn ground_4_a_seventeenth_line() {
    let file = [lines(17), end()].concat();
    assert_eq!(refused(&file), (4, 48));
    // Sixteen are allowed.
    let calls: Vec<u8> = (0..16).flat_map(|line| call(line, 0, 0)).collect();
    assert_eq!(refused(&[lines(16), calls, end()].concat()), (0, 0));
}

#[test]
fn ground_5_period_out_of_range() {
    for period in [0, 1_441, 65_535] {
        assert_eq!(refused(&[line(15), line(period)].concat()), (5, 3));
    }
}

#[test]
fn ground_6_common_cycle_too_long() {
    let file = [line(1_440), call(0, 0, 0), line(11)].concat();
    assert_eq!(refused(&file), (6, 8));
    // 9 × 1,120 is 10,080; 11 × 917 is 10,087.
    let file = [line(9), line(1_120), call(0, 0, 0), call(1, 0, 0), end()].concat();
    assert_eq!(refused(&file), (0, 0));
    assert_eq!(refused(&[line(11), line(917)].concat()), (6, 3));
}

#[test]
fn ground_7_line_not_yet_stated() {
    assert_eq!(refused(&call(0, 0, 0)), (7, 0));
    assert_eq!(refused(&follow(0, 0, 0)), (7, 0));
    // Stated later, but not yet.
    let file = [line(15), call(1, 0, 0), line(15)].concat();
    assert_eq!(refused(&file), (7, 3));
    assert_eq!(refused(&[lines(16), call(16, 0, 0)].concat()), (7, 48));
    assert_eq!(refused(&[lines(16), call(255, 0, 0)].concat()), (7, 48));
}

#[test]
fn ground_8_stop_above_63() {
    assert_eq!(refused(&[line(15), call(0, 64, 0)].concat()), (8, 3));
    assert_eq!(refused(&[line(15), follow(0, 255, 0)].concat()), (8, 3));
    assert_eq!(refused(&[line(15), call(0, 63, 0), end()].concat()), (0, 0));
}

#[test]
fn ground_9_that_line_already_calls_there_twice() {
    let twice = [line(15), call(0, 5, 0), call(0, 5, 1)].concat();
    assert_eq!(refused(&[twice.clone(), end()].concat()), (0, 0));
    assert_eq!(refused(&[twice.clone(), call(0, 5, 2)].concat()), (9, 13));
    assert_eq!(refused(&[twice, follow(0, 5, 1)].concat()), (9, 13));
    // Two calls with equal offsets are two calls.
    let file = [line(15), call(0, 5, 0), follow(0, 5, 0), call(0, 5, 0)].concat();
    assert_eq!(refused(&file), (9, 13));
    // Another line may.
    let file = [lines(2), call(0, 5, 0), call(0, 5, 0), call(1, 5, 0), end()].concat();
    assert_eq!(refused(&file), (0, 0));
}

#[test]
fn ground_10_a_257th_call() {
    let file = [lines(5), all_calls(), call(4, 0, 0), end()].concat();
    assert_eq!(refused(&file), (10, 15 + 5 * 256));
    assert_eq!(refused(&[lines(4), all_calls(), end()].concat()), (0, 0));
}

#[test]
fn ground_11_follow_without_an_earlier_call() {
    assert_eq!(refused(&[line(15), follow(0, 0, 0)].concat()), (11, 3));
    // A call of another line doesn't help.
    let file = [lines(2), call(0, 0, 0), follow(1, 0, 0), end()].concat();
    assert_eq!(refused(&file), (11, 11));
}

#[test]
fn ground_12_offset_above_65535() {
    let file = [line(15), call(0, 0, 1), follow(0, 1, 65_535), end()].concat();
    assert_eq!(refused(&file), (12, 8));
    let file = [line(15), call(0, 0, 1), follow(0, 1, 65_534), end()].concat();
    assert_eq!(refused(&file), (0, 0));
}

#[test]
fn ground_13_no_line_or_a_line_without_call() {
    assert_eq!(refused(&end()), (13, 0));
    assert_eq!(refused(&[line(15), end()].concat()), (13, 3));
    let file = [lines(2), call(1, 0, 0), end()].concat();
    assert_eq!(refused(&file), (13, 11));
}

#[test]
fn ground_14_a_byte_after_the_end() {
    let file = [line(15), call(0, 0, 8), end()].concat();
    for byte in 0..=255u8 {
        assert_eq!(refused(&[file.clone(), vec![byte]].concat()), (14, 9));
        let more = [file.clone(), vec![byte; 1_000]].concat();
        assert_eq!(refused(&more), (14, 9));
    }
}

#[test]
fn ground_19_follow_in_edition_2() {
    let calls = [line(15), call(0, 0, 8)].concat();
    assert_eq!(
        refused(&[calls.clone(), follow(0, 1, 5), end()].concat()),
        (0, 0)
    );
    let first = [edition(1), calls.clone(), follow(0, 1, 5), end()].concat();
    assert_eq!(refused(&first), (0, 0));
    let second = [edition(2), calls.clone(), follow(0, 1, 5), end()].concat();
    assert_eq!(refused(&second), (19, 10));
    // An operand may have the command's byte.
    let operands = [edition(2), line(0x46), call(0, 0x3F, 0x4656), end()].concat();
    assert_eq!(refused(&operands), (0, 0));
}

#[test]
fn ground_20_edition_not_first() {
    for number in [0, 1, 2, 3, 255] {
        let behind = [line(15), edition(number), call(0, 0, 8), end()].concat();
        assert_eq!(refused(&behind), (20, 3));
        for first in [1, 2] {
            let second = [edition(first), edition(number), line(15)].concat();
            assert_eq!(refused(&second), (20, 2));
        }
    }
}

#[test]
fn ground_21_edition_unknown() {
    for number in 0..=255u8 {
        let file = [edition(number), line(15), call(0, 0, 8), end()].concat();
        let expected = match number {
            1..=LATEST_EDITION => (0, 0),
            _ => (21, 0),
        };
        assert_eq!(refused(&file), expected, "edition {number}");
    }
}

/// "19: `46` in edition 2, between grounds 3 and 7; 20: `56` not first, after ground 3;
/// 21: edition unknown, after 20."
#[test]
fn grounds_of_editions_in_their_order() {
    // 3 before 19, 19 before 7 to 12.
    assert_eq!(refused(&[edition(2), vec![0x46, 9, 9, 0]].concat()), (3, 2));
    assert_eq!(refused(&[edition(2), follow(9, 9, 0)].concat()), (19, 2));
    assert_eq!(refused(&[edition(1), follow(9, 9, 0)].concat()), (7, 2));
    let stated = [line(15), follow(0, 64, 0)].concat();
    assert_eq!(refused(&[edition(2), stated.clone()].concat()), (19, 5));
    assert_eq!(refused(&[edition(1), stated].concat()), (8, 5));
    let thrice = [line(15), call(0, 5, 0), call(0, 5, 1), follow(0, 5, 1)].concat();
    assert_eq!(refused(&[edition(2), thrice.clone()].concat()), (19, 15));
    assert_eq!(refused(&[edition(1), thrice].concat()), (9, 15));
    let nowhere = [line(15), follow(0, 0, 0)].concat();
    assert_eq!(refused(&[edition(2), nowhere.clone()].concat()), (19, 5));
    assert_eq!(refused(&[edition(1), nowhere].concat()), (11, 5));
    let full = [lines(5), all_calls(), follow(4, 0, 0)].concat();
    assert_eq!(
        refused(&[edition(2), full.clone()].concat()),
        (19, 15 + 5 * 256 + 2)
    );
    assert_eq!(
        refused(&[edition(1), full].concat()),
        (10, 15 + 5 * 256 + 2)
    );
    let late = [line(15), call(0, 0, 1), follow(0, 1, 65_535)].concat();
    assert_eq!(refused(&[edition(2), late.clone()].concat()), (19, 10));
    assert_eq!(refused(&[edition(1), late].concat()), (12, 10));
    // 20 before 21.
    assert_eq!(refused(&[edition(2), edition(7)].concat()), (20, 2));
    // An unknown edition comes before what stands behind it.
    assert_eq!(refused(&[edition(0), vec![0]].concat()), (21, 0));
    // Behind the end nothing is read as a command.
    let file = [line(15), call(0, 0, 8), end(), edition(2)].concat();
    assert_eq!(refused(&file), (14, 9));
    assert_eq!(refused(&edition(2)), (1, 2));
    assert_eq!(refused(&[edition(2), end()].concat()), (13, 2));
}

/// "Commands are checked in file order, grounds in ascending order."
#[test]
fn lower_grounds_come_first() {
    // 3 before 4, 4 before 5.
    assert_eq!(refused(&[lines(16), vec![0x4C, 0]].concat()), (3, 48));
    assert_eq!(refused(&[lines(16), line(0)].concat()), (4, 48));
    // 3 before 7, 7 before 8, 8 before 10.
    assert_eq!(refused(&[0x43, 0, 0, 0]), (3, 0));
    assert_eq!(refused(&call(0, 64, 0)), (7, 0));
    let full = [lines(5), all_calls()].concat();
    let place = full.len();
    assert_eq!(
        refused(&[full.clone(), call(5, 64, 0)].concat()),
        (7, place)
    );
    assert_eq!(
        refused(&[full.clone(), call(4, 64, 0)].concat()),
        (8, place)
    );
    // 9 before 10, 10 before 11: a third call as the 257th is 9, a second one 10.
    assert_eq!(
        refused(&[full.clone(), call(3, 9, 0)].concat()),
        (10, place)
    );
    let twice = [full[..place - 5].to_vec(), call(0, 0, 0)].concat();
    assert_eq!(refused(&[twice, call(0, 0, 0)].concat()), (9, place));
    assert_eq!(
        refused(&[full.clone(), follow(4, 0, 0)].concat()),
        (10, place)
    );
    // 9 before 12, 8 before 11, 10 before 12.
    let late = [line(15), call(0, 0, 65_535)].concat();
    let later = [late.clone(), call(0, 0, 65_535)].concat();
    assert_eq!(refused(&[later, follow(0, 0, 1)].concat()), (9, 13));
    assert_eq!(refused(&[line(15), follow(0, 64, 0)].concat()), (8, 3));
    // 13 before 14.
    assert_eq!(refused(&[end(), end()].concat()), (13, 0));
    // An earlier command's ground comes before a later one's.
    assert_eq!(refused(&[line(0), vec![0]].concat()), (5, 0));
    assert_eq!(refused(&[line(15), vec![0], line(0)].concat()), (2, 3));
    // What stands behind the end isn't read as a command.
    let file = [line(15), call(0, 0, 8), end(), line(0)].concat();
    assert_eq!(refused(&file), (14, 9));
}

/// `46` goes on from the same line's latest call in the file, whether that was
/// a `43` or a `46`, at whichever stop, with calls of other lines between.
#[test]
fn follow_goes_on_from_the_latest_call() {
    let file = [
        line(15),
        call(0, 9, 100),
        line(20),
        call(1, 9, 7),
        follow(0, 3, 5),
        follow(1, 4, 2),
        call(0, 4, 50),
        follow(0, 5, 1),
        follow(0, 6, 0),
        end(),
    ]
    .concat();
    let net = read(&file).expect("an accepted file");
    let of_line = |line: usize| -> Vec<(usize, u32)> {
        let calls = net.calls.iter().filter(|call| call.line == line);
        calls.map(|call| (call.stop, call.offset)).collect()
    };
    assert_eq!(of_line(0), [(3, 105), (4, 50), (5, 51), (6, 51), (9, 100)]);
    assert_eq!(of_line(1), [(4, 9), (9, 7)]);
    assert_eq!((net.calls.len(), net.cycle), (7, 60));
    assert_eq!(net.served_stops(), [3, 4, 5, 6, 9]);
}

/// Generated rides in edition 2 are those that edition 1 would take and those that it
/// would refuse on each of the grounds behind 19.
#[test]
fn generated_rides_have_each_ground_behind_theirs() {
    let mut dice = Dice::new(119);
    let mut grounds = [0; 13];
    for _ in 0..3_000 {
        let mut faulty = faulty_file(&mut dice, 19);
        faulty.bytes[1] = 1;
        let (ground, place) = refused(&faulty.bytes);
        let there = place == faulty.place;
        grounds[if there { usize::from(ground) } else { 0 }] += 1;
    }
    println!(
        "taken in edition 1: {}; refused by 7 to 12: {:?}",
        grounds[0],
        &grounds[7..]
    );
    assert_eq!(grounds[1..7], [0; 6]);
    assert!(
        grounds[0] > 20 && grounds[7..].iter().all(|&count| count > 20),
        "{grounds:?}"
    );
}

/// Generated files for each ground, their places known by how they were made.
#[test]
fn generated_files_for_each_ground() {
    for ground in GROUNDS {
        let mut dice = Dice::new(u64::from(ground));
        for _ in 0..400 {
            let faulty = faulty_file(&mut dice, ground);
            assert_eq!(refused(&faulty.bytes), (ground, faulty.place));
        }
    }
}
