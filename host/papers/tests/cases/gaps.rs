//! The gap of each stop, worked out by hand. Papers and engine are both asked, and the
//! papers by both of their methods.

use crate::given::{all_ratings, at, file, hex, net, p1, p7, p8, p9, refusal};
use crate::source::CALLS;
use engine::Sheet;
use papers::answers;
use papers::files::fullest_file;
use papers::sections::gaps::{gaps, NO_GAP};
use papers::sections::network::{Refusal, STOPS};
use papers::sections::rating::{stop_gap, whole, Rating};

/// What each place of the row holds before a call.
const BEFORE: u16 = 0xEEEE;

/// The call of papers and engine: the answer, and the row behind it.
fn answered(file: &[u8], sheet: &[i32]) -> (Result<Rating, Refusal>, [u16; STOPS]) {
    let [mut row, mut found_row] = [[BEFORE; STOPS]; 2];
    let answer = gaps(file, sheet, &mut row);
    let handed = Sheet::of_starts(sheet);
    let found = engine::gaps_into(file, &handed, &mut found_row);
    assert_eq!(found, answers::rating_or_refusal(answer), "{sheet:?}");
    assert_eq!(found_row, row, "{sheet:?}");
    let expected = answer.map(|rating| answers::gaps(row, rating));
    let expected = expected.map_err(answers::refusal);
    assert_eq!(engine::gaps(file, &handed), expected, "{sheet:?}");
    assert_eq!(answer, all_ratings(file, sheet), "{sheet:?}");
    (answer, row)
}

/// The gaps of the stops that are served, by every method and call: stop and gap.
fn served(file: &[u8], sheet: &[i32]) -> Vec<(usize, u16)> {
    let (answer, row) = answered(file, sheet);
    let (net, starts) = (net(file), whole(sheet));
    let listed = row.into_iter().enumerate();
    let listed: Vec<(usize, u16)> = listed.filter(|(_, gap)| *gap != NO_GAP).collect();
    for (stop, gap) in row.into_iter().enumerate() {
        let by_theorem = stop_gap(&net, stop, &starts).unwrap_or(u32::from(NO_GAP));
        assert_eq!(u32::from(gap), by_theorem, "stop {stop}");
    }
    let least = listed.iter().map(|(_, gap)| u32::from(*gap)).min();
    let sum = listed.iter().map(|(_, gap)| u32::from(*gap)).sum();
    let least = least.expect("a served stop");
    assert_eq!(answer, Ok(at(least, sum)));
    listed
}

/// The paper's networks: P1 at its best and below it, P8 with a lone stop, P9 where the
/// sum decides.
#[test]
fn gaps_of_the_papers_networks() {
    assert_eq!(served(&p1(), &[0, 0]), [(0, 1)]);
    assert_eq!(served(&p1(), &[0, 3]), [(0, 2)]);
    assert_eq!(served(&p7(), &[0, 3, 6]), [(0, 3)]);
    assert_eq!(served(&p8(), &[0, 30, 5]), [(0, 30), (1, 12)]);
    assert_eq!(served(&p8(), &[0, 0, 5]), [(0, 0), (1, 12)]);
    // By 10, the offsets differ by 0, 10 and 3.
    assert_eq!(served(&p9(), &[0, 0]), [(0, 0), (1, 0), (2, 3)]);
    assert_eq!(served(&p9(), &[0, 3]), [(0, 3), (1, 3), (2, 4)]);
}

/// Source 000, section 2.3: stops 1 to 4, and none before or behind them.
#[test]
fn gaps_of_the_source() {
    let source = file(&[15, 10, 20], &CALLS);
    let gaps = [(1, 4), (2, 2), (3, 2), (4, 15)];
    assert_eq!(served(&source, &[2, 5, 1]), gaps);
    // A start moved by whole periods moves nothing.
    assert_eq!(served(&source, &[-28, 65, -19]), gaps);
}

/// The first stop and the last one, alone and together, with the longest period.
#[test]
fn lone_stops() {
    let last = file(&[1_440], &[(0, 63, 65_535)]);
    assert_eq!(served(&last, &[i32::MIN]), [(63, 1_440)]);
    let first = file(&[1_440], &[(0, 0, 0)]);
    assert_eq!(served(&first, &[i32::MAX]), [(0, 1_440)]);
    let both = file(&[1_440, 1], &[(0, 0, 0), (1, 63, 0)]);
    assert_eq!(served(&both, &[7, 7]), [(0, 1_440), (63, 1)]);
}

/// "A stop counts as lone only with one call": a line that comes back has a gap with
/// itself, up to half its period.
#[test]
fn loops() {
    let own = hex("4C000A 4300000002 4300000005 4300010003 45");
    assert_eq!(served(&own, &[-7]), [(0, 3), (1, 10)]);
    let far = hex("4C000A 4300000002 430000000B 45");
    assert_eq!(served(&far, &[0]), [(0, 1)]);
    let half = file(&[1_440], &[(0, 5, 0), (0, 5, 720), (0, 6, 0), (0, 6, 721)]);
    assert_eq!(served(&half, &[0]), [(5, 720), (6, 719)]);
    let at_once = file(&[1_440], &[(0, 5, 8), (0, 5, 8)]);
    assert_eq!(served(&at_once, &[0]), [(5, 0)]);
}

/// 32 calls at a stop: every minute, and 45 minutes apart.
#[test]
fn the_fullest_stop() {
    assert_eq!(served(&fullest_file(), &[5; 16]), [(63, 0)]);
    let calls = (0..32).map(|call| (call % 16, 63, 45 * u16::from(call)));
    let spread = file(&[1_440; 16], &calls.collect::<Vec<(u8, u8, u16)>>());
    assert_eq!(served(&spread, &[5; 16]), [(63, 45)]);
    let mut one_later = [5; 16];
    one_later[15] = 6;
    assert_eq!(served(&spread, &one_later), [(63, 44)]);
}

/// A refusal leaves the row: of the file, and behind it 15.
#[test]
fn refusals() {
    let untouched = [BEFORE; STOPS];
    for starts in [&[][..], &[0], &[0; 3], &[0; 16], &[0; 17]] {
        assert_eq!(answered(&p1(), starts), (refusal(15, 0), untouched));
    }
    for starts in [&[][..], &[0], &[0; 2]] {
        let cut = hex("4C000F 4300000008");
        assert_eq!(answered(&cut, starts), (refusal(1, 8), untouched));
        let retired = hex("5602 4C000F 4300000008 4600010003 45");
        assert_eq!(answered(&retired, starts), (refusal(19, 10), untouched));
        assert_eq!(answered(&[], starts), (refusal(1, 0), untouched));
    }
}
