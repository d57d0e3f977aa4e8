//! Why a sheet has the rating that it has: its stops one by one, beside a key where there
//! is one. Every number is the engine's; they are compared and nothing is computed of them.

use super::witness::{witness, Window};
use engine::{Arrival, Better, Gaps, Rating, Refusal, Searched, Sheet};

/// Beside what a sheet is explained.
#[derive(Clone, Debug, PartialEq, Eq)]
pub enum Key {
    /// The starts of a finished search: no timetable is better.
    Best(Sheet),
    /// A sheet that was handed over, which needn't be the best.
    Given(Sheet),
    /// The search stopped before the best was known.
    Unknown,
}

/// A sheet's rating and its served stops.
pub struct Explained {
    pub rating: Rating,
    /// The key that there is.
    pub beside: Option<Beside>,
    /// First where the sheet loses, then where it gains, then the others; within each the
    /// smallest gap first, then by number.
    pub stops: Vec<Stop>,
}

/// A key, and how the sheet stands to it.
pub struct Beside {
    pub rating: Rating,
    pub standing: Standing,
    /// Whether no timetable is better.
    pub is_best: bool,
}

#[derive(Clone, Copy, Debug, PartialEq, Eq)]
pub enum Standing {
    Below,
    Equal,
    /// No sheet is above the best.
    Above,
}

/// A served stop under the sheet.
pub struct Stop {
    pub number: u8,
    pub gap: u16,
    pub key_gap: Option<u16>,
    /// Whether no stop has a smaller gap.
    pub is_least: bool,
    /// The line, where one call alone is made here: its period is the gap.
    pub lone_line: Option<u8>,
    /// Two arrivals that are as far apart as the gap, from minute 0 on.
    pub pair: Option<[Arrival; 2]>,
}

/// A stop's gap beside the key's there, in the order in which stops are told.
#[derive(Clone, Copy, Debug, PartialEq, Eq, PartialOrd, Ord)]
pub enum Change {
    Loses,
    Gains,
    Same,
}

impl Key {
    pub fn of_search(searched: &Searched) -> Key {
        match searched {
            Searched::Finished(best) => Key::Best(Sheet::of_starts(best.starts())),
            Searched::Stopped { .. } | Searched::StoppedWithNone { .. } => Key::Unknown,
        }
    }

    pub fn sheet(&self) -> Option<&Sheet> {
        match self {
            Key::Best(sheet) | Key::Given(sheet) => Some(sheet),
            Key::Unknown => None,
        }
    }
}

impl Standing {
    /// By better-of-two, which has the first if both are equal.
    fn of(file: &[u8], sheet: &Sheet, key: &Sheet) -> Standing {
        let is_first = |one, other| engine::better(file, one, other) == Better::First;
        match (is_first(sheet, key), is_first(key, sheet)) {
            (true, true) => Standing::Equal,
            (true, false) => Standing::Above,
            (false, _) => Standing::Below,
        }
    }

    pub fn word(self) -> &'static str {
        match self {
            Standing::Below => "below",
            Standing::Equal => "equal",
            Standing::Above => "above",
        }
    }
}

impl Stop {
    /// Nothing without a key.
    pub fn change(&self) -> Option<Change> {
        let key_gap = self.key_gap?;
        Some(match self.gap.cmp(&key_gap) {
            std::cmp::Ordering::Less => Change::Loses,
            std::cmp::Ordering::Greater => Change::Gains,
            std::cmp::Ordering::Equal => Change::Same,
        })
    }
}

impl Change {
    pub fn word(self) -> &'static str {
        match self {
            Change::Loses => "loses",
            Change::Gains => "gains",
            Change::Same => "same",
        }
    }
}

/// Explains a sheet. Sheet and key are refused as the rate call refuses them.
pub fn explained(file: &[u8], sheet: &Sheet, key: &Key) -> Result<Explained, Refusal> {
    let gaps = engine::gaps(file, sheet)?;
    let key_gaps = match key.sheet() {
        Some(key) => Some(engine::gaps(file, key)?),
        None => None,
    };
    let beside = key
        .sheet()
        .zip(key_gaps.as_ref())
        .map(|(of_key, gaps)| Beside {
            rating: gaps.rating,
            standing: Standing::of(file, sheet, of_key),
            is_best: matches!(key, Key::Best(_)),
        });
    Ok(Explained {
        rating: gaps.rating,
        beside,
        stops: stops(file, (sheet, &gaps), key_gaps.as_ref())?,
    })
}

fn stops(
    file: &[u8],
    (sheet, gaps): (&Sheet, &Gaps),
    key_gaps: Option<&Gaps>,
) -> Result<Vec<Stop>, Refusal> {
    let contents = engine::contents(file)?;
    let window = Window {
        first: 0,
        length: engine::read(file)?.cycle,
    };
    let mut stops = Vec::new();
    for (number, gap) in (0..)
        .zip(gaps.gap_row)
        .filter(|(_, gap)| *gap != engine::NO_GAP)
    {
        let board = engine::board(file, sheet, number.into(), window.first, window.length)?;
        let lone_line = match contents.at_stop(number)[..] {
            [call] => Some(call.line),
            _ => None,
        };
        stops.push(Stop {
            number,
            gap,
            key_gap: key_gaps.and_then(|gaps| gaps.at(number)),
            is_least: u32::from(gap) == gaps.rating.least,
            lone_line,
            pair: witness(file, (sheet, number, gap), window, &board)?,
        });
    }
    stops.sort_by_key(|stop| (stop.change(), stop.gap, stop.number));
    Ok(stops)
}

#[cfg(test)]
mod tests {
    use super::{explained, Change, Explained, Key, Standing};
    use engine::{Searched, Sheet};
    use papers::files::{sheet, Dice};
    use papers::small::small_file_for_gaps;
    use std::cmp::Ordering;
    use std::collections::BTreeMap;

    /// A key of each kind: the best, any sheet that fits, or none.
    fn any_key(dice: &mut Dice, file: &[u8], lines: usize) -> Key {
        let searched = engine::search(file, 20_000).expect("an accepted file");
        match dice.below(4) {
            0 => Key::Unknown,
            1 => Key::Given(Sheet::of_starts(&sheet(dice, lines))),
            _ => Key::of_search(&searched),
        }
    }

    /// The stops have the gaps of the engine, which make its rating, and two arrivals each
    /// that are so far apart.
    fn stops_are_the_engines(file: &[u8], sheet: &Sheet, explained: &Explained) {
        let gaps = engine::gaps(file, sheet).expect("a sheet that fits");
        let rating = engine::rate(file, sheet).expect("a sheet that fits");
        let contents = engine::contents(file).expect("an accepted file");
        assert_eq!(explained.rating, rating);
        let mut numbers: Vec<u8> = explained.stops.iter().map(|stop| stop.number).collect();
        numbers.sort();
        let served: Vec<u8> = (0..64).filter(|stop| gaps.at(*stop).is_some()).collect();
        assert_eq!(numbers, served);
        let all = || explained.stops.iter().map(|stop| u32::from(stop.gap));
        assert_eq!((all().min(), all().sum()), (Some(rating.least), rating.sum));
        for stop in &explained.stops {
            assert_eq!(gaps.at(stop.number), Some(stop.gap));
            assert_eq!(stop.is_least, u32::from(stop.gap) == rating.least);
            let [one, other] = stop.pair.expect("a pair");
            assert_eq!(other.time - one.time, i64::from(stop.gap));
            let calls = contents.at_stop(stop.number);
            assert_eq!(stop.lone_line.is_some(), calls.len() == 1);
            if let Some(line) = stop.lone_line {
                assert_eq!((one.line, other.line, line), (line, line, calls[0].line));
                assert_eq!(contents.periods[usize::from(line)], stop.gap);
            }
        }
    }

    /// The sheet loses exactly where its gap is smaller than the key's, and stands to the
    /// key as their ratings do.
    fn changes_are_by_the_key(file: &[u8], key: &Sheet, explained: &Explained, is_best: bool) {
        let gaps = engine::gaps(file, key).expect("a key that fits");
        let beside = explained.beside.as_ref().expect("a key");
        assert_eq!((beside.rating, beside.is_best), (gaps.rating, is_best));
        let standing = match explained.rating.cmp(&gaps.rating) {
            Ordering::Less => Standing::Below,
            Ordering::Equal => Standing::Equal,
            Ordering::Greater => Standing::Above,
        };
        assert_eq!(beside.standing, standing);
        for stop in &explained.stops {
            let key_gap = gaps.at(stop.number).expect("a served stop");
            assert_eq!(stop.key_gap, Some(key_gap));
            let loses = stop.change() == Some(Change::Loses);
            assert_eq!(loses, stop.gap < key_gap);
            let gains = stop.change() == Some(Change::Gains);
            assert_eq!(gains, stop.gap > key_gap);
        }
    }

    #[test]
    fn on_seeded_files() {
        let mut dice = Dice::new(313);
        let mut seen: BTreeMap<&str, usize> = BTreeMap::new();
        for _ in 0..2_000 {
            let (file, net) = small_file_for_gaps(&mut dice, 2_000);
            let sheet = Sheet::of_starts(&sheet(&mut dice, net.lines()));
            let key = any_key(&mut dice, &file, net.lines());
            let explained = explained(&file, &sheet, &key).expect("sheets that fit");
            stops_are_the_engines(&file, &sheet, &explained);
            let word = match &explained.beside {
                None => "unknown",
                Some(beside) => beside.standing.word(),
            };
            *seen.entry(word).or_default() += 1;
            match key.sheet() {
                None => assert!(explained.beside.is_none()),
                Some(sheet) => {
                    let is_best = matches!(key, Key::Best(_));
                    changes_are_by_the_key(&file, sheet, &explained, is_best);
                    assert!(!is_best || word != "above");
                }
            }
            for stop in &explained.stops {
                let word = stop.change().map_or("no key", Change::word);
                *seen.entry(word).or_default() += 1;
            }
        }
        for word in [
            "unknown", "below", "equal", "above", "loses", "gains", "same",
        ] {
            assert!(seen[word] > 50, "{seen:?}");
        }
    }

    /// First where it loses, then where it gains; the smallest gap first, then by number.
    #[test]
    fn the_order_of_stops() {
        let mut dice = Dice::new(314);
        for _ in 0..500 {
            let (file, net) = small_file_for_gaps(&mut dice, 2_000);
            let own = Sheet::of_starts(&sheet(&mut dice, net.lines()));
            let key = any_key(&mut dice, &file, net.lines());
            let stops = explained(&file, &own, &key).expect("sheets that fit").stops;
            for pair in stops.windows(2) {
                let place = |at: usize| {
                    let group = match pair[at].change() {
                        None | Some(Change::Loses) => 0,
                        Some(Change::Gains) => 1,
                        Some(Change::Same) => 2,
                    };
                    (group, pair[at].gap, pair[at].number)
                };
                assert!(place(0) < place(1));
            }
        }
    }

    #[test]
    fn refused() {
        let network = engine::typed::read(b"4C000F 4C0014 4300000008 4301000011 45");
        let network = network.expect("typed");
        let [good, bad] = [&[0, 3][..], &[0]].map(Sheet::of_starts);
        let refused = |file: &[u8], sheet: &Sheet, key: &Sheet| {
            let explained = explained(file, sheet, &Key::Given(key.clone()));
            explained.err().map(|refusal| refusal.to_string())
        };
        let misfit = Some("refused 15 at 0".to_string());
        assert_eq!(refused(network.bytes(), &bad, &good), misfit);
        assert_eq!(refused(network.bytes(), &good, &bad), misfit);
        assert_eq!(refused(network.bytes(), &good, &good), None);
        let cut = Some("refused 1 at 0".to_string());
        assert_eq!(refused(b"", &good, &good), cut);
    }

    /// A search that stopped has no key, whatever it found.
    #[test]
    fn keys_of_searches() {
        let network = engine::typed::read(b"4C000F 4C0014 4300000008 4301000011 45");
        let network = network.expect("typed");
        let key = |budget| {
            let searched: Searched = engine::search(network.bytes(), budget).expect("accepted");
            Key::of_search(&searched)
        };
        assert_eq!(key(21), Key::Best(Sheet::of_starts(&[0, 3])));
        assert_eq!([key(20), key(1)], [Key::Unknown, Key::Unknown]);
    }
}
