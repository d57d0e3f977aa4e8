//! Searches that may take long, for the best timetable and for one with a wanted gap.
//!
//! What their stages rest on is a theorem of each: `search_export_with_more_tries` and
//! `wanted_export_with_more_tries` of `crates/examination/proofs`, `ExportSearch.antt` and
//! `ExportWanted.antt`. An answer that no budget cut short is that of every larger one.

use super::stages::{in_stages, Known, Manner};
use crate::output::lines::{search_line, shown, stopped_line};
use engine::{Refusal, Searched, Wanted};

/// What `engine::search` answers with this budget.
pub fn search(file: &[u8], manner: Manner) -> Result<Searched, Refusal> {
    let call = |budget| engine::search(file, budget);
    in_stages(manner, call, known_of_search)
}

/// What `engine::wanted` answers with this budget.
pub fn wanted(file: &[u8], gap: u16, manner: Manner) -> Result<Wanted, Refusal> {
    let call = |budget| engine::wanted(file, gap, budget);
    in_stages(manner, call, known_of_wanted)
}

fn known_of_search(searched: &Searched) -> Option<Known> {
    let sign = match searched {
        Searched::Finished(_) => return None,
        Searched::Stopped { so_far, .. } => shown(so_far.rating()),
        Searched::StoppedWithNone { .. } => "none".to_string(),
    };
    let line = search_line(searched);
    Some(Known { sign, line })
}

fn known_of_wanted(wanted: &Wanted) -> Option<Known> {
    match wanted {
        Wanted::Found { .. } | Wanted::None { .. } => None,
        Wanted::Stopped { tries } => Some(Known {
            sign: "no timetable".to_string(),
            line: stopped_line(*tries),
        }),
    }
}

#[cfg(test)]
mod tests {
    use super::{known_of_search, known_of_wanted};
    use crate::hall::stages::{Known, Manner};
    use engine::{Searched, Wanted};
    use papers::files::{any_budget, any_file, any_gap, roomy_file, Dice};

    /// What makes stages possible: the answer of a finished search is the same
    /// with every larger budget, and with every smaller one a search stops.
    #[test]
    fn a_finished_search_is_the_same_with_every_larger_budget() {
        let mut dice = Dice::new(303);
        let mut finished = 0;
        for _ in 0..1_500 {
            let file = any_file(&mut dice);
            let Ok(Searched::Finished(best)) = engine::search(&file, 20_000) else {
                continue;
            };
            finished += 1;
            let tries = best.tries();
            let larger = tries.saturating_add(any_budget(&mut dice));
            for budget in [tries, larger, 20_000, u32::MAX] {
                let again = engine::search(&file, budget);
                assert_eq!(again, Ok(Searched::Finished(best.clone())));
            }
            let fewer = engine::search(&file, tries - 1).expect("an accepted file");
            assert!(!matches!(fewer, Searched::Finished(_)));
        }
        assert!(finished > 300, "{finished} finished");
    }

    /// The same of a wanted gap that is found, or that no timetable has.
    #[test]
    fn a_gap_found_or_not_is_the_same_with_every_larger_budget() {
        let mut dice = Dice::new(307);
        let mut ends = [0; 2];
        for _ in 0..1_500 {
            let file = roomy_file(&mut dice);
            let gap = any_gap(&mut dice, &file);
            let wanted = engine::wanted(&file, gap, 20_000).expect("an accepted file");
            let (end, tries) = match wanted {
                Wanted::Found { tries, .. } => (0, tries),
                Wanted::None { tries } => (1, tries),
                Wanted::Stopped { .. } => continue,
            };
            ends[end] += 1;
            let larger = tries.saturating_add(any_budget(&mut dice));
            for budget in [tries, larger, 20_000, u32::MAX] {
                assert_eq!(engine::wanted(&file, gap, budget), Ok(wanted.clone()));
            }
            let stopped = Wanted::Stopped { tries: tries - 1 };
            assert_eq!(engine::wanted(&file, gap, tries - 1), Ok(stopped));
        }
        assert!(ends.iter().all(|&count| count > 300), "{ends:?}");
    }

    #[test]
    fn the_answer_is_the_engines() {
        let mut dice = Dice::new(304);
        for _ in 0..500 {
            let file = any_file(&mut dice);
            let budget = any_budget(&mut dice);
            let gap = any_gap(&mut dice, &file);
            let [one, other] = [0, 1].map(|_| Manner {
                budget,
                quiet: dice.once_in(2),
                doing: String::new(),
            });
            assert_eq!(super::search(&file, one), engine::search(&file, budget));
            let expected = engine::wanted(&file, gap, budget);
            assert_eq!(super::wanted(&file, gap, other), expected);
        }
    }

    fn said(known: Option<Known>) -> Option<(String, String)> {
        known.map(|known| (known.sign, known.line))
    }

    #[test]
    fn what_is_known() {
        let network = engine::typed::read(b"4C000F 4C0014 4300000008 4301000011 45");
        let network = network.expect("typed");
        let searched = |budget| engine::search(network.bytes(), budget).expect("accepted");
        let words = |sign: &str, line: &str| Some((sign.to_string(), line.to_string()));
        let stopped = words("gap 2 sum 2", "stopped gap 2 sum 2 tries 20 starts 0 3");
        assert_eq!(said(known_of_search(&searched(20))), stopped);
        let none = words("none", "stopped tries 1");
        assert_eq!(said(known_of_search(&searched(1))), none);
        assert_eq!(said(known_of_search(&searched(21))), None);
        let wanted = |gap, budget| engine::wanted(network.bytes(), gap, budget).expect("accepted");
        let stopped = words("no timetable", "stopped tries 4");
        assert_eq!(said(known_of_wanted(&wanted(2, 4))), stopped);
        assert_eq!(said(known_of_wanted(&wanted(2, 5))), None);
        assert_eq!(said(known_of_wanted(&wanted(3, 1))), None);
    }
}
