//! A call that may take long: its answer is that of one call with the whole budget,
//! and while it runs there are signs of life with what is known so far.
//!
//! The engine says nothing until a call is done. So a large budget is asked for
//! in stages, a thousandth, a hundredth, a tenth and then all of it, each a walk
//! from the beginning: together at most a ninth more tries than the budget. Where a
//! stage isn't cut short by its budget, its answer is that of the whole one: the
//! engine is proved to answer alike then. Where the last one is, that is the call
//! with the whole budget itself.

use crate::line::options::{budget, QUIET};
use crate::line::table::Request;
use crate::output::watch::{Watch, Watched};
use engine::Refusal;
use std::sync::{Arc, Mutex, PoisonError};
use std::time::{Duration, Instant};

/// A stage of fewer tries would be over before the first sign.
const SMALLEST_STAGE: u32 = 1_000_000;

/// How a call is made.
pub struct Manner {
    pub budget: u32,
    /// Nobody wants signs of life: the engine is asked once, with no more tries
    /// than the answer takes.
    pub quiet: bool,
    /// What is said to be done, before anything is known.
    pub doing: String,
}

impl Manner {
    /// As a request wants it.
    pub fn wanted_by(request: &Request, doing: String) -> Manner {
        Manner {
            budget: budget(request),
            quiet: request.has(&QUIET),
            doing,
        }
    }
}

/// What is known of a call that its budget cut short.
pub struct Known {
    /// For a sign, short enough for a line of a terminal.
    pub sign: String,
    /// For the last words.
    pub line: String,
}

/// What the call answers with the whole budget. `known` has nothing of an answer that
/// every larger budget gives, too.
pub fn in_stages<Answer>(
    manner: Manner,
    call: impl Fn(u32) -> Result<Answer, Refusal>,
    known: impl Fn(&Answer) -> Option<Known>,
) -> Result<Answer, Refusal> {
    let budget = manner.budget;
    if manner.quiet {
        return call(budget);
    }
    let progress = Arc::new(Progress {
        budget,
        doing: manner.doing,
        latest: Mutex::new(None),
    });
    let _watch = Watch::begin(progress.clone());
    for tries in stages(budget) {
        let clock = Instant::now();
        let answer = call(tries)?;
        let Some(known) = known(&answer) else {
            return Ok(answer);
        };
        progress.note(Stage {
            known,
            tries,
            took: clock.elapsed(),
        });
    }
    call(budget)
}

/// The budgets before the whole one, ascending.
fn stages(budget: u32) -> Vec<u32> {
    let tenth = |budget: &u32| Some(budget / 10);
    let stages = std::iter::successors(tenth(&budget), tenth);
    let mut stages: Vec<u32> = stages
        .take_while(|stage| *stage >= SMALLEST_STAGE)
        .collect();
    stages.reverse();
    stages
}

/// What is known of a call that runs.
struct Progress {
    budget: u32,
    doing: String,
    latest: Mutex<Option<Stage>>,
}

/// A stage that was cut short, so that it made as many tries as it might.
struct Stage {
    known: Known,
    tries: u32,
    took: Duration,
}

impl Progress {
    fn note(&self, stage: Stage) {
        *self.latest.lock().unwrap_or_else(PoisonError::into_inner) = Some(stage);
    }

    fn latest<T>(&self, told: impl FnOnce(Option<&Stage>) -> T) -> T {
        told(
            self.latest
                .lock()
                .unwrap_or_else(PoisonError::into_inner)
                .as_ref(),
        )
    }
}

impl Watched for Progress {
    fn sign(&self) -> String {
        self.latest(|stage| match stage {
            None => format!("{}, budget {}", self.doing, self.budget),
            Some(stage) => stage.sign(self.budget),
        })
    }

    fn last_words(&self) -> String {
        self.latest(|stage| match stage {
            None => "interrupted; nothing is known yet".to_string(),
            Some(stage) => format!("interrupted; {}", stage.known.line),
        })
    }
}

impl Stage {
    fn sign(&self, budget: u32) -> String {
        let millions = f64::from(self.tries) / self.took.as_secs_f64().max(1e-9) / 1e6;
        let (sign, tries) = (&self.known.sign, self.tries);
        format!("{sign} in {tries} of {budget} tries, {millions:.1} million/s")
    }
}

#[cfg(test)]
mod tests {
    use super::{in_stages, stages, Known, Manner, Progress, Stage};
    use crate::output::watch::Watched;
    use std::cell::RefCell;
    use std::sync::Mutex;
    use std::time::Duration;

    #[test]
    fn a_large_budget_has_stages() {
        assert_eq!(stages(0), []);
        assert_eq!(stages(9_999_999), []);
        assert_eq!(stages(10_000_000), [1_000_000]);
        assert_eq!(stages(u32::MAX), [4_294_967, 42_949_672, 429_496_729]);
        for budget in [10_000_000, 99_999_999, 123_456_789, u32::MAX] {
            let more: u64 = stages(budget).into_iter().map(u64::from).sum();
            assert!(more * 9 <= u64::from(budget));
        }
    }

    fn known(sign: &str, line: &str) -> Known {
        let (sign, line) = (sign.to_string(), line.to_string());
        Known { sign, line }
    }

    /// Asks a call that takes so many tries, and returns the budgets it was given.
    fn budgets(tries: u32, budget: u32, quiet: bool) -> Vec<u32> {
        let asked = RefCell::new(Vec::new());
        let manner = Manner {
            budget,
            quiet,
            doing: String::new(),
        };
        let call = |budget: u32| {
            asked.borrow_mut().push(budget);
            Ok(tries.min(budget))
        };
        let known = |made: &u32| (*made < tries).then(|| known("", ""));
        assert_eq!(in_stages(manner, call, known), Ok(tries.min(budget)));
        asked.into_inner()
    }

    /// Stage after stage up to the first that isn't cut short; quietly the whole
    /// budget at once.
    #[test]
    fn no_stage_too_many() {
        assert_eq!(budgets(5, 9_999_999, false), [9_999_999]);
        assert_eq!(budgets(5, u32::MAX, false), [4_294_967]);
        let two = [4_294_967, 42_949_672];
        assert_eq!(budgets(5_000_000, u32::MAX, false), two);
        let all = [1_000_000, 10_000_000, 100_000_000];
        assert_eq!(budgets(u32::MAX, 100_000_000, false), all);
        assert_eq!(budgets(u32::MAX, 100_000_000, true), [100_000_000]);
    }

    #[test]
    fn what_is_said() {
        let progress = Progress {
            budget: u32::MAX,
            doing: "searching".to_string(),
            latest: Mutex::new(None),
        };
        assert_eq!(progress.sign(), "searching, budget 4294967295");
        assert_eq!(progress.last_words(), "interrupted; nothing is known yet");
        progress.note(Stage {
            known: known("gap 2 sum 2", "stopped gap 2"),
            tries: 20,
            took: Duration::from_micros(2),
        });
        let sign = "gap 2 sum 2 in 20 of 4294967295 tries, 10.0 million/s";
        assert_eq!(progress.sign(), sign);
        assert_eq!(progress.last_words(), "interrupted; stopped gap 2");
    }
}
