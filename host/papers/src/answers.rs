//! The papers' answers in the wrapper's types; a search's the other way, since
//! nobody but the wrapper makes a best.

use crate::sections;
use crate::sections::board;
use crate::sections::hundred;
use crate::sections::network::{Network, STOPS};
use crate::sections::sheets::Marked;
use crate::sections::walk::{Answer, Walked};
use crate::sections::wanted::{self, Sought};
use engine::{
    Arrival, Better, Classes, Counts, Gaps, Ground, Hundred, Mark, Rating, Refusal, Searched,
    Wanted,
};

pub fn refusal(paper: sections::network::Refusal) -> Refusal {
    let number = u32::from(paper.number);
    Refusal {
        ground: Ground::try_from(number).expect("a ground"),
        place: paper.place as u32,
    }
}

pub fn rated(paper: sections::rating::Rating) -> Rating {
    Rating {
        least: paper.least,
        sum: paper.sum,
    }
}

pub fn rating_or_refusal(
    paper: Result<sections::rating::Rating, sections::network::Refusal>,
) -> Result<Rating, Refusal> {
    paper.map(rated).map_err(refusal)
}

pub fn counts(net: &Network) -> Counts {
    counted(net.counts())
}

pub fn counted(paper: sections::network::Counts) -> Counts {
    Counts {
        lines: paper.lines as u32,
        served_stops: paper.served_stops as u32,
        calls: paper.calls as u32,
        cycle: paper.cycle,
    }
}

pub fn classed(paper: sections::classes::Classes) -> Classes {
    Classes {
        class_row: paper.class_row,
        weight_row: paper.weight_row,
        count: paper.count as u32,
    }
}

pub fn gaps(gap_row: [u16; STOPS], paper: sections::rating::Rating) -> Gaps {
    Gaps {
        gap_row,
        rating: rated(paper),
    }
}

pub fn better(paper: sections::sheets::Better) -> Better {
    match paper {
        sections::sheets::Better::First => Better::First,
        sections::sheets::Better::Second => Better::Second,
        sections::sheets::Better::Neither => Better::Neither,
    }
}

pub fn walked(searched: Searched) -> Walked {
    let paper = |rating: Rating| sections::rating::Rating {
        least: rating.least,
        sum: rating.sum,
    };
    let (answer, starts) = match searched {
        Searched::Finished(found) => {
            let (best, tries) = (paper(found.rating()), found.tries());
            (
                Answer::Finished { best, tries },
                Some(found.starts().to_vec()),
            )
        }
        Searched::Stopped { so_far, tries } => {
            let best = paper(so_far.rating());
            (
                Answer::Stopped { best, tries },
                Some(so_far.starts().to_vec()),
            )
        }
        Searched::StoppedWithNone { tries } => (Answer::StoppedWithNone { tries }, None),
    };
    Walked { answer, starts }
}

pub fn sought(wanted: Wanted) -> Sought {
    let (answer, starts) = match wanted {
        Wanted::Found { starts, tries } => (wanted::Wanted::Found { tries }, Some(starts)),
        Wanted::None { tries } => (wanted::Wanted::None { tries }, None),
        Wanted::Stopped { tries } => (wanted::Wanted::Stopped { tries }, None),
    };
    Sought { answer, starts }
}

pub fn out_of_hundred(paper: hundred::Hundred) -> Hundred {
    Hundred {
        mark: paper.mark,
        remainder: paper.remainder,
    }
}

pub fn marked(paper: Marked) -> Mark {
    match paper {
        Marked::Decided {
            sheet,
            best,
            equal,
            tries,
        } => Mark::Decided {
            sheet: rated(sheet),
            best: rated(best),
            equal,
            hundred: out_of_hundred(hundred::hundred(sheet, best)),
            tries,
        },
        Marked::Undecided { sheet, tries } => Mark::Undecided {
            sheet: rated(sheet),
            tries,
        },
    }
}

pub fn arrivals(paper: &[board::Arrival]) -> Vec<Arrival> {
    let arrival = |&board::Arrival { time, line }| Arrival { time, line };
    paper.iter().map(arrival).collect()
}
