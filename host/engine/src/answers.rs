//! What the calls answer.

/// Stops are 0 to 63; class and weight rows have a place for each.
///
/// ```
/// assert_eq!(engine::STOPS, 64);
/// ```
pub const STOPS: usize = 64;

/// A board is of so many minutes at most; a longer one is refused.
///
/// ```
/// assert_eq!(engine::LONGEST_BOARD, 10_080);
/// ```
pub const LONGEST_BOARD: u32 = 10_080;

/// A stop has so many calls at most: those of 16 lines, twice each. A call arrives once
/// a minute at most, so that rows of this many places for each minute are long enough
/// for every board.
///
/// ```
/// assert_eq!(engine::MOST_CALLS_AT_STOP, 32);
/// ```
pub const MOST_CALLS_AT_STOP: usize = 32;

/// In a row of gaps: no line calls at the stop.
///
/// ```
/// assert_eq!(engine::NO_GAP, 65_535);
/// ```
pub const NO_GAP: u16 = u16::MAX;

/// A timetable's rating. The order is that of ratings: the least gap first,
/// then the sum.
///
/// ```
/// use engine::Rating;
///
/// assert!(Rating { least: 2, sum: 2 } > Rating { least: 1, sum: 90 });
/// assert!(Rating { least: 2, sum: 3 } > Rating { least: 2, sum: 2 });
/// ```
#[derive(Clone, Copy, Debug, PartialEq, Eq, PartialOrd, Ord)]
pub struct Rating {
    /// The least gap between two lines at any stop, in minutes.
    pub least: u32,
    /// The sum of the gaps over all stops.
    pub sum: u32,
}

/// What the read call says of an accepted network.
///
/// ```
/// use engine::{typed, Counts};
///
/// let network = typed::read(b"4C000F 4C0014 4300000008 4301000011 45")?;
/// let counts = Counts { lines: 2, served_stops: 1, calls: 2, cycle: 60 };
/// assert_eq!(engine::read(network.bytes()), Ok(counts));
/// # Ok::<(), typed::Mistyped>(())
/// ```
#[derive(Clone, Copy, Debug, PartialEq, Eq)]
pub struct Counts {
    /// Lines, 1 to 16: a sheet has so many starts.
    pub lines: u32,
    /// Stops at which a line calls, 1 to 64.
    pub served_stops: u32,
    /// Calls, 1 to 256.
    pub calls: u32,
    /// The least common multiple of the periods, 1 to 10,080.
    pub cycle: u32,
}

/// The two rows of the class call and the number of classes. Stops of one class
/// rate alike under every timetable.
///
/// ```
/// // Line 0 calls at stops 0 and 1, and no other line does.
/// let network = engine::typed::read(b"4C000F 4300000008 4300010009 45").unwrap();
/// let classes = engine::classes(network.bytes()).unwrap();
/// assert_eq!(classes.count, 1);
/// assert_eq!(classes.class_row[..3], [0, 0, 255]);
/// assert_eq!(classes.weight_row[..3], [2, 0, 0]);
/// ```
#[derive(Clone, Debug, PartialEq, Eq)]
pub struct Classes {
    /// For each stop the lowest stop alike to it, 255 if unserved.
    pub class_row: [u8; STOPS],
    /// At a class's lowest stop its size, 0 elsewhere.
    pub weight_row: [u16; STOPS],
    /// The number of classes, 1 to 64.
    pub count: u32,
}

/// The gap of each stop under a sheet, and the sheet's rating, which is the least of
/// these gaps and their sum.
///
/// ```
/// use engine::{Rating, Sheet};
///
/// // Lines of 15 and 20 minutes that meet at stop 0; the first alone at stop 1.
/// let network = engine::typed::read(b"4C000F 4C0014 4300000008 4300010009 4301000011 45").unwrap();
/// let gaps = engine::gaps(network.bytes(), &Sheet::of_starts(&[0, 0])).unwrap();
/// assert_eq!((gaps.at(0), gaps.at(1), gaps.at(2)), (Some(1), Some(15), None));
/// assert_eq!(gaps.rating, Rating { least: 1, sum: 16 });
/// ```
#[derive(Clone, Debug, PartialEq, Eq)]
pub struct Gaps {
    /// For each stop its gap in minutes, 0 to 1,440; [`NO_GAP`] if unserved.
    pub gap_row: [u16; STOPS],
    /// What [`crate::rate`] answers.
    pub rating: Rating,
}

impl Gaps {
    /// The gap of a stop, if a line calls there.
    ///
    /// ```
    /// use engine::Sheet;
    ///
    /// // Line 0 every 15 minutes, at stop 63 alone.
    /// let network = engine::typed::read(b"4C000F 43003F0008 45").unwrap();
    /// let gaps = engine::gaps(network.bytes(), &Sheet::of_starts(&[0])).unwrap();
    /// assert_eq!((gaps.at(63), gaps.at(62), gaps.at(64)), (Some(15), None, None));
    /// ```
    pub fn at(&self, stop: u8) -> Option<u16> {
        let gap = self.gap_row.get(usize::from(stop)).copied();
        gap.filter(|gap| *gap != NO_GAP)
    }
}

/// An arrival on a stop's board. The order is that of the board: by time, then line.
///
/// ```
/// use engine::{Arrival, Sheet};
///
/// // Line 0 every 15 minutes, reaching stop 0 after 8.
/// let network = engine::typed::read(b"4C000F 4300000008 45").unwrap();
/// let board = engine::board(network.bytes(), &Sheet::of_starts(&[0]), 0, -10, 20).unwrap();
/// assert_eq!(board, [-7, 8].map(|time| Arrival { time, line: 0 }));
/// ```
#[derive(Clone, Copy, Debug, PartialEq, Eq, PartialOrd, Ord)]
pub struct Arrival {
    /// The minute, counted as the sheet's starts are.
    pub time: i64,
    /// The line, counted from 0.
    pub line: u8,
}

/// How a search ended. Only a finished search has a [`Best`].
///
/// ```
/// use engine::{typed, Searched};
///
/// let network = typed::read(b"4C000F 4C0014 4300000008 4301000011 45")?;
/// match engine::search(network.bytes(), 1_000_000).expect("an accepted network") {
///     Searched::Finished(best) => assert_eq!(best.starts(), [0, 3]),
///     Searched::Stopped { so_far, .. } => panic!("{:?} may be beaten", so_far.starts()),
///     Searched::StoppedWithNone { tries } => panic!("nothing after {tries} tries"),
/// }
/// # Ok::<(), typed::Mistyped>(())
/// ```
#[derive(Clone, Debug, PartialEq, Eq)]
pub enum Searched {
    /// All starts are decided on.
    Finished(Best),
    /// The budget was used up; a better timetable may be left.
    Stopped {
        /// The best of those tried.
        so_far: SoFar,
        /// The tries made, which are the budget.
        tries: u32,
    },
    /// The budget was used up before the first timetable.
    StoppedWithNone {
        /// The tries made, which are the budget.
        tries: u32,
    },
}

/// The best timetable: no choice of whole-number starts is better. It comes from
/// a finished search alone and can't be made otherwise, so that nobody takes the
/// starts of a stopped search for a key.
///
/// ```
/// use engine::{Rating, Searched};
///
/// let network = engine::typed::read(b"4C000F 4C0014 4300000008 4301000011 45").unwrap();
/// let searched = engine::search(network.bytes(), 21).expect("an accepted network");
/// let Searched::Finished(best) = searched else {
///     panic!("21 tries are enough");
/// };
/// assert_eq!(best.rating(), Rating { least: 2, sum: 2 });
/// assert_eq!((best.starts(), best.tries()), (&[0, 3][..], 21));
/// ```
///
/// ```compile_fail,E0451
/// let rating = engine::Rating { least: 2, sum: 2 };
/// let best = engine::Best { rating, starts: vec![0, 3], tries: 21 };
/// ```
#[derive(Clone, Debug, PartialEq, Eq)]
pub struct Best {
    pub(crate) rating: Rating,
    pub(crate) starts: Vec<i32>,
    pub(crate) tries: u32,
}

impl Best {
    /// Its rating.
    ///
    /// ```
    /// # use engine::{Rating, Searched};
    /// # let network = engine::typed::read(b"4C000F 4C0014 4300000008 4301000011 45").unwrap();
    /// let searched = engine::search(network.bytes(), 21).expect("an accepted network");
    /// let Searched::Finished(best) = searched else {
    ///     panic!("it ended otherwise");
    /// };
    /// assert_eq!(best.rating(), Rating { least: 2, sum: 2 });
    /// ```
    pub fn rating(&self) -> Rating {
        self.rating
    }

    /// Its starts in line order.
    ///
    /// ```
    /// # use engine::{Rating, Searched};
    /// # let network = engine::typed::read(b"4C000F 4C0014 4300000008 4301000011 45").unwrap();
    /// let searched = engine::search(network.bytes(), 21).expect("an accepted network");
    /// let Searched::Finished(best) = searched else {
    ///     panic!("it ended otherwise");
    /// };
    /// assert_eq!(best.starts(), [0, 3]);
    /// ```
    pub fn starts(&self) -> &[i32] {
        &self.starts
    }

    /// The tries that the search took.
    ///
    /// ```
    /// # use engine::{Rating, Searched};
    /// # let network = engine::typed::read(b"4C000F 4C0014 4300000008 4301000011 45").unwrap();
    /// let searched = engine::search(network.bytes(), 1_000_000).expect("an accepted network");
    /// let Searched::Finished(best) = searched else {
    ///     panic!("it ended otherwise");
    /// };
    /// assert_eq!(best.tries(), 21);
    /// ```
    pub fn tries(&self) -> u32 {
        self.tries
    }
}

/// The best timetable of those that a stopped search tried. There may be a
/// better one.
///
/// ```
/// use engine::{Rating, Searched};
///
/// let network = engine::typed::read(b"4C000F 4C0014 4300000008 4301000011 45").unwrap();
/// let searched = engine::search(network.bytes(), 2).expect("an accepted network");
/// let Searched::Stopped { so_far, tries: 2 } = searched else {
///     panic!("2 tries aren't enough");
/// };
/// assert_eq!(so_far.rating(), Rating { least: 1, sum: 1 });
/// assert_eq!(so_far.starts(), [0, 0]);
/// ```
#[derive(Clone, Debug, PartialEq, Eq)]
pub struct SoFar {
    pub(crate) rating: Rating,
    pub(crate) starts: Vec<i32>,
}

impl SoFar {
    /// Its rating.
    ///
    /// ```
    /// # use engine::{Rating, Searched};
    /// # let network = engine::typed::read(b"4C000F 4C0014 4300000008 4301000011 45").unwrap();
    /// let searched = engine::search(network.bytes(), 2).expect("an accepted network");
    /// let Searched::Stopped { so_far, .. } = searched else {
    ///     panic!("it ended otherwise");
    /// };
    /// assert_eq!(so_far.rating(), Rating { least: 1, sum: 1 });
    /// ```
    pub fn rating(&self) -> Rating {
        self.rating
    }

    /// Its starts in line order.
    ///
    /// ```
    /// # use engine::{Rating, Searched};
    /// # let network = engine::typed::read(b"4C000F 4C0014 4300000008 4301000011 45").unwrap();
    /// let searched = engine::search(network.bytes(), 2).expect("an accepted network");
    /// let Searched::Stopped { so_far, .. } = searched else {
    ///     panic!("it ended otherwise");
    /// };
    /// assert_eq!(so_far.starts(), [0, 0]);
    /// ```
    pub fn starts(&self) -> &[i32] {
        &self.starts
    }
}

/// How a search ended whose starts stand in a row of the caller.
///
/// ```
/// use engine::{Rating, RowSearched};
///
/// let network = engine::typed::read(b"4C000F 4C0014 4300000008 4301000011 45").unwrap();
/// let mut row = [7, 7];
/// let ended = engine::search_into(network.bytes(), &mut row, 1);
/// assert_eq!(ended, Ok(RowSearched::StoppedWithNone { tries: 1 }));
/// assert_eq!(row, [7, 7]);
/// ```
#[derive(Clone, Copy, Debug, PartialEq, Eq)]
pub enum RowSearched {
    /// The row has the starts of the best timetable.
    Finished {
        /// Its rating.
        rating: Rating,
        /// The tries that the search took.
        tries: u32,
    },
    /// The row has the starts of the best of those tried.
    Stopped {
        /// Its rating.
        rating: Rating,
        /// The tries made, which are the budget.
        tries: u32,
    },
    /// The row stays as it was.
    StoppedWithNone {
        /// The tries made, which are the budget.
        tries: u32,
    },
}

/// What became of a wanted gap.
///
/// ```
/// use engine::{typed, Rating, Sheet, Wanted};
///
/// let network = typed::read(b"4C000F 4C0014 4300000008 4301000011 45")?;
/// match engine::wanted(network.bytes(), 1, 1_000_000).expect("an accepted network") {
///     Wanted::Found { starts, tries: 2 } => {
///         let rating = engine::rate(network.bytes(), &Sheet::of_starts(&starts));
///         assert_eq!(rating, Ok(Rating { least: 1, sum: 1 }));
///     }
///     other => panic!("{other:?}"),
/// }
/// # Ok::<(), typed::Mistyped>(())
/// ```
#[derive(Clone, Debug, PartialEq, Eq)]
pub enum Wanted {
    /// A timetable whose least gap is at least the wanted one. There may be others
    /// with a larger gap or sum.
    Found {
        /// Its starts in line order.
        starts: Vec<i32>,
        /// The tries made.
        tries: u32,
    },
    /// No choice of whole-number starts has a least gap as large.
    None {
        /// The tries made.
        tries: u32,
    },
    /// The budget was used up; nobody knows whether there is one.
    Stopped {
        /// The tries made, which are the budget.
        tries: u32,
    },
}

/// What became of a wanted gap, the starts standing in a row of the caller.
///
/// ```
/// use engine::RowWanted;
///
/// let network = engine::typed::read(b"4C000F 4C0014 4300000008 4301000011 45").unwrap();
/// let mut row = [7, 7];
/// let sought = engine::wanted_into(network.bytes(), &mut row, 3, 1);
/// assert_eq!(sought, Ok(RowWanted::None { tries: 1 }));
/// assert_eq!(row, [7, 7]);
/// ```
#[derive(Clone, Copy, Debug, PartialEq, Eq)]
pub enum RowWanted {
    /// The row has the starts of a timetable with at least the wanted gap.
    Found {
        /// The tries made.
        tries: u32,
    },
    /// There is none; the row stays as it was.
    None {
        /// The tries made.
        tries: u32,
    },
    /// Nobody knows whether there is one; the row stays as it was.
    Stopped {
        /// The tries made, which are the budget.
        tries: u32,
    },
}

/// The better of two sheets.
///
/// ```
/// use engine::{Better, Sheet};
///
/// let network = engine::typed::read(b"4C000F 4C0014 4300000008 4301000011 45").unwrap();
/// let [short, long] = [Sheet::of_starts(&[0]), Sheet::of_starts(&[0, 0, 0])];
/// assert_eq!(engine::better(network.bytes(), &short, &long), Better::Neither);
/// ```
#[derive(Clone, Copy, Debug, PartialEq, Eq)]
pub enum Better {
    /// The first, also if both are equal.
    First,
    /// The second.
    Second,
    /// The file is refused, or no sheet has one start for each line.
    Neither,
}

/// A mark out of a hundred: the whole part of 100 times the sheet's least gap over
/// that of the best timetable, or of a key, and the remainder. Mark times that plus
/// remainder is 100 times the sheet's, and the remainder is smaller than that. Where it
/// is 0, the mark is 100 and the remainder 0, whatever the sheet's. Sums don't enter.
///
/// The order is that by which sheets are ranked: the mark first, then the remainder.
///
/// ```
/// use engine::Hundred;
///
/// let [more, less] = [2, 1].map(|remainder| Hundred { mark: 66, remainder });
/// assert!(more > less && less > Hundred { mark: 33, remainder: 1 });
/// ```
#[derive(Clone, Copy, Debug, PartialEq, Eq, PartialOrd, Ord)]
pub struct Hundred {
    /// The whole part: beside the best timetable 0 to 100, and beside another key
    /// 0 to 144,000.
    pub mark: u32,
    /// What is left, 0 to 1,439.
    pub remainder: u32,
}

/// What marking a sheet answers.
///
/// ```
/// use engine::{Mark, Rating, Sheet};
///
/// let network = engine::typed::read(b"4C000F 4C0014 4300000008 4301000011 45").unwrap();
/// let sheet = Sheet::of_starts(&[0, 0]);
/// let mark = engine::mark(network.bytes(), &sheet, 20).expect("a sheet that fits");
/// let rating = Rating { least: 1, sum: 1 };
/// assert_eq!(mark, Mark::Undecided { sheet: rating, tries: 20 });
/// ```
#[derive(Clone, Copy, Debug, PartialEq, Eq)]
pub enum Mark {
    /// The search finished.
    Decided {
        /// The sheet's rating.
        sheet: Rating,
        /// The best rating that any timetable has.
        best: Rating,
        /// Whether the two ratings are equal.
        equal: bool,
        /// The mark out of a hundred. It may be 100 and the ratings not equal, where
        /// the least gaps are equal and the sums differ.
        hundred: Hundred,
        /// The tries that the search took.
        tries: u32,
    },
    /// The search stopped, so that nobody knows the best rating.
    Undecided {
        /// The sheet's rating.
        sheet: Rating,
        /// The tries made, which are the budget.
        tries: u32,
    },
}
