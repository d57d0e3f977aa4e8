//! Each export beside the papers, on one file.

use crate::called;
use crate::lent::{answer_row, row_length, Lent};
use crate::{
    examination_archive, examination_better, examination_classes, examination_rate,
    examination_read, examination_search, examination_wanted, examination_weighted,
};
use papers::files::{any_budget, any_gap, any_sheet_bytes, any_window, file_of, Dice, OUTCOMES};
use papers::sections::archive::{archive, archive_form};
use papers::sections::board::{board_bytes, Window, MAX_LENGTH};
use papers::sections::classes::class_call;
use papers::sections::gaps::{gaps_bytes, NO_GAP};
use papers::sections::hundred::by_key_bytes;
use papers::sections::network::{read, read_counts, Refusal};
use papers::sections::rating::Rating;
use papers::sections::sheets::{
    better_bytes, mark_bytes, rate_bytes, weighted_bytes, Better, Marked,
};
use papers::sections::walk::{search, Answer};
use papers::sections::wanted::{wanted, Wanted};

/// The return value of a refusal.
pub fn refused(refusal: Refusal) -> u32 {
    65_536 * u32::from(refusal.number) + refusal.place as u32
}

/// How often each return value was seen: 0, 1, 2 as such, grounds by their
/// number behind them.
#[derive(Clone, Debug, Default)]
pub struct Seen {
    pub answers: [usize; 3],
    pub grounds: [usize; OUTCOMES],
    /// What was returned at last.
    pub last: u32,
}

impl Seen {
    pub fn add(&mut self, returned: u32) {
        self.last = returned;
        match returned / 65_536 {
            0 => self.answers[returned as usize] += 1,
            number => self.grounds[number as usize] += 1,
        }
    }

    /// Whether each of these grounds was seen often, and no other one.
    pub fn has_exactly(&self, grounds: &[usize]) -> bool {
        (1..OUTCOMES).all(|number| match grounds.contains(&number) {
            true => self.grounds[number] >= 10,
            false => self.grounds[number] == 0,
        })
    }
}

pub fn compare_read(dice: &mut Dice, file: &[u8], seen: &mut Seen) {
    let mut answer = answer_row::<4>(dice);
    let before = answer.clone();
    let (returned, expected) = match read_counts(file) {
        Err(refusal) => (refused(refusal), before),
        Ok(counts) => {
            let [lines, stops, calls] =
                [counts.lines, counts.served_stops, counts.calls].map(|count| count as u32);
            (0, before.holding(&[lines, stops, calls, counts.cycle]))
        }
    };
    let found = unsafe { examination_read(file.as_ptr(), file.len(), answer.pointer().cast()) };
    assert_eq!((found, answer), (returned, expected));
    seen.add(found);
}

pub type Rates = unsafe extern "C" fn(*const u8, usize, *const u8, usize, *mut [u32; 2]) -> u32;

pub fn compare_rate(
    dice: &mut Dice,
    (export, paper): (Rates, Result<Rating, Refusal>),
    file: &[u8],
    sheet: &[u8],
    seen: &mut Seen,
) {
    let mut answer = answer_row::<2>(dice);
    let before = answer.clone();
    let (returned, expected) = match paper {
        Err(refusal) => (refused(refusal), before),
        Ok(rating) => (0, before.holding(&[rating.least, rating.sum])),
    };
    let found = unsafe {
        export(
            file.as_ptr(),
            file.len(),
            sheet.as_ptr(),
            sheet.len(),
            answer.pointer().cast(),
        )
    };
    assert_eq!((found, answer), (returned, expected));
    seen.add(found);
}

pub fn compare_classes(dice: &mut Dice, file: &[u8], seen: &mut Seen) {
    let mut class_row = Lent::of(row_length(dice, 64), || dice.byte());
    let mut weight_row = Lent::of(row_length(dice, 64), || dice.bits() as u16);
    let mut answer = answer_row::<1>(dice);
    let (mut class_after, mut weight_after) = (class_row.clone(), weight_row.clone());
    let (returned, answer_after) = match class_call(file, class_after.row(), weight_after.row()) {
        Err(refusal) => (refused(refusal), answer.clone()),
        Ok(count) => (0, answer.holding(&[count as u32])),
    };
    let found = unsafe {
        examination_classes(
            file.as_ptr(),
            file.len(),
            class_row.pointer(),
            class_row.length(),
            weight_row.pointer(),
            weight_row.length(),
            answer.pointer().cast(),
        )
    };
    assert_eq!((found, answer), (returned, answer_after));
    assert_eq!((class_row, weight_row), (class_after, weight_after));
    seen.add(found);
}

pub fn compare_search(dice: &mut Dice, file: &[u8], places: usize, budget: u32, seen: &mut Seen) {
    let mut start_row = Lent::of(places, || dice.bits() as i32);
    let mut answer = answer_row::<3>(dice);
    let mut starts_after = start_row.clone();
    let (returned, answer_after) = match search(file, starts_after.row(), budget) {
        Err(refusal) => (refused(refusal), answer.clone()),
        Ok(answered) => {
            let (returned, best, tries) = match answered {
                Answer::Finished { best, tries } => (0, best, tries),
                Answer::Stopped { best, tries } => (1, best, tries),
                Answer::StoppedWithNone { tries } => (2, Rating { least: 0, sum: 0 }, tries),
            };
            (returned, answer.holding(&[best.least, best.sum, tries]))
        }
    };
    let found = unsafe {
        examination_search(
            file.as_ptr(),
            file.len(),
            start_row.pointer(),
            start_row.length(),
            budget,
            answer.pointer().cast(),
        )
    };
    assert_eq!((found, answer), (returned, answer_after));
    assert_eq!(start_row, starts_after);
    seen.add(found);
}

/// A wanted gap and the budget to seek it with.
pub type Asked = (u16, u32);

pub fn compare_wanted(
    dice: &mut Dice,
    file: &[u8],
    places: usize,
    (gap, budget): Asked,
    seen: &mut Seen,
) {
    let mut start_row = Lent::of(places, || dice.bits() as i32);
    let mut answer = answer_row::<1>(dice);
    let mut starts_after = start_row.clone();
    let (returned, answer_after) = match wanted(file, starts_after.row(), gap, budget) {
        Err(refusal) => (refused(refusal), answer.clone()),
        Ok(Wanted::Found { tries }) => (0, answer.holding(&[tries])),
        Ok(Wanted::None { tries }) => (1, answer.holding(&[tries])),
        Ok(Wanted::Stopped { tries }) => (2, answer.holding(&[tries])),
    };
    let found = unsafe {
        examination_wanted(
            file.as_ptr(),
            file.len(),
            start_row.pointer(),
            start_row.length(),
            gap,
            budget,
            answer.pointer().cast(),
        )
    };
    assert_eq!((found, answer), (returned, answer_after), "gap {gap}");
    assert_eq!(start_row, starts_after, "gap {gap}");
    seen.add(found);
}

/// The generator's budgets up to 2,000: longer searches are compared elsewhere.
pub fn small_budget(dice: &mut Dice) -> u32 {
    any_budget(dice).min(2_000)
}

/// Few searches stop before their first try, and some end at 2,000.
#[test]
fn small_budgets() {
    let mut dice = Dice::new(67);
    let budgets: Vec<u32> = (0..8_000).map(|_| small_budget(&mut dice)).collect();
    let count = |budget: u32| budgets.iter().filter(|&&found| found == budget).count();
    assert_eq!(budgets.iter().max(), Some(&2_000));
    // Of eight kinds, two are longer, and of one a quarter is 0.
    assert!((1_700..2_100).contains(&count(2_000)), "{}", count(2_000));
    assert!((200..400).contains(&count(0)), "{}", count(0));
    assert!(budgets.iter().filter(|&&budget| budget < 400).count() > 5_000);
}

pub fn compare_better(file: &[u8], first: &[u8], second: &[u8], seen: &mut Seen) {
    let expected = match better_bytes(file, first, second) {
        Better::Neither => 0,
        Better::First => 1,
        Better::Second => 2,
    };
    let found = unsafe {
        examination_better(
            file.as_ptr(),
            file.len(),
            first.as_ptr(),
            first.len(),
            second.as_ptr(),
            second.len(),
        )
    };
    assert_eq!(found, expected);
    seen.add(found);
}

/// What a mark returns, and its answer row where it isn't refused.
fn marked(paper: Result<Marked, Refusal>) -> (u32, Option<[u32; 6]>) {
    match paper {
        Err(refusal) => (refused(refusal), None),
        Ok(Marked::Decided {
            sheet,
            best,
            equal,
            tries,
        }) => {
            let [equal, tries] = [u32::from(equal), tries];
            let row = [sheet.least, sheet.sum, best.least, best.sum, equal, tries];
            (0, Some(row))
        }
        Ok(Marked::Undecided { sheet, tries }) => {
            (1, Some([sheet.least, sheet.sum, 0, 0, 0, tries]))
        }
    }
}

pub fn compare_mark(dice: &mut Dice, file: &[u8], sheet: &[u8], budget: u32, seen: &mut Seen) {
    let mut answer = answer_row::<6>(dice);
    let before = answer.clone();
    let (returned, row) = marked(mark_bytes(file, sheet, budget));
    let expected = row.map_or(before.clone(), |row| before.holding(&row));
    let found = called::mark(file, sheet, budget, answer.pointer().cast());
    assert_eq!((found, answer), (returned, expected));
    seen.add(found);
}

/// Both rows: the answer is that of a mark, and an undecided one has zeros beside it.
pub fn compare_hundred(dice: &mut Dice, file: &[u8], sheet: &[u8], budget: u32, seen: &mut Seen) {
    let (mut answer, mut hundred) = (answer_row::<6>(dice), answer_row::<2>(dice));
    let (mut answer_after, mut hundred_after) = (answer.clone(), hundred.clone());
    let paper = mark_bytes(file, sheet, budget);
    let (returned, row) = marked(paper);
    if let (Ok(paper), Some(row)) = (paper, row) {
        let numbers = paper.hundred().map(|it| [it.mark, it.remainder]);
        answer_after = answer.holding(&row);
        hundred_after = hundred.holding(&numbers.unwrap_or([0, 0]));
    }
    let rows = (answer.pointer().cast(), hundred.pointer().cast());
    let found = called::hundred(file, sheet, budget, rows);
    assert_eq!((found, answer), (returned, answer_after));
    assert_eq!(hundred, hundred_after);
    seen.add(found);
}

pub fn compare_by_key(dice: &mut Dice, file: &[u8], sheet: &[u8], key: &[u8], seen: &mut Seen) {
    let mut hundred = answer_row::<2>(dice);
    let before = hundred.clone();
    let (returned, expected) = match by_key_bytes(file, sheet, key) {
        Err(refusal) => (refused(refusal), before),
        Ok(paper) => (0, before.holding(&[paper.mark, paper.remainder])),
    };
    let found = called::by_key(file, sheet, key, hundred.pointer().cast());
    assert_eq!((found, hundred), (returned, expected));
    seen.add(found);
}

/// The length of a file's archive form; any length if the file is refused.
fn archive_length(dice: &mut Dice, file: &[u8]) -> usize {
    match read(file) {
        Ok(net) => archive_form(&net).len(),
        Err(_) => dice.within(1, 40),
    }
}

pub fn compare_archive(dice: &mut Dice, file: &[u8], length: usize, seen: &mut Seen) {
    let mut row = Lent::of(length, || dice.byte());
    let mut row_after = row.clone();
    let returned = match archive(file, row_after.row()) {
        Err(refusal) => refused(refusal),
        Ok(length) => length as u32,
    };
    let found =
        unsafe { examination_archive(file.as_ptr(), file.len(), row.pointer(), row.length()) };
    assert_eq!((found, row), (returned, row_after));
    // Whatever its length, an archive form is one kind of answer.
    seen.add(if found < 65_536 { 0 } else { found });
}

/// How many arrivals a window has; any number if the call is refused.
pub fn board_length(dice: &mut Dice, file: &[u8], sheet: &[u8], window: Window) -> usize {
    let most = 32 * window.length.min(MAX_LENGTH) as usize;
    let (mut times, mut lines) = (vec![0; most], vec![0; most]);
    let listed = board_bytes(file, sheet, window, &mut times, &mut lines);
    listed.unwrap_or_else(|_| dice.below(40))
}

/// The rows of times and of lines have these lengths. They can be long: where they
/// differ, they aren't shown.
pub fn compare_board(
    dice: &mut Dice,
    (file, sheet): (&[u8], &[u8]),
    window: Window,
    (times, lines): (usize, usize),
    seen: &mut Seen,
) {
    let mut time_row = Lent::of(times, || dice.bits() as i64);
    let mut line_row = Lent::of(lines, || dice.byte());
    let mut answer = answer_row::<1>(dice);
    let (mut times_after, mut lines_after) = (time_row.clone(), line_row.clone());
    let paper = board_bytes(file, sheet, window, times_after.row(), lines_after.row());
    let (returned, answer_after) = match paper {
        Err(refusal) => (refused(refusal), answer.clone()),
        Ok(count) => (0, answer.holding(&[count as u32])),
    };
    let rows = (time_row.row(), line_row.row());
    let found = called::board(file, sheet, window, rows, answer.pointer().cast());
    assert_eq!((found, answer), (returned, answer_after), "{window:?}");
    assert!(time_row == times_after, "other times, {window:?}");
    assert!(line_row == lines_after, "other lines, {window:?}");
    seen.add(found);
}

/// The row and the answer beside the papers'; and the row's least gap and its sum, unserved
/// stops left out, are what the rating's own export answers.
pub fn compare_gaps(dice: &mut Dice, file: &[u8], sheet: &[u8], seen: &mut Seen) {
    let mut gap_row = Lent::of(64, || dice.bits() as u16);
    let mut answer = answer_row::<2>(dice);
    let mut row_after = gap_row.clone();
    let places = row_after.row().try_into().expect("64 places");
    let (returned, answer_after) = match gaps_bytes(file, sheet, places) {
        Err(refusal) => (refused(refusal), answer.clone()),
        Ok(rating) => (0, answer.holding(&[rating.least, rating.sum])),
    };
    let rows = (gap_row.pointer().cast(), answer.pointer().cast());
    let found = called::gaps(file, sheet, rows.0, rows.1);
    assert_eq!((found, &answer), (returned, &answer_after));
    assert_eq!(gap_row, row_after);
    // On a copy: a second call could undo what a first one changed in the sheet.
    let rated = rated(file, &sheet.to_vec());
    assert_eq!(rated, (found, made_of(found, gap_row.row())));
    seen.add(found);
}

/// What a rating returns and answers; zeros where it is refused.
fn rated(file: &[u8], sheet: &[u8]) -> (u32, [u32; 2]) {
    let mut answer = [0; 2];
    let (file, file_len) = (file.as_ptr(), file.len());
    let (sheet, sheet_len) = (sheet.as_ptr(), sheet.len());
    let found = unsafe { examination_rate(file, file_len, sheet, sheet_len, &mut answer) };
    (found, answer)
}

/// The least gap and the sum of a row; zeros where it was refused.
fn made_of(returned: u32, gap_row: &[u16]) -> [u32; 2] {
    if returned != 0 {
        return [0; 2];
    }
    let gaps = || gap_row.iter().filter(|&&gap| gap != NO_GAP);
    let least = gaps().min().expect("a served stop");
    [u32::from(*least), gaps().map(|&gap| u32::from(gap)).sum()]
}

/// What was seen of each export.
#[derive(Debug, Default)]
pub struct AllSeen {
    pub read: Seen,
    pub rate: Seen,
    pub weighted: Seen,
    pub classes: Seen,
    pub search: Seen,
    pub wanted: Seen,
    pub better: Seen,
    pub mark: Seen,
    pub hundred: Seen,
    pub by_key: Seen,
    pub archive: Seen,
    pub board: Seen,
    pub gaps: Seen,
}

impl AllSeen {
    /// The exports that can refuse.
    pub fn refusing(&self) -> [&Seen; 12] {
        [
            &self.read,
            &self.rate,
            &self.weighted,
            &self.classes,
            &self.search,
            &self.wanted,
            &self.mark,
            &self.hundred,
            &self.by_key,
            &self.archive,
            &self.board,
            &self.gaps,
        ]
    }
}

/// Every export on one file with two sheets; the file and the sheets stay as
/// they were.
pub fn compare_all(dice: &mut Dice, file: &[u8], seen: &mut AllSeen) {
    let lines = read(file).map_or_else(|_| dice.within(1, 6), |net| net.lines());
    let [first, second] = [0, 1].map(|_| any_sheet_bytes(dice, lines));
    let before = (file.to_vec(), first.clone(), second.clone());
    compare_read(dice, file, &mut seen.read);
    let rate: (Rates, _) = (examination_rate, rate_bytes(file, &first));
    compare_rate(dice, rate, file, &first, &mut seen.rate);
    let weighted: (Rates, _) = (examination_weighted, weighted_bytes(file, &first));
    compare_rate(dice, weighted, file, &first, &mut seen.weighted);
    compare_classes(dice, file, &mut seen.classes);
    let (places, budget) = (row_length(dice, lines), small_budget(dice));
    compare_search(dice, file, places, budget, &mut seen.search);
    let asked = (any_gap(dice, file), small_budget(dice));
    let places = row_length(dice, lines);
    compare_wanted(dice, file, places, asked, &mut seen.wanted);
    compare_better(file, &first, &second, &mut seen.better);
    let budget = small_budget(dice);
    compare_mark(dice, file, &first, budget, &mut seen.mark);
    compare_hundred(dice, file, &first, budget, &mut seen.hundred);
    compare_by_key(dice, file, &first, &second, &mut seen.by_key);
    let right = archive_length(dice, file);
    let length = row_length(dice, right);
    compare_archive(dice, file, length, &mut seen.archive);
    let window = any_window(dice, file);
    let right = board_length(dice, file, &first, window);
    let rows = (row_length(dice, right), row_length(dice, right));
    compare_board(dice, (file, &first), window, rows, &mut seen.board);
    compare_gaps(dice, file, &first, &mut seen.gaps);
    assert_eq!((file, first, second), (&before.0[..], before.1, before.2));
}

/// Three lines that meet at two stops, offsets up to 65,535.
pub fn three_lines(periods: [u16; 3]) -> Vec<u8> {
    let calls = [
        (0, 0, 65_535),
        (1, 0, 0),
        (2, 0, 77),
        (0, 63, 0),
        (2, 63, 65_535),
    ];
    file_of(&periods, &calls)
}
