//! Rows that are lent to a call, with margins that it may not touch.

use papers::files::Dice;
use std::fmt::Debug;

/// Places on both sides of a row that no call may touch.
const MARGIN: usize = 8;

/// A row within a longer one.
#[derive(Clone, Debug, PartialEq)]
pub struct Lent<T> {
    whole: Vec<T>,
}

impl<T: Copy + PartialEq + Debug> Lent<T> {
    /// A row of so many places, whatever they hold.
    pub fn of(length: usize, place: impl FnMut() -> T) -> Lent<T> {
        let whole = std::iter::repeat_with(place);
        Lent {
            whole: whole.take(length + 2 * MARGIN).collect(),
        }
    }

    pub fn pointer(&mut self) -> *mut T {
        self.row().as_mut_ptr()
    }

    pub fn row(&mut self) -> &mut [T] {
        let behind = self.whole.len() - MARGIN;
        &mut self.whole[MARGIN..behind]
    }

    pub fn length(&self) -> usize {
        self.whole.len() - 2 * MARGIN
    }

    /// The row with other content, the margins as they were.
    pub fn holding(&self, content: &[T]) -> Lent<T> {
        let mut held = self.clone();
        held.row().copy_from_slice(content);
        held
    }
}

/// An answer row of any content.
pub fn answer_row<const PLACES: usize>(dice: &mut Dice) -> Lent<u32> {
    Lent::of(PLACES, || dice.bits() as u32)
}

/// A row's length: mostly the right one.
pub fn row_length(dice: &mut Dice, right: usize) -> usize {
    match dice.below(12) {
        0 => 0,
        1 => right.saturating_sub(1),
        2 => right + 1,
        3 => dice.below(200),
        _ => right,
    }
}
