//! Round minutes, for the ruler beside what is drawn.

use crate::hall::witness::Window;

/// What is round: in minutes, hours and days.
const STEPS: [u32; 15] = [
    1, 2, 5, 10, 15, 20, 30, 60, 120, 180, 240, 360, 720, 1_440, 2_880,
];

/// The round minutes of a window and of the one behind it, so that no more than this many
/// lie between its ends.
pub fn round_minutes(window: Window, most: u32) -> Vec<i64> {
    let (first, length) = (i64::from(window.first), i64::from(window.length));
    let rough = STEPS.into_iter().find(|step| window.length / step <= most);
    let step = i64::from(rough.unwrap_or(STEPS[STEPS.len() - 1]));
    let begin = first.div_euclid(step) * step;
    let minutes = (begin..=first + length).step_by(step as usize);
    minutes.filter(|minute| *minute >= first).collect()
}

#[cfg(test)]
mod tests {
    use super::round_minutes;
    use crate::hall::witness::Window;

    fn minutes(first: i32, length: u32, most: u32) -> Vec<i64> {
        round_minutes(Window { first, length }, most)
    }

    #[test]
    fn minutes_are_round() {
        assert_eq!(minutes(0, 20, 10), [0, 2, 4, 6, 8, 10, 12, 14, 16, 18, 20]);
        assert_eq!(minutes(-7, 20, 4), [-5, 0, 5, 10]);
        assert_eq!(minutes(1, 1_440, 6), [240, 480, 720, 960, 1_200, 1_440]);
        assert_eq!(minutes(0, 10_080, 7).len(), 8);
        assert_eq!(minutes(5, 0, 9), [5]);
        assert_eq!(minutes(i32::MAX, 3, 3).len(), 4);
        assert_eq!(minutes(i32::MIN, 10, 1), [-2_147_483_640]);
    }
}
