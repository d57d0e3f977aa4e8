//! The files of the cases, and what is asked of them.

use papers::sections::network::{read, Network, Refusal};
use papers::sections::rating::Rating;
use papers::sections::sheets::{rate, rate_by_counting, weighted_rate};
use papers::sections::walk::{search, Answer};

/// The bytes written as pairs of hexadecimal digits; blanks are free.
pub fn hex(text: &str) -> Vec<u8> {
    let digits: Vec<u8> = text
        .chars()
        .filter(|digit| !digit.is_whitespace())
        .map(|digit| digit.to_digit(16).expect("a hexadecimal digit") as u8)
        .collect();
    digits
        .chunks(2)
        .map(|pair| pair[0] * 16 + pair[1])
        .collect()
}

/// A file of these periods and these calls (line, stop, offset).
pub fn file(periods: &[u16], calls: &[(u8, u8, u16)]) -> Vec<u8> {
    let mut bytes = Vec::new();
    for period in periods {
        bytes.push(0x4C);
        bytes.extend(period.to_be_bytes());
    }
    for (line, stop, offset) in calls {
        bytes.extend([0x43, *line, *stop]);
        bytes.extend(offset.to_be_bytes());
    }
    bytes.push(0x45);
    bytes
}

pub fn net(file: &[u8]) -> Network {
    read(file).expect("an accepted file")
}

pub fn at(least: u32, sum: u32) -> Rating {
    Rating { least, sum }
}

pub fn refusal<T>(number: u8, place: usize) -> Result<T, Refusal> {
    Err(Refusal { number, place })
}

/// Both ratings and the weighted one, which must agree.
pub fn all_ratings(file: &[u8], sheet: &[i32]) -> Result<Rating, Refusal> {
    let one = rate(file, sheet);
    assert_eq!(one, rate_by_counting(file, sheet));
    assert_eq!(one, weighted_rate(file, sheet));
    one
}

/// The answer of the search and the start row, which held 99 before.
pub fn searched(file: &[u8], budget: u32) -> (Answer, Vec<i32>) {
    let mut row = vec![99; net(file).lines()];
    let answer = search(file, &mut row, budget).expect("an accepted file");
    (answer, row)
}

pub fn finished(least: u32, sum: u32, tries: u32) -> Answer {
    let best = at(least, sum);
    Answer::Finished { best, tries }
}

pub fn stopped(least: u32, sum: u32, tries: u32) -> Answer {
    let best = at(least, sum);
    Answer::Stopped { best, tries }
}

pub fn p1() -> Vec<u8> {
    file(&[15, 20], &[(0, 0, 8), (1, 0, 17)])
}

pub fn p7() -> Vec<u8> {
    file(&[10, 10, 10], &[(0, 0, 0), (1, 0, 0), (2, 0, 0)])
}

pub fn p8() -> Vec<u8> {
    file(&[60, 60, 12], &[(0, 0, 0), (1, 0, 0), (2, 1, 0)])
}

pub fn p9() -> Vec<u8> {
    let calls = [
        (0, 0, 0),
        (1, 0, 0),
        (0, 1, 7),
        (1, 1, 17),
        (0, 2, 5),
        (1, 2, 8),
    ];
    file(&[20, 30], &calls)
}
