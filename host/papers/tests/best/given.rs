//! Inputs, and the program's line beside the papers'.

use papers::files::{dense_file, Dice};
use papers::program;
use papers::sections::best::best;
use papers::sections::network::read;
use papers::sections::walk::{walk, Answer};

/// Document 01, "Edges and cases": the file whose line is given there.
pub const PAPER: [u8; 17] = [
    0x4C, 0x00, 0x0F, 0x4C, 0x00, 0x14, 0x43, 0x00, 0x00, 0x00, 0x08, 0x43, 0x01, 0x00, 0x00, 0x11,
    0x45,
];

pub const PAPER_LINE: &str = "gap 2 sum 2 tries 21 starts 0 3\n";

/// The shorter file of the same section, accepted as it is.
pub const SHORT: [u8; 9] = [0x4C, 0x00, 0x0F, 0x43, 0x00, 0x00, 0x00, 0x08, 0x45];

/// What the program prints for an input.
pub fn printed(input: &[u8]) -> String {
    program::printed(program::best(), input)
}

/// Demands the papers' line of the program and returns it.
pub fn agreed(input: &[u8]) -> String {
    let expected = best(input);
    assert_eq!(printed(input), expected, "for {}", shown(input));
    expected
}

/// The input in hexadecimal, its beginning if it is long.
pub fn shown(input: &[u8]) -> String {
    let pairs: String = input
        .iter()
        .take(1_400)
        .map(|byte| format!("{byte:02X}"))
        .collect();
    format!("{} bytes {pairs}", input.len())
}

/// A file from this seed or a later one whose search stops at the budget.
pub fn long_search(seed: u64, lines: usize, stops: usize) -> Vec<u8> {
    (seed..)
        .map(|seed| dense_file(&mut Dice::new(seed), lines, stops))
        .find(|file| !finishes_within(file, 1_000_000))
        .expect("seeds are many")
}

/// Whether the search of a file, if it is accepted at all, takes so many tries
/// or fewer.
pub fn finishes_within(file: &[u8], tries: u32) -> bool {
    match read(file) {
        Ok(net) => matches!(walk(&net, tries).answer, Answer::Finished { .. }),
        Err(_) => true,
    }
}
