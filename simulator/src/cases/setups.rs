//! Files whose setup is refused.

use super::worked::P11_EVENTS;
use super::Case;
use crate::day_file::lay_out;

const ONE_FAULT: [[u8; 4]; 23] = [
    // Processes.
    [0, 4, 2, 1],
    [65, 4, 2, 1],
    [255, 4, 2, 1],
    // Leaves.
    [12, 0, 1, 1],
    [12, 3, 1, 1],
    [12, 5, 1, 1],
    [12, 6, 1, 1],
    [12, 17, 1, 1],
    [12, 32, 1, 1],
    [12, 255, 1, 1],
    // Segments.
    [12, 4, 0, 1],
    [12, 4, 9, 1],
    [12, 4, 255, 1],
    // Bits.
    [12, 4, 1, 0],
    [12, 4, 1, 9],
    [12, 4, 1, 255],
    // Names.
    [64, 16, 2, 3],
    [64, 8, 3, 3],
    [64, 2, 8, 8],
    [64, 16, 5, 1],
    [64, 16, 1, 5],
    [1, 16, 8, 8],
    // A product of 256 names, which is 0 in one byte.
    [1, 4, 8, 8],
];

const TWO_FAULTS: [[u8; 4]; 12] = [
    [0, 3, 1, 1],
    [65, 0, 1, 1],
    [12, 3, 9, 1],
    [12, 4, 0, 9],
    [12, 16, 8, 9],
    [65, 16, 2, 3],
    [0, 4, 9, 1],
    [0, 4, 1, 9],
    [12, 32, 2, 2],
    [12, 3, 1, 9],
    [12, 16, 9, 1],
    [0, 0, 0, 0],
];

fn files(kind: &'static str, setups: &[[u8; 4]]) -> Vec<Case> {
    setups
        .iter()
        .map(|&setup| Case::new(kind, lay_out(setup, &P11_EVENTS)))
        .collect()
}

pub fn cases() -> Vec<Case> {
    let mut cases = files("setup", &ONE_FAULT);
    cases.extend(files("order", &TWO_FAULTS));
    cases
}
