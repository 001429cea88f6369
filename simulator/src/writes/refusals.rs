//! Setups at and past the ends of their limits, and calls with several
//! faults, so that the order of the checks shows.

use super::Call;
use crate::answer::{BITS, LEAVES, NAMES, NO_ROOM, ODD, PROCESSES, SEGMENTS, TOO_LONG};
use crate::cases::worked::P11_EVENTS;
use crate::day_file::EVENTS_AT;

/// The refusals in the order of their checks.
pub const ORDER: [u8; 8] = [
    PROCESSES, LEAVES, SEGMENTS, BITS, NAMES, ODD, TOO_LONG, NO_ROOM,
];

/// A list that is both odd and too long.
const ODD_AND_TOO_LONG: usize = 32_743;

/// Accepted, with one number or k at an end of its limits.
const ACCEPTED: [[u8; 4]; 14] = [
    // Processes.
    [1, 4, 2, 1],
    [64, 4, 2, 1],
    // Leaves.
    [12, 1, 1, 2],
    [12, 2, 1, 2],
    [12, 4, 1, 2],
    [12, 8, 1, 2],
    [12, 16, 1, 2],
    // Segments.
    [12, 4, 1, 1],
    [12, 4, 8, 1],
    // Bits.
    [12, 2, 3, 1],
    [12, 2, 3, 8],
    // Names: 64.
    [64, 16, 2, 2],
    [1, 1, 8, 8],
    [12, 16, 4, 1],
];

/// Too many names: 70 is the least product above 64; 256, 320 and 1,024 are
/// 0, 64 and 0 in one byte. No number of a setup is checked later.
pub(crate) const MANY_NAMES: [[u8; 4]; 6] = [
    [12, 2, 5, 7],
    [64, 16, 5, 1],
    [64, 16, 2, 3],
    [1, 4, 8, 8],
    [64, 16, 4, 5],
    [64, 16, 8, 8],
];

/// One number outside its limits.
pub(crate) const ONE_FAULT: [[u8; 4]; 18] = [
    // Processes.
    [0, 4, 2, 1],
    [65, 4, 2, 1],
    [255, 4, 2, 1],
    // Leaves.
    [12, 0, 1, 2],
    [12, 3, 1, 2],
    [12, 5, 1, 2],
    [12, 7, 1, 2],
    [12, 9, 1, 2],
    [12, 15, 1, 2],
    [12, 17, 1, 2],
    [12, 32, 1, 2],
    [12, 255, 1, 2],
    // Segments.
    [12, 4, 0, 1],
    [12, 4, 9, 1],
    [12, 4, 255, 1],
    // Bits.
    [12, 4, 1, 0],
    [12, 4, 1, 9],
    [12, 4, 1, 255],
];

/// The same numbers, each with every later fault of a setup.
pub(crate) const LATER_FAULTS: [[u8; 4]; 18] = [
    // Processes.
    [0, 3, 9, 9],
    [65, 17, 9, 9],
    [255, 255, 255, 255],
    // Leaves; where a number is 0, k is not above 64.
    [12, 0, 9, 9],
    [12, 3, 9, 9],
    [12, 5, 9, 9],
    [12, 7, 9, 9],
    [12, 9, 9, 9],
    [12, 15, 9, 9],
    [12, 17, 9, 9],
    [12, 32, 9, 9],
    [12, 255, 9, 9],
    // Segments.
    [12, 16, 0, 9],
    [12, 16, 9, 9],
    [12, 16, 255, 9],
    // Bits.
    [12, 16, 8, 0],
    [12, 16, 8, 9],
    [12, 16, 8, 255],
];

/// A setup with the faults that `has` names and no other.
pub(crate) fn setup_with(has: impl Fn(u8) -> bool) -> [u8; 4] {
    let pick = |fault, wrong, right| if has(fault) { wrong } else { right };
    if has(NAMES) {
        [
            pick(PROCESSES, 65, 64),
            pick(LEAVES, 17, 16),
            pick(SEGMENTS, 9, 8),
            pick(BITS, 9, 8),
        ]
    } else {
        [
            pick(PROCESSES, 0, 1),
            pick(LEAVES, 3, 1),
            pick(SEGMENTS, 9, 1),
            pick(BITS, 0, 1),
        ]
    }
}

/// A call with these faults and no other.
pub fn faulty(faults: &[u8]) -> Call {
    let has = |fault| faults.contains(&fault);
    let length = match (has(ODD), has(TOO_LONG)) {
        (false, false) => 22,
        (true, false) => 23,
        (false, true) => 32_742,
        (true, true) => ODD_AND_TOO_LONG,
    };
    let room = EVENTS_AT + length - usize::from(has(NO_ROOM));
    Call::padded(setup_with(has), &P11_EVENTS, length).with_room(room)
}

pub fn calls() -> Vec<Call> {
    let mut calls: Vec<Call> = ACCEPTED
        .iter()
        .chain(&ONE_FAULT)
        .chain(&MANY_NAMES)
        .map(|&setup| Call::whole(setup, &P11_EVENTS))
        .collect();
    for &setup in LATER_FAULTS.iter().chain(&MANY_NAMES) {
        calls.push(Call::padded(setup, &[], ODD_AND_TOO_LONG).with_room(0));
    }
    calls.extend(ORDER.windows(2).map(faulty));
    calls.push(faulty(&[ODD, TOO_LONG, NO_ROOM]));
    calls
}
