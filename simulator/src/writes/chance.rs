//! Random calls after the fixed ones.

use super::{Call, MOST_BYTES, MOST_ROOM};
use crate::cases::chance::setup;
use crate::day_file::EVENTS_AT;
use crate::random::Random;

/// Mostly accepted.
pub(crate) fn any_setup(rng: &mut Random) -> [u8; 4] {
    let mut setup = setup(rng);
    match rng.below(16) {
        0 => setup = std::array::from_fn(|_| rng.byte()),
        1 => setup[rng.below(4)] = rng.byte(),
        2 => setup[1..].copy_from_slice(&[16, rng.between(1, 8), rng.between(1, 8)]),
        _ => {}
    }
    setup
}

/// Mostly 0 to 200 bytes, some far more and some about the limit; seldom an
/// odd number.
fn length(rng: &mut Random) -> usize {
    let length = match rng.below(20) {
        0 => rng.below(MOST_BYTES + 1),
        1 => 32_700 + rng.below(80),
        2 | 3 => rng.below(32_742),
        _ => rng.below(201),
    };
    if rng.chance(1, 6) {
        length
    } else {
        length - length % 2
    }
}

/// Any bytes, or events whose kind and process are small.
fn bytes(rng: &mut Random, length: usize, n: u8) -> Vec<u8> {
    let small = rng.chance(1, 2);
    (0..length)
        .map(|place| match (small, place % 2) {
            (false, _) => rng.byte(),
            (true, 0) => rng.byte_below(4),
            (true, _) => rng.byte_below(n.saturating_add(1)),
        })
        .collect()
}

/// Mostly the file's length or near it.
fn room(rng: &mut Random, size: usize) -> usize {
    let room = match rng.below(12) {
        0 => size - 1,
        1 => size - 2 - rng.below(8),
        2 => size + 1,
        3 => size + 2 + rng.below(8),
        4 => size + rng.below(300),
        5 => rng.below(MOST_ROOM + 1),
        _ => size,
    };
    room.min(MOST_ROOM)
}

pub fn call(rng: &mut Random) -> Call {
    let setup = any_setup(rng);
    let length = length(rng);
    let stored = if length > 200 { rng.below(201) } else { length };
    let stored = bytes(rng, stored, setup[0]);
    let call = Call::padded(setup, &stored, length);
    let room = room(rng, EVENTS_AT + length);
    call.with_room(room)
}
