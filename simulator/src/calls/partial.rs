//! The partial setup: counts of every size, refusals, and the four numbers
//! among any other bytes.

use super::reached::{fresh, mid_run, partial, SETUPS};
use super::{broken, chance, Records};
use crate::cases::shapes::triples;
use crate::image::IMAGE_BYTES;
use crate::random::Random;
use crate::state::State;
use crate::writes::chance::any_setup;

/// Counts that fewer bits than 64 cut to a small one, and counts that a sign
/// makes negative.
pub(crate) const WIDE: [u64; 8] = [
    255,
    256,
    257,
    1 << 16,
    1 << 32,
    (1 << 32) + 1,
    1 << 63,
    u64::MAX,
];

/// More of them, for the most leaves.
const MORE_WIDE: [u64; 6] = [
    128,
    1 << 15,
    (1 << 16) + 1,
    1 << 31,
    (1 << 32) - 1,
    (1 << 63) + 1,
];

/// Setups with one fault: three for each refusal, in the order of the checks.
pub(crate) const ONE_FAULT: [[[u8; 4]; 3]; 5] = [
    [[0, 4, 2, 1], [65, 16, 2, 2], [255, 1, 1, 1]],
    [[12, 0, 1, 1], [12, 3, 2, 2], [64, 32, 1, 1]],
    [[12, 4, 0, 1], [12, 4, 9, 1], [12, 1, 64, 1]],
    [[12, 4, 1, 0], [12, 4, 1, 9], [12, 1, 1, 64]],
    // 256 and 320 names are 0 and 64 in one byte.
    [[64, 16, 2, 3], [1, 4, 8, 8], [64, 16, 4, 5]],
];

/// Setups with two faults that are neighbours in that order, the first one
/// refused.
pub(crate) const TWO_FAULTS: [[[u8; 4]; 3]; 4] = [
    [[0, 3, 2, 2], [65, 17, 2, 1], [255, 0, 1, 1]],
    [[12, 3, 9, 1], [12, 0, 0, 1], [64, 32, 0, 2]],
    [[12, 4, 0, 9], [12, 4, 9, 0], [1, 1, 0, 255]],
    [[12, 16, 8, 9], [12, 8, 1, 9], [64, 2, 4, 255]],
];

/// An accepted setup with so many leaves; the turn chooses the others.
fn setup(l: u8, turn: usize) -> [u8; 4] {
    let mut shapes = triples();
    shapes.retain(|shape| shape[0] == l);
    let [_, g, b] = shapes[7 * turn % shapes.len()];
    [[64, 1, 12, 33, 5][turn % 5], l, g, b]
}

/// Up to L, or up to 17 where that is more than a few, and wide ones.
fn counts(l: u8) -> Vec<u64> {
    let last = if l < 8 { u64::from(l) } else { 17 };
    let mut counts: Vec<u64> = (0..=last).chain(WIDE).collect();
    if l == 16 {
        counts.extend(MORE_WIDE);
    }
    counts
}

/// A state with the four numbers; the turn chooses its other bytes.
pub(crate) fn holder(rng: &mut Random, setup: [u8; 4], turn: usize) -> State {
    let mut image = match turn % 4 {
        0 => State::BLANK.to_image(),
        1 => [255; IMAGE_BYTES],
        2 => std::array::from_fn(|_| rng.byte()),
        _ => chance::state(rng).to_image(),
    };
    image[..4].copy_from_slice(&setup);
    State::from_image(&image)
}

fn accepted(records: &mut Records, rng: &mut Random) {
    for l in [1, 2, 4, 8, 16] {
        for (turn, count) in counts(l).into_iter().enumerate() {
            let state = holder(rng, setup(l, turn), turn);
            records.partial_setup(&state, count);
        }
    }
}

/// Each refusal with no count, a small one and the largest.
fn refused(records: &mut Records, rng: &mut Random) {
    for (turn, setups) in ONE_FAULT.iter().chain(&TWO_FAULTS).enumerate() {
        let counts = [0, 1 + turn as u64 % 4, u64::MAX];
        for (place, &setup) in setups.iter().enumerate() {
            let state = holder(rng, setup, turn + place);
            records.partial_setup(&state, counts[(turn + place) % 3]);
        }
    }
    for count in [0, 1, u64::MAX] {
        records.partial_setup(&State::BLANK, count);
    }
}

/// The first, a middle and the last of the broken states that keep the four
/// numbers.
fn broken_holders(good: &State) -> [State; 3] {
    let mut states = broken::states(good);
    let four = |state: &State| [state.n, state.l, state.g, state.b];
    states.retain(|state| four(state) == four(good));
    let last = states.len() - 1;
    [0, last / 2, last].map(|place| states[place].clone())
}

/// States of the other calls: fresh, of a count, in mid-run and broken. Each
/// of them gives the same for its setup.
fn other_states(records: &mut Records, rng: &mut Random) {
    for (setup, count) in SETUPS.into_iter().zip([0, 2, 9]) {
        let good = mid_run(rng, setup);
        records.partial_setup(&fresh(setup), count);
        records.partial_setup(&partial(setup, count / 2), count);
        for state in broken_holders(&good) {
            records.partial_setup(&state, count);
        }
        records.partial_setup(&good, count);
    }
}

pub fn add(records: &mut Records, rng: &mut Random) {
    accepted(records, rng);
    refused(records, rng);
    other_states(records, rng);
}

/// Mostly about L; the others are of any size.
fn any_count(rng: &mut Random, l: u8) -> u64 {
    match rng.below(6) {
        0 => rng.draw(),
        1 => rng.draw() >> rng.below(64),
        2 => WIDE[rng.below(WIDE.len())],
        _ => rng.below(usize::from(l) + 2) as u64,
    }
}

/// A random partial setup.
pub(crate) fn add_any(records: &mut Records, rng: &mut Random) {
    let setup = any_setup(rng);
    let count = any_count(rng, setup[1]);
    let turn = rng.below(4);
    let state = holder(rng, setup, turn);
    records.partial_setup(&state, count);
}
