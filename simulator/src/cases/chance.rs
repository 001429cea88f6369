//! Random cases after the fixed ones.

use super::shapes::{lively_list, triples};
use super::Case;
use crate::day_file::lay_out;
use crate::random::Random;

/// An accepted setup; N is small, any, or about k.
pub fn setup(rng: &mut Random) -> [u8; 4] {
    let all = triples();
    let [l, g, b] = all[rng.below(all.len())];
    let k = l * g * b;
    let n = match rng.below(4) {
        0 => rng.between(1, 4),
        1 => rng.between(1, 64),
        2 => (k + rng.byte_below(4)).min(64),
        _ => k,
    };
    [n, l, g, b]
}

/// A file with one fault at a random place.
fn damage(rng: &mut Random, mut file: Vec<u8>) -> Vec<u8> {
    match rng.below(6) {
        0 => file.truncate(rng.below(file.len())),
        1 => file.push(rng.byte()),
        2 => file.extend([rng.byte(), rng.byte()]),
        _ => {
            let at = rng.below(27);
            file[at] ^= 1 << rng.below(8);
        }
    }
    file
}

pub fn case(rng: &mut Random) -> Case {
    let setup = setup(rng);
    let count = 20 + rng.below(230);
    let turn = rng.below(5);
    let events = lively_list(rng, turn, setup, count);
    let file = lay_out(setup, &events);
    if rng.chance(1, 6) {
        return Case::new("damaged", damage(rng, file));
    }
    Case::new("random", file)
}
