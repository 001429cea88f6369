//! Every accepted shape (L, g, b), each with a random list.

use super::schedule::{ListMaker, Plan, Schedule, SCHEDULES};
use super::Case;
use crate::day_file::lay_out;
use crate::random::Random;
use crate::state::State;

/// All accepted triples L, g, b.
pub fn triples() -> Vec<[u8; 3]> {
    let mut triples = Vec::new();
    for l in [1, 2, 4, 8, 16] {
        for g in 1..=8 {
            for b in 1..=8 {
                if l * g * b <= 64 {
                    triples.push([l as u8, g as u8, b as u8]);
                }
            }
        }
    }
    triples
}

/// Number of processes by turns: 1, below k, k, above k, 64.
fn processes(rng: &mut Random, turn: usize, k: u8) -> u8 {
    match turn % 5 {
        0 => 1,
        1 if k > 1 => rng.between(1, k - 1),
        2 => k,
        3 if k < 64 => rng.between(k + 1, 64),
        _ => 64,
    }
}

/// How many take part: a few more than the segment or the gate lets in at
/// once, or all if the list is long enough for them.
fn pool(rng: &mut Random, start: &State, count: usize) -> u8 {
    let names = start.open_names();
    if count >= 6 * usize::from(start.n) && rng.chance(1, 4) {
        return start.n;
    }
    let few = (count / 10).clamp(2, 64) as u8;
    few.max(if names <= 12 { names + 3 } else { start.b + 3 })
}

/// The list of an accepted setup that closes no name, under a schedule chosen
/// by `turn`. Where N is above k, most lists begin with a crowd at the gate.
pub fn lively_list(rng: &mut Random, turn: usize, setup: [u8; 4], count: usize) -> Vec<u8> {
    let [n, l, g, b] = setup;
    let start = State::setup(n, l, g, b).expect("an accepted setup");
    lively_list_from(rng, turn, start, count)
}

/// The same from a fresh state, which may close names: its open names stand
/// for k.
pub fn lively_list_from(rng: &mut Random, turn: usize, start: State, count: usize) -> Vec<u8> {
    let names = start.open_names();
    let crowded = start.n > names && rng.chance(2, 3);
    let mut plan = Plan {
        schedule: SCHEDULES[turn % SCHEDULES.len()],
        pool: pool(rng, &start, count),
        noise: 8,
    };
    if crowded {
        plan.pool = names + 3;
    }
    if crowded && names > 8 {
        plan.schedule = Schedule::Sticky;
    }
    let mut maker = ListMaker::from_state(rng, start, plan);
    if crowded {
        maker.crowd();
    }
    maker.lively(count.saturating_sub(maker.events.len() / 2));
    maker.events
}

pub fn cases(rng: &mut Random) -> Vec<Case> {
    let mut cases = Vec::new();
    for (turn, [l, g, b]) in triples().into_iter().enumerate() {
        let k = l * g * b;
        let setup = [processes(rng, turn, k), l, g, b];
        let count = 65 + 155 * usize::from(k) / 64;
        // The schedules change at another pace than N does.
        let events = lively_list(rng, turn / 5 + turn, setup, count);
        cases.push(Case::new("shape", lay_out(setup, &events)));
    }
    cases
}
