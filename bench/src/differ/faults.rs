//! What closed names alone make wrong in a state.

use simulator::random::Random;
use simulator::state::{all_names, NO_NAME};
use simulator::State;

use super::difference::Check;
use super::Differ;

/// Makes the fault in a state, whose setup may have no place for it.
type Fault = fn(&mut Random, &mut State) -> Option<()>;

/// Each fault and its words in the tally.
pub const FAULTS: [(&str, Fault); 6] = [
    ("states with a closed bit set", closed_bit),
    ("states with a closed name in a record", closed_record),
    ("states with a counter above its open names", counter),
    ("states with the gate above the open names", gate),
    ("states with a closed name not below k", past_names),
    ("states with no open name", none_open),
];

/// Any closed name.
fn closed_name(rng: &mut Random, state: &State) -> Option<u8> {
    let names = closed_names(state);
    names.get(rng.below(names.len())).copied()
}

/// The closed names of a state in rising order.
pub fn closed_names(state: &State) -> Vec<u8> {
    (0..64).filter(|&name| state.is_closed(name)).collect()
}

fn closed_bit(rng: &mut Random, state: &mut State) -> Option<()> {
    let name = closed_name(rng, state)?;
    state.segments[usize::from(name / state.b)] |= 1 << (name % state.b);
    Some(())
}

fn closed_record(rng: &mut Random, state: &mut State) -> Option<()> {
    let name = closed_name(rng, state)?;
    let process = rng.below(usize::from(state.n));
    state.processes[process].name = name;
    Some(())
}

/// A counter that would be in range if its setup closed no name.
fn counter(rng: &mut Random, state: &mut State) -> Option<()> {
    let all = State {
        closed: 0,
        ..state.clone()
    };
    let nodes =
        (1..usize::from(state.l)).filter(|&v| state.fresh_counter(v) < all.fresh_counter(v));
    let nodes: Vec<usize> = nodes.collect();
    let &v = nodes.get(rng.below(nodes.len()))?;
    state.counters[v] = rng.between(state.fresh_counter(v) + 1, all.fresh_counter(v));
    Some(())
}

/// A gate word that would be in range if the setup closed no name.
fn gate(rng: &mut Random, state: &mut State) -> Option<()> {
    let (open, k) = (state.open_names(), state.names());
    if open == k {
        return None;
    }
    state.gate = rng.between(open + 1, k) as i8;
    Some(())
}

/// The gate word is at most 0, so that fewer open names do not break it.
fn past_names(rng: &mut Random, state: &mut State) -> Option<()> {
    let k = state.names();
    if k == 64 {
        return None;
    }
    state.closed |= 1 << rng.between(k, 63);
    state.gate = state.gate.min(0);
    Some(())
}

/// All else is in range: no name is held, and the gate and counters are low.
fn none_open(_: &mut Random, state: &mut State) -> Option<()> {
    state.closed = all_names(state.names());
    state.gate = state.gate.min(0);
    state.counters[..usize::from(state.l)].fill(0);
    state.segments[..usize::from(state.l * state.g)].fill(0);
    for process in &mut state.processes[..usize::from(state.n)] {
        process.name = NO_NAME;
    }
    Some(())
}

impl Differ {
    /// Every call on a state in range with each of the faults.
    pub fn faults(&mut self, from: &State) -> Check {
        for (place, (_, fault)) in FAULTS.into_iter().enumerate() {
            let mut state = from.clone();
            if fault(&mut self.rng, &mut state).is_some() {
                self.tally.faults[place] += u64::from(!state.in_range());
                self.state(from, &state)?;
            }
        }
        Ok(())
    }
}
