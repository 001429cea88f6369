//! Random states: every number at random within its range, or what follows
//! a partial setup or one that closes names; one in six is broken at one
//! place. Among the calls on them stand such setups.

use super::closed::random_closed;
use super::costs::set_cost;
use super::{broken, closed, closed_runs, ends, partial, partial_runs, Records};
use crate::cases::chance::setup;
use crate::cases::schedule::natural_kind;
use crate::random::Random;
use crate::state::{Process, State, MAX, NO_NAME};

fn fill_queue(rng: &mut Random, state: &mut State) {
    state.queue_len = match rng.below(6) {
        0 => 0,
        1 => MAX as u8,
        2 | 3 => rng.between(0, 3),
        _ => rng.between(0, MAX as u8),
    };
    for place in 0..usize::from(state.queue_len) {
        state.queue[place] = rng.byte_below(state.n);
    }
}

fn fill_gate(rng: &mut Random, state: &mut State) {
    let open = state.open_names();
    state.gate = match rng.below(6) {
        0 => -64,
        1 => open as i8,
        2 => 0,
        _ => (i16::from(rng.between(0, open + 64)) - 64) as i8,
    };
}

fn fill_words(rng: &mut Random, state: &mut State) {
    for v in 1..usize::from(state.l) {
        let highest = state.fresh_counter(v);
        state.counters[v] = match rng.below(4) {
            0 => 0,
            1 => highest,
            _ => rng.between(0, highest),
        };
    }
    for r in 0..state.l * state.g {
        let open = (0xFF >> (8 - state.b)) & !state.closed_bits(r);
        state.segments[usize::from(r)] = if rng.chance(1, 3) {
            open
        } else {
            rng.byte() & open
        };
    }
}

/// Steps and returns within their range: both small, at its end or near it,
/// or anything.
fn cost(rng: &mut Random) -> [u8; 2] {
    let sum = match rng.below(6) {
        0 => return [rng.between(0, 12), rng.between(0, 6)],
        1 | 2 => 255,
        3 => rng.between(250, 254),
        _ => rng.byte(),
    };
    let steps = match rng.below(4) {
        0 => 0,
        1 => sum,
        _ => rng.between(0, sum),
    };
    [steps, sum - steps]
}

/// Any open name.
fn open_name(rng: &mut Random, state: &State) -> u8 {
    let mut names = (0..state.names()).filter(|&name| !state.is_closed(name));
    let place = rng.below(usize::from(state.open_names()));
    names.nth(place).unwrap_or(NO_NAME)
}

fn process(rng: &mut Random, state: &State) -> Process {
    let [steps, returns] = cost(rng);
    Process {
        stage: rng.between(0, 6),
        node: rng.between(1, 2 * state.l - 1),
        segment: rng.byte_below(state.g),
        name: if rng.chance(1, 2) {
            NO_NAME
        } else {
            open_name(rng, state)
        },
        steps,
        returns,
    }
}

/// No closed names in half of the states, any in the others.
fn closed_names(rng: &mut Random, k: u8) -> u64 {
    if rng.chance(1, 2) {
        return 0;
    }
    let list = random_closed(rng, k);
    list.iter().fold(0, |closed, name| closed | 1 << name)
}

/// A state in range, which may close names; unused places are 0 or anything.
pub fn state(rng: &mut Random) -> State {
    let [n, l, g, b] = setup(rng);
    let mut state = State {
        n,
        l,
        g,
        b,
        closed: closed_names(rng, l * g * b),
        ..State::BLANK
    };
    fill_gate(rng, &mut state);
    fill_queue(rng, &mut state);
    fill_words(rng, &mut state);
    for p in 0..usize::from(n) {
        state.processes[p] = process(rng, &state);
    }
    if rng.chance(1, 2) {
        ends::fill_unused(&mut state, || rng.byte());
    }
    state
}

/// Mostly an event that the process's stage accepts.
fn event(rng: &mut Random, state: &State) -> [u8; 2] {
    let process = rng.byte_below(state.n);
    match rng.below(16) {
        0 => [rng.byte(), rng.byte()],
        1 => [rng.byte_below(3), state.n],
        2 => [rng.byte(), process],
        3 | 4 => [rng.byte_below(3), process],
        _ => [
            natural_kind(state.processes[usize::from(process)].stage),
            process,
        ],
    }
}

/// That many events for a list; half of them are about one process.
pub(crate) fn events(rng: &mut Random, state: &State, count: usize) -> Vec<u8> {
    let mut after = state.clone();
    let mut events = Vec::new();
    let mut last = rng.byte_below(state.n);
    for _ in 0..count {
        let [kind, process] = if rng.chance(1, 2) {
            [natural_kind(after.processes[usize::from(last)].stage), last]
        } else {
            event(rng, &after)
        };
        after.event(kind, process);
        events.extend([kind, process]);
        if process < state.n {
            last = process;
        }
    }
    events
}

/// A short list, now and then of odd length.
fn list(rng: &mut Random, state: &State) -> Vec<u8> {
    let count = rng.below(13);
    let mut events = events(rng, state, count);
    if rng.chance(1, 24) {
        events.push(rng.byte());
    }
    events
}

fn add_list(records: &mut Records, rng: &mut Random, good: &State, state: &State) {
    let events = list(rng, good);
    let right = (events.len() * 2) as u8;
    let journal_len = match rng.below(12) {
        0 => right.saturating_sub(1),
        1 => right + rng.between(1, 9),
        _ => right,
    };
    records.list(state, &events, journal_len);
}

/// Some process with any cost past the end of the range.
pub(crate) fn broken_cost(rng: &mut Random, good: &State) -> State {
    let mut state = good.clone();
    let process = rng.below(usize::from(good.n));
    let steps = rng.between(1, 255);
    let returns = rng.between(255 - (steps - 1), 255);
    set_cost(&mut state.processes[process], [steps, returns]);
    state
}

/// The state itself or, one time in six, broken at one place.
pub(crate) fn perhaps_broken(rng: &mut Random, good: &State) -> State {
    match rng.below(24) {
        0 => broken_cost(rng, good),
        1..=3 => {
            let mut states = broken::states(good);
            states.swap_remove(rng.below(states.len()))
        }
        _ => good.clone(),
    }
}

fn add_call(records: &mut Records, rng: &mut Random, good: &State) {
    let state = perhaps_broken(rng, good);
    match rng.below(9) {
        0 => records.report(&state),
        1..=5 => {
            let [kind, process] = event(rng, good);
            records.event(&state, kind, process);
        }
        _ => add_list(records, rng, good, &state),
    }
}

pub fn add(records: &mut Records, rng: &mut Random) {
    let good = match rng.below(8) {
        0 => return partial::add_any(records, rng),
        1 => return closed::add_any(records, rng),
        2 => partial_runs::any_state(rng),
        3 => closed_runs::any_state(rng),
        _ => state(rng),
    };
    add_call(records, rng, &good);
}
