//! States at the very ends of the ranges and with unused places filled;
//! all of them are accepted.

use super::costs::{set_cost, LAST};
use super::reached::{accepted_event, accepted_pair, fresh, mid_run};
use super::Records;
use crate::machine::kind::{RELEASE, REQUEST, STEP};
use crate::random::Random;
use crate::state::{stage, Process, State, COUNTERS, MAX, NO_NAME};

/// Small with N above k, largest, and words of eight bits.
const SETUPS: [[u8; 4]; 3] = [[5, 2, 1, 1], [64, 16, 2, 2], [12, 1, 2, 8]];

fn gate_ends(records: &mut Records, good: &State) {
    for gate in [-64, good.open_names() as i8] {
        let mut state = good.clone();
        state.gate = gate;
        let [kind, process] = accepted_event(&state, 0);
        records.event(&state, kind, process);
        records.report(&state);
    }
}

/// A queue of 64, the last process in all its places but the first.
pub(crate) fn with_full_queue(good: &State) -> State {
    let mut state = good.clone();
    let last = state.n - 1;
    state.queue = [last; MAX];
    state.queue[0] = 0;
    state.queue_len = MAX as u8;
    state.gate = -64;
    state.processes[usize::from(last)].stage = stage::WAITING;
    state.processes[0] = Process {
        stage: stage::PUTNAME,
        ..Process::FRESH
    };
    state
}

/// The waiting step of a process in a queue of 64, and a return that moves
/// the whole queue up.
fn full_queue(records: &mut Records, good: &State) {
    let state = with_full_queue(good);
    records.event(&state, STEP, state.n - 1);
    records.event(&state, STEP, 0);
    records.list(&state, &[STEP, 0, REQUEST, 0, STEP, 0], 12);
    records.report(&state);
}

/// A process at the last node, the last segment and the last name, with the
/// highest cost, made in a way that the stage chooses.
pub(crate) fn last_places(state: &State, stage: u8) -> Process {
    let [steps, returns] = LAST[usize::from(stage) % LAST.len()];
    Process {
        stage,
        node: 2 * state.l - 1,
        segment: state.g - 1,
        name: state.names() - 1,
        steps,
        returns,
    }
}

/// Such a process in each stage, the cost made in other ways by the setup.
fn process_ends(records: &mut Records, good: &State) {
    for stage in stage::REMAINDER..=stage::EXHAUSTED {
        let mut state = good.clone();
        let last = usize::from(state.n) - 1;
        state.processes[last] = last_places(&state, stage);
        let way = usize::from(stage + state.b) % LAST.len();
        set_cost(&mut state.processes[last], LAST[way]);
        let process = last as u8;
        let events = [STEP, process, RELEASE, process, REQUEST, process];
        records.list(&state, &events, 12);
    }
}

/// Full words and empty counters, then the other way round, with a process
/// in the last segment of the last leaf.
fn word_ends(records: &mut Records, setup: [u8; 4]) {
    let mut state = fresh(setup);
    state.processes[0] = Process {
        stage: stage::GETNAME,
        node: 2 * state.l - 1,
        segment: state.g - 1,
        name: NO_NAME,
        steps: 200,
        returns: 54,
    };
    records.event(&state, STEP, 0);
    let used = usize::from(state.l) * usize::from(state.g);
    state.segments[..used].fill(0xFF >> (8 - state.b));
    state.counters[1..usize::from(state.l)].fill(0);
    records.event(&state, STEP, 0);
    records.list(&state, &[STEP, 0, REQUEST, 1, STEP, 1, STEP, 1], 16);
}

/// Every array place that N, L and g leave unused.
pub fn fill_unused(state: &mut State, mut byte: impl FnMut() -> u8) {
    state.counters[0] = byte();
    for v in usize::from(state.l)..COUNTERS {
        state.counters[v] = byte();
    }
    for r in usize::from(state.l) * usize::from(state.g)..MAX {
        state.segments[r] = byte();
    }
    for p in usize::from(state.n)..MAX {
        state.processes[p] = Process {
            stage: byte(),
            node: byte(),
            segment: byte(),
            name: byte(),
            steps: byte(),
            returns: byte(),
        };
    }
}

fn unused_places(records: &mut Records, rng: &mut Random, good: &State) {
    let mut state = good.clone();
    fill_unused(&mut state, || rng.byte().max(1));
    let [kind, process] = accepted_event(&state, 1);
    records.event(&state, kind, process);
    records.list(&state, &accepted_pair(&state, 2), 8);
    records.report(&state);
    records.event(&state, REQUEST, state.n);
}

/// Records that no list reaches: working without a name, a name whose bit
/// is clear, a name kept during getname, a queued process in another stage.
fn odd_records(records: &mut Records) {
    let mut state = fresh([6, 2, 2, 2]);
    let stages = [
        (stage::WORKING, 1, NO_NAME),
        (stage::PUTNAME, 2, 5),
        (stage::GETNAME, 3, 2),
        (stage::ENTRY, 1, 7),
        (stage::WAITING, 3, 0),
        (stage::REMAINDER, 3, 4),
    ];
    for (p, (stage, node, name)) in stages.into_iter().enumerate() {
        state.processes[p] = Process {
            stage,
            node,
            segment: 1,
            name,
            steps: 9,
            returns: 4,
        };
    }
    state.segments[3] = 3;
    state.counters[1] = 3;
    state.gate = 2;
    state.queue_len = 4;
    state.queue[..4].copy_from_slice(&[4, 3, 4, 4]);
    for process in 0..6 {
        records.event(&state, STEP, process);
        let events = [RELEASE, REQUEST, STEP, STEP].map(|kind| [kind, process]);
        records.list(&state, &events.concat(), 16);
    }
}

pub fn add(records: &mut Records, rng: &mut Random) {
    for setup in SETUPS {
        let good = mid_run(rng, setup);
        gate_ends(records, &good);
        full_queue(records, &good);
        process_ends(records, &good);
        word_ends(records, setup);
        unused_places(records, rng, &good);
    }
    odd_records(records);
}
