//! Hand-made states that close names: at the ends of the ranges that closed
//! names give, just past them, and with a closed name held.

use super::broken::{closed_bits, counters, gate, none_open, try_all};
use super::closed::SETUPS;
use super::reached::{closed, mid_run_from};
use super::Records;
use crate::machine::kind::{REQUEST, STEP};
use crate::random::Random;
use crate::state::{stage, Process, State};

/// A setup and its closed names.
type Closure = ([u8; 4], &'static [u8]);

/// N above the open names; N below them, with a whole segment closed; and the
/// largest setup, with a whole leaf closed, a left one.
pub(crate) const CLOSURES: [Closure; 3] = [
    ([5, 2, 1, 3], &[1, 3, 4]),
    ([7, 4, 2, 2], &[0, 1, 5, 6, 10, 15]),
    ([64, 16, 2, 2], &[0, 8, 9, 10, 11, 31, 32, 63]),
];

/// Nodes of the largest setup, one of each depth and one whose left child is
/// all closed.
const NODES: [usize; 5] = [1, 2, 7, 9, 15];

fn fresh((setup, list): Closure) -> State {
    closed(setup, list)
}

/// A state in range with an event, a list and the report.
fn try_good(records: &mut Records, state: &State) {
    try_all(records, state, std::slice::from_ref(state));
}

/// The gate word one above the open names and at k, counters likewise, and
/// the bit of each closed name set. Of the largest setup's counters only some
/// are changed.
fn past_limits(records: &mut Records, good: &State) {
    let mut states = [gate(good), counters(good), closed_bits(good)].concat();
    let kept = |s: &State, v: usize| s.counters[v] == good.counters[v];
    let node = |s: &State| (1..16).find(|&v| !kept(s, v)).unwrap_or(1);
    states.retain(|s| s.gate >= -64 && (good.l < 16 || NODES.contains(&node(s))));
    try_all(records, good, &states);
}

/// A closed name in a record, by the stages; its bit is clear.
fn closed_records(records: &mut Records, goods: &[State; 3]) {
    for stage in stage::REMAINDER..=stage::EXHAUSTED {
        let turn = usize::from(stage);
        let list = CLOSURES[turn % 3].1;
        let good = &goods[turn % 3];
        let mut state = good.clone();
        let process = turn / 2 % 3 * (usize::from(good.n) - 1) / 2;
        state.processes[process] = Process {
            stage,
            name: list[turn % list.len()],
            ..good.processes[process]
        };
        try_all(records, good, &[state]);
    }
}

/// Nothing is wrong but one closed name from k on.
fn past_the_names(setup: [u8; 4], name: u8) -> State {
    State {
        closed: 1 << name,
        gate: 0,
        ..closed(setup, &[])
    }
}

/// States with no open name, and states with a closed name from k on.
pub(crate) fn broken_alone() -> Vec<State> {
    let mut states = SETUPS.map(|setup| none_open(&closed(setup, &[]))).to_vec();
    for (setup, names) in [
        (SETUPS[0], &[1, 63][..]),
        (SETUPS[1], &[2, 31, 32]),
        (SETUPS[2], &[16]),
        (SETUPS[3], &[60]),
    ] {
        states.extend(names.iter().map(|&name| past_the_names(setup, name)));
    }
    states
}

/// Each with calls that the setup's fresh state accepts.
fn try_broken_alone(records: &mut Records) {
    for state in broken_alone() {
        let good = closed([state.n, state.l, state.g, state.b], &[]);
        try_all(records, &good, &[state]);
    }
}

/// Every counter and the gate word at their upper limits, fresh or not.
fn limits(records: &mut Records, goods: &[State; 3]) {
    for (closure, good) in CLOSURES.into_iter().zip(goods) {
        let start = fresh(closure);
        try_good(records, &start);
        let mut state = good.clone();
        (state.gate, state.counters) = (start.gate, start.counters);
        try_good(records, &state);
    }
}

/// A process on its way back without a name.
fn returning(node: u8) -> Process {
    Process {
        stage: stage::PUTNAME,
        node,
        ..Process::FRESH
    }
}

/// The step of process 1 alone and twice between other events in a list, and
/// the report.
fn try_step(records: &mut Records, state: &State) {
    records.event(state, STEP, 1);
    let events = [REQUEST, 0, STEP, 1, STEP, 1, REQUEST, 2];
    records.list(state, &events, 16);
    records.report(state);
}

/// Counters at their limits, 0 among them, which a step back would raise above
/// the open names, and counters one below.
fn raised_counters(records: &mut Records) {
    let small = [1];
    let middle = [1, 2, 3];
    for (closure, nodes) in CLOSURES.into_iter().zip([&small[..], &middle, &NODES]) {
        for &node in nodes {
            let mut state = fresh(closure);
            state.processes[1] = returning(2 * node as u8);
            try_step(records, &state);
            if state.counters[node] > 0 {
                state.counters[node] -= 1;
                records.event(&state, STEP, 1);
            }
        }
    }
}

/// A gate word at its limit, which a step back would raise above the open
/// names, with and without a queue, and one just below.
fn raised_gate(records: &mut Records) {
    for closure in CLOSURES {
        for (below, len) in [(0, 0), (0, 1), (0, 64), (1, 0), (1, 2)] {
            let mut state = fresh(closure);
            state.processes[1] = returning(1);
            state.gate -= below;
            state.queue_len = len;
            state.queue[..usize::from(len)].fill(3);
            if below == 0 {
                try_step(records, &state);
            } else {
                records.event(&state, STEP, 1);
            }
        }
    }
}

/// Two processes give the same open name back; its bit is clear, then set.
fn odd_records(records: &mut Records) {
    for closure in CLOSURES {
        let mut state = fresh(closure);
        state.processes[0] = Process {
            name: 2,
            ..returning(1)
        };
        state.processes[1] = state.processes[0];
        state.gate -= 1;
        let events = [STEP, 0, STEP, 1, STEP, 0, STEP, 1];
        records.list(&state, &events, 16);
        state.segments[usize::from(2 / state.b)] |= 1 << (2 % state.b);
        records.list(&state, &events, 16);
    }
}

/// States broken by a closed name alone, in calls with other faults: the
/// order of the checks stays.
fn orders(records: &mut Records) {
    let good = fresh(CLOSURES[0]);
    let mut bit = good.clone();
    bit.segments[0] |= 1 << 1;
    let mut name = good.clone();
    name.processes[4].name = 3;
    let mut past = good.clone();
    (past.closed, past.gate) = (past.closed | 1 << 6, 0);
    for state in [&bit, &name, &past] {
        records.event(state, 3, 5);
        records.event(state, STEP, 0);
        records.list(state, &[REQUEST, 0, STEP], 12);
        records.list(state, &[REQUEST, 0, STEP, 0], 7);
    }
}

/// Faults that the events would mend, but the state is checked first: a closed
/// name given back, a request that forgets it, a gate word and a counter that
/// fall.
pub(crate) fn mendable() -> Vec<(State, Vec<u8>)> {
    let [start, ..] = CLOSURES.map(fresh);
    let [mut bit, mut name, mut gate, mut counter] = [0; 4].map(|_| start.clone());
    bit.segments[1] = 1;
    bit.processes[3] = Process {
        name: 3,
        ..returning(1)
    };
    name.processes[3].name = 4;
    gate.gate += 1;
    counter.counters[1] += 1;
    vec![
        (bit, vec![STEP, 3]),
        (name, vec![REQUEST, 3]),
        (gate, vec![REQUEST, 0, STEP, 0]),
        (counter, vec![REQUEST, 0, STEP, 0, STEP, 0]),
    ]
}

fn mended(records: &mut Records) {
    for (state, events) in mendable() {
        records.event(&state, events[0], events[1]);
        records.list(&state, &events, 2 * events.len() as u8);
        records.report(&state);
    }
}

/// A closed name in a record from N on, and full words from L·g on.
fn unused_places(records: &mut Records) {
    let mut state = closed([4, 2, 1, 3], &[0, 5]);
    state.segments[2..].fill(255);
    state.processes[4].name = 5;
    try_good(records, &state);
}

pub fn add(records: &mut Records, rng: &mut Random) {
    let goods = CLOSURES.map(|closure| mid_run_from(rng, fresh(closure)));
    for good in &goods {
        past_limits(records, good);
    }
    closed_records(records, &goods);
    try_broken_alone(records);
    limits(records, &goods);
    raised_counters(records);
    raised_gate(records);
    odd_records(records);
    orders(records);
    mended(records);
    unused_places(records);
}
