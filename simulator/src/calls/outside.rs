//! Steps that would take a number of the gate, the queue or the tree outside
//! its range, and their neighbours that would not.

use super::reached::fresh;
use super::Records;
use crate::answer::BROKEN_STATE;
use crate::machine::kind::{REQUEST, STEP};
use crate::state::{stage, Process, State, MAX, NO_NAME};

/// The step of process 0 alone and, if it is refused, between two requests
/// of others in a list too.
fn try_step(records: &mut Records, state: &State) {
    records.event(state, STEP, 0);
    if state.clone().event(STEP, 0) == BROKEN_STATE {
        records.list(state, &[REQUEST, 1, STEP, 0, REQUEST, 2], 12);
    }
}

fn put(state: &mut State, stage: u8, node: u8, segment: u8, [steps, returns]: [u8; 2]) {
    state.processes[0] = Process {
        stage,
        node,
        segment,
        name: NO_NAME,
        steps,
        returns,
    };
}

/// Entry at the gate's and the queue's limits.
fn entry(records: &mut Records) {
    let places = [
        (-64, 0),
        (-64, 63),
        (-64, 64),
        (-63, 64),
        (0, 64),
        (-63, 63),
        (1, 64),
    ];
    for (gate, len) in places {
        let mut state = fresh([5, 4, 2, 1]);
        put(&mut state, stage::ENTRY, 1, 0, [0, 0]);
        state.gate = gate;
        state.queue_len = len;
        state.queue[..usize::from(len)].fill(3);
        try_step(records, &state);
    }
}

/// Putname from a left child whose counter is fresh, at each depth, and
/// from a right child, which gives nothing back.
fn climb(records: &mut Records) {
    for node in [2, 4, 6, 8, 16, 30, 3, 31] {
        let mut state = fresh([5, 16, 2, 2]);
        put(&mut state, stage::PUTNAME, node, 0, [253, 1]);
        try_step(records, &state);
        if node % 2 == 0 {
            state.counters[usize::from(node / 2)] -= 1;
            records.event(&state, STEP, 0);
        }
    }
}

/// Putname at the root with the gate at k, with and without a queue, and
/// just below k.
fn leave(records: &mut Records) {
    for (below, len) in [(0, 0), (0, 1), (0, 64), (1, 0), (1, 1), (1, 64)] {
        let mut state = fresh([5, 4, 2, 1]);
        put(&mut state, stage::PUTNAME, 1, 1, [7, 3]);
        state.gate -= below;
        state.queue_len = len;
        state.queue[..usize::from(len)].fill(4);
        try_step(records, &state);
    }
    let mut state = fresh([64, 16, 4, 1]);
    put(&mut state, stage::PUTNAME, 1, 0, [250, 5]);
    state.queue_len = MAX as u8;
    state.queue = std::array::from_fn(|place| (MAX - 1 - place) as u8);
    records.event(&state, STEP, 0);
}

pub fn add(records: &mut Records) {
    entry(records);
    climb(records);
    leave(records);
}
