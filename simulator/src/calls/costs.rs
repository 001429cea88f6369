//! The cost, which is the sum of a process's steps and returns, at the end
//! of its range, just before it and past it.

use super::ends::fill_unused;
use super::reached::{accepted_event, accepted_pair, fresh, mid_run};
use super::Records;
use crate::cases::schedule::natural_kind;
use crate::machine::kind::{RELEASE, REQUEST, STEP};
use crate::random::Random;
use crate::state::stage::{ENTRY, EXHAUSTED, GETNAME, PUTNAME, REMAINDER, WAITING, WORKING};
use crate::state::{Process, State, MOST_COST, NO_NAME};

/// Steps and returns past the end of the range: a sum of 256 made in three
/// ways, and the largest sum.
pub(crate) const PAST: [[u8; 2]; 4] = [[255, 1], [1, 255], [128, 128], [255, 255]];

/// A sum of 255 made in five ways.
pub(crate) const LAST: [[u8; 2]; 5] = [[255, 0], [0, 255], [128, 127], [254, 1], [1, 254]];

/// A sum of 254 made in the first three of these ways.
const BEFORE: [[u8; 2]; 3] = [[254, 0], [0, 254], [127, 127]];

/// Stage, node, segment and name of a process about to move.
type Place = [u8; 4];

/// Steps that raise the cost: to the left, to the right, a bit won, a change
/// of segment, a process gone astray; a bit cleared, and a counter given
/// back at either level.
pub(crate) const COUNTED: [Place; 8] = [
    [GETNAME, 1, 0, NO_NAME],
    [GETNAME, 3, 0, NO_NAME],
    [GETNAME, 4, 0, NO_NAME],
    [GETNAME, 6, 0, NO_NAME],
    [GETNAME, 7, 1, NO_NAME],
    [PUTNAME, 6, 0, 8],
    [PUTNAME, 6, 0, NO_NAME],
    [PUTNAME, 2, 0, NO_NAME],
];

/// Events that do not: at the gate, let in, a level left by the right, the
/// gate on the way back, astray, a release and a request.
pub(crate) const NOT_COUNTED: [Place; 9] = [
    [ENTRY, 1, 0, NO_NAME],
    [WAITING, 1, 0, NO_NAME],
    [PUTNAME, 7, 1, NO_NAME],
    [PUTNAME, 5, 0, NO_NAME],
    [PUTNAME, 3, 0, NO_NAME],
    [PUTNAME, 1, 1, NO_NAME],
    [EXHAUSTED, 7, 1, NO_NAME],
    [WORKING, 6, 0, 8],
    [REMAINDER, 6, 0, NO_NAME],
];

pub(crate) fn set_cost(process: &mut Process, [steps, returns]: [u8; 2]) {
    (process.steps, process.returns) = (steps, returns);
}

/// A tree of four leaves and sixteen names in which every place above can
/// make its move. The words of the two right leaves are full but for one
/// bit, node 3 sends to the right, and no counter has its fresh value.
fn tree(n: u8) -> State {
    let mut state = fresh([n, 4, 2, 2]);
    state.gate = 5;
    state.counters[1..4].copy_from_slice(&[4, 2, 0]);
    state.segments[4..8].copy_from_slice(&[3, 1, 3, 3]);
    state
}

fn put(state: &mut State, process: u8, place: Place, cost: [u8; 2]) {
    let [stage, node, segment, name] = place;
    let [steps, returns] = cost;
    state.processes[usize::from(process)] = Process {
        stage,
        node,
        segment,
        name,
        steps,
        returns,
    };
}

/// The event that the place's stage accepts.
fn try_place(records: &mut Records, mut state: State, turn: usize, place: Place, cost: [u8; 2]) {
    let process = [0, 3, 5][turn % 3];
    put(&mut state, process, place, cost);
    records.event(&state, natural_kind(place[0]), process);
}

/// Each counted step just before the end of the range and, refused, at it.
fn counted(records: &mut Records) {
    for (turn, place) in COUNTED.into_iter().enumerate() {
        for way in [turn % 3, (turn + 1) % 3] {
            try_place(records, tree(6), turn, place, BEFORE[way]);
            try_place(records, tree(6), turn, place, LAST[way]);
        }
    }
}

/// Each of the other events at the end of the range. The last two stand at
/// a closed gate: one joins the queue, one is in it.
fn not_counted(records: &mut Records) {
    for (turn, place) in NOT_COUNTED.into_iter().enumerate() {
        try_place(records, tree(6), turn, place, LAST[turn % 3]);
    }
    for (turn, stage) in [ENTRY, WAITING].into_iter().enumerate() {
        let mut closed = tree(6);
        closed.gate = -2;
        closed.queue_len = 2;
        closed.queue[..2].copy_from_slice(&[4, 3]);
        try_place(records, closed, turn, [stage, 1, 0, NO_NAME], LAST[turn]);
    }
}

/// Every place with each of the costs, one process for each.
fn everywhere(costs: &[[u8; 2]]) -> State {
    let mut state = tree(64);
    let places = COUNTED.iter().chain(&NOT_COUNTED);
    let all = costs
        .iter()
        .flat_map(|&c| places.clone().map(move |&p| (p, c)));
    for (process, (place, cost)) in all.enumerate() {
        put(&mut state, process as u8, place, cost);
    }
    state
}

/// So many processes make that many moves each, in a list.
fn try_moves(records: &mut Records, state: &State, processes: u8, moves: usize) {
    let mut after = state.clone();
    let mut events = Vec::new();
    for process in 0..processes {
        for _ in 0..moves {
            let kind = natural_kind(after.processes[usize::from(process)].stage);
            after.event(kind, process);
            events.extend([kind, process]);
        }
    }
    records.list(state, &events, 2 * events.len() as u8);
}

/// Every place moves once from each cost, and three times from just before
/// the end of the range.
fn moves(records: &mut Records) {
    let places = (COUNTED.len() + NOT_COUNTED.len()) as u8;
    try_moves(records, &everywhere(&BEFORE), 3 * places, 1);
    try_moves(records, &everywhere(&LAST[..3]), 3 * places, 1);
    for cost in BEFORE {
        try_moves(records, &everywhere(&[cost]), places, 3);
    }
}

/// Whole ways back from each leaf and a new request: one ends just at the
/// end of the range, one would need one more.
fn ways_back(records: &mut Records) {
    let kinds = [RELEASE, STEP, STEP, STEP, STEP, REQUEST, STEP];
    for (leaf, returns) in [3, 2, 2, 1].into_iter().enumerate() {
        for more in [0, 1] {
            let before = MOST_COST as u8 - returns + more;
            let cost = [[before, 0], [before - 9, 9]][leaf % 2];
            let leaf = leaf as u8;
            let mut state = tree(6);
            state.segments[usize::from(2 * leaf)] |= 1;
            put(&mut state, leaf, [WORKING, 4 + leaf, 0, 4 * leaf], cost);
            let events = kinds.map(|kind| [kind, leaf]);
            records.list(&state, &events.concat(), 28);
        }
    }
}

/// States with one process at the end of the range, which every call
/// accepts.
fn good_states(records: &mut Records, good: &State) {
    for (turn, cost) in LAST.into_iter().enumerate() {
        let mut state = good.clone();
        let process = turn % 3 * (usize::from(good.n) - 1) / 2;
        set_cost(&mut state.processes[process], cost);
        let [kind, mover] = accepted_event(&state, process + 1);
        records.event(&state, kind, mover);
        records.list(&state, &accepted_pair(&state, process), 8);
        records.report(&state);
    }
}

/// A request would begin the cost again, but the state is checked first.
fn mendable(records: &mut Records) {
    let mut state = tree(6);
    set_cost(&mut state.processes[2], PAST[0]);
    records.event(&state, REQUEST, 2);
    set_cost(&mut state.processes[2], PAST[1]);
    records.list(&state, &[REQUEST, 2, STEP, 2], 8);
}

/// The cost of a process from N on is not looked at.
fn unused_places(records: &mut Records) {
    let mut state = tree(6);
    fill_unused(&mut state, || 255);
    records.event(&state, REQUEST, 5);
    records.report(&state);
}

pub fn add(records: &mut Records, rng: &mut Random) {
    counted(records);
    not_counted(records);
    moves(records);
    ways_back(records);
    good_states(records, &mid_run(rng, [7, 4, 2, 2]));
    mendable(records);
    unused_places(records);
}
