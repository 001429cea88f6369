//! Calls on the states that smaller counts of the partial setup give. The
//! root's counter is 0 there, so that all go right and some go astray.

use super::reached::partial;
use super::Records;
use crate::cases::chance::setup;
use crate::cases::schedule::{ListMaker, Plan, Schedule, SCHEDULES};
use crate::cases::ways_back::{claim, claim_all, go_back};
use crate::machine::kind::{RELEASE, REQUEST, STEP};
use crate::random::Random;
use crate::state::{stage, Process, State};

/// A setup and a count below L - 1.
type Start = ([u8; 4], u64);

/// Most events of a list that has its whole journal.
pub(crate) const MOST_EVENTS: usize = 63;

/// For the first calls: each number of leaves, N and k of every size.
const FIRST: [Start; 10] = [
    ([5, 2, 1, 1], 0),
    ([64, 2, 8, 4], 0),
    ([1, 4, 2, 2], 0),
    ([12, 4, 1, 3], 2),
    ([3, 8, 1, 1], 0),
    ([64, 8, 2, 4], 3),
    ([12, 8, 1, 8], 6),
    ([5, 16, 1, 1], 1),
    ([64, 16, 2, 2], 7),
    ([33, 16, 4, 1], 14),
];

/// The last node filled and the first one that is not are of one depth or of
/// two.
const EDGES: [Start; 7] = [
    ([3, 2, 2, 1], 0),
    ([5, 4, 1, 1], 1),
    ([9, 8, 1, 2], 4),
    ([12, 16, 1, 1], 4),
    ([64, 16, 2, 2], 8),
    ([12, 16, 3, 1], 10),
    ([33, 16, 1, 2], 14),
];

/// As many processes as a list can lead to a leaf, and a few more.
pub(crate) const CLAIMS: [Start; 23] = [
    ([5, 2, 1, 1], 0),
    ([8, 2, 2, 1], 0),
    ([9, 2, 1, 3], 0),
    ([6, 4, 1, 1], 0),
    ([6, 4, 1, 1], 1),
    ([6, 4, 1, 1], 2),
    ([9, 4, 1, 2], 1),
    ([7, 4, 2, 1], 2),
    ([10, 8, 1, 1], 0),
    ([10, 8, 1, 1], 1),
    ([10, 8, 1, 1], 2),
    ([10, 8, 1, 1], 3),
    ([10, 8, 1, 1], 4),
    ([10, 8, 1, 1], 5),
    ([10, 8, 1, 1], 6),
    ([9, 16, 1, 1], 0),
    ([9, 16, 1, 1], 1),
    ([9, 16, 1, 1], 3),
    ([9, 16, 1, 1], 7),
    ([9, 16, 1, 1], 8),
    ([9, 16, 1, 1], 11),
    ([9, 16, 1, 1], 13),
    ([9, 16, 1, 1], 14),
];

/// Few enough processes for a way back in the same list.
const ROUNDS: [Start; 11] = [
    ([5, 2, 1, 1], 0),
    ([6, 4, 1, 1], 0),
    ([6, 4, 1, 1], 1),
    ([6, 4, 1, 1], 2),
    ([5, 8, 1, 1], 0),
    ([5, 8, 1, 1], 3),
    ([5, 8, 1, 1], 5),
    ([5, 8, 1, 1], 6),
    ([4, 16, 1, 1], 1),
    ([4, 16, 1, 1], 9),
    ([4, 16, 1, 1], 14),
];

/// A node on the way to the right whose counter is filled.
const FILLED: [(Start, u8); 5] = [
    (([4, 4, 1, 1], 1), 3),
    (([4, 8, 1, 1], 1), 7),
    (([4, 8, 1, 1], 5), 3),
    (([4, 16, 1, 1], 2), 15),
    (([4, 16, 1, 1], 13), 3),
];

/// A node on that way whose counter is not filled.
const UNFILLED: [(Start, u8); 5] = [
    (([5, 2, 1, 1], 0), 1),
    (([8, 4, 1, 1], 2), 1),
    (([8, 8, 1, 1], 4), 3),
    (([8, 8, 1, 1], 6), 1),
    (([5, 16, 1, 1], 0), 15),
];

fn state((setup, count): Start) -> State {
    partial(setup, count)
}

fn put(state: &mut State, process: usize, stage: u8, node: u8) {
    state.processes[process] = Process {
        stage,
        node,
        ..Process::FRESH
    };
}

/// As much of the list as has room, with its whole journal.
fn try_list(records: &mut Records, state: &State, events: &[u8]) {
    let events = &events[..events.len().min(2 * MOST_EVENTS)];
    records.list(state, events, 2 * events.len() as u8);
}

/// A list from the state that the given moves make.
fn try_moves(
    records: &mut Records,
    rng: &mut Random,
    state: &State,
    moves: impl FnOnce(&mut ListMaker),
) {
    let plan = Plan {
        schedule: Schedule::Uniform,
        pool: 64,
        noise: 0,
    };
    let mut maker = ListMaker::from_state(rng, state.clone(), plan);
    moves(&mut maker);
    try_list(records, state, &maker.events);
}

/// The report, and an event with the answer 0, 8, 9, 6 or 12 by turns.
fn first_calls(records: &mut Records) {
    for (turn, start) in FIRST.into_iter().enumerate() {
        let state = state(start);
        let n = state.n;
        let events = [[REQUEST, n - 1], [STEP, 0], [RELEASE, 0], [STEP, n], [3, 0]];
        let [kind, process] = events[turn % events.len()];
        records.report(&state);
        records.event(&state, kind, process);
    }
}

/// A step down from the last node filled and from the first one that is not,
/// and a step back to each of them from the left.
fn edges(records: &mut Records) {
    for start in EDGES {
        let good = state(start);
        let last = good.l - start.1 as u8;
        for node in (last - 1..=last).filter(|&node| node < good.l) {
            for (stage, node) in [(stage::GETNAME, node), (stage::PUTNAME, 2 * node)] {
                let mut state = good.clone();
                put(&mut state, 1, stage, node);
                records.event(&state, STEP, 1);
            }
        }
    }
}

/// Processes that step down from every node with a counter, and others that
/// step back from every node but the root; either comes first.
fn everywhere(records: &mut Records) {
    for count in [0, 5, 11] {
        let mut state = partial([64, 16, 1, 4], count);
        for node in 1..16 {
            put(&mut state, usize::from(node), stage::GETNAME, node);
        }
        for node in 2..32 {
            put(&mut state, usize::from(node + 20), stage::PUTNAME, node);
        }
        let down: Vec<u8> = (1..16).flat_map(|process| [STEP, process]).collect();
        let back: Vec<u8> = (22..52).flat_map(|process| [STEP, process]).collect();
        try_list(records, &state, &[&down[..], &back].concat());
        try_list(records, &state, &[&back[..], &down].concat());
    }
}

/// Every kind for the first process that is astray.
fn press_astray(maker: &mut ListMaker) {
    let mut all = 0..maker.state.n;
    if let Some(process) = all.find(|&p| maker.stage(p) == stage::EXHAUSTED) {
        for kind in [STEP, RELEASE, REQUEST, STEP] {
            maker.push(kind, process);
        }
    }
}

/// One process after the other, until it holds a name, waits or is astray.
fn claims(records: &mut Records, rng: &mut Random) {
    for start in CLAIMS {
        try_moves(records, rng, &state(start), |maker| {
            claim_all(maker);
            press_astray(maker);
        });
    }
}

/// The holders go back, and those that are let in go on.
fn go_round(maker: &mut ListMaker) {
    for process in 0..maker.state.n {
        match maker.stage(process) {
            stage::WORKING => go_back(maker, process, |_| ()),
            stage::WAITING => claim(maker, process),
            _ => {}
        }
    }
}

/// All claim, the holders go back, and some claim again.
fn rounds(records: &mut Records, rng: &mut Random) {
    for start in ROUNDS {
        try_moves(records, rng, &state(start), |maker| {
            claim_all(maker);
            go_round(maker);
            claim(maker, 0);
        });
    }
}

/// Lists by every schedule, in which processes are on their way together.
fn schedules(records: &mut Records, rng: &mut Random) {
    for (turn, start) in CLAIMS.into_iter().step_by(3).enumerate() {
        let plan = Plan {
            schedule: SCHEDULES[turn % SCHEDULES.len()],
            pool: 6,
            noise: 3,
        };
        let state = state(start);
        let mut maker = ListMaker::from_state(rng, state.clone(), plan);
        maker.lively(MOST_EVENTS);
        try_list(records, &state, &maker.events);
    }
}

/// Process 0 goes left at a filled counter, which process 3, put below it,
/// raises to its fresh value again. Process 0 is then refused on its way back
/// until process 1 has gone left too.
fn filled(records: &mut Records, rng: &mut Random) {
    for (start, node) in FILLED {
        let mut state = state(start);
        put(&mut state, 3, stage::PUTNAME, 2 * node);
        try_moves(records, rng, &state, |maker| {
            claim(maker, 0);
            maker.push(STEP, 3);
            maker.push(RELEASE, 0);
            for _ in 0..6 {
                maker.push(STEP, 0);
            }
            claim(maker, 1);
            for _ in 0..6 {
                maker.push(STEP, 0);
            }
            go_back(maker, 3, |_| ());
        });
    }
}

/// Processes put below a counter that is not filled raise it from 0 to its
/// fresh value, and one more is refused until process 0 has gone left.
fn unfilled(records: &mut Records, rng: &mut Random) {
    for (start, node) in UNFILLED {
        let mut state = state(start);
        let last = state.fresh_counter(usize::from(node)) + 1;
        for process in 1..=last {
            put(&mut state, usize::from(process), stage::PUTNAME, 2 * node);
        }
        try_moves(records, rng, &state, |maker| {
            for process in 1..=last {
                maker.push(STEP, process);
            }
            claim(maker, 0);
            maker.push(STEP, last);
            go_back(maker, last, |_| ());
        });
    }
}

pub fn add(records: &mut Records, rng: &mut Random) {
    first_calls(records);
    edges(records);
    everywhere(records);
    claims(records, rng);
    rounds(records, rng);
    schedules(records, rng);
    filled(records, rng);
    unfilled(records, rng);
}

/// The state of a random setup and a smaller count, or one that a list leads
/// to from there.
pub(crate) fn any_state(rng: &mut Random) -> State {
    let mut any = setup(rng);
    while any[1] == 1 {
        any = setup(rng);
    }
    let count = rng.below(usize::from(any[1]) - 1);
    let state = partial(any, count as u64);
    if rng.chance(1, 3) {
        return state;
    }
    let plan = Plan {
        schedule: SCHEDULES[rng.below(SCHEDULES.len())],
        pool: rng.between(2, 40),
        noise: 3,
    };
    let length = rng.below(400);
    let mut maker = ListMaker::from_state(rng, state, plan);
    maker.lively(length);
    maker.state
}
