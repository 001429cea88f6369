//! Lists on the states of setups that close names: closed bits are passed
//! over, and no more are let in than names are open.

use super::closed::{blocks, holes, random_closed, setup_of, Closure, BLOCK_SETUPS};
use super::partial_runs::MOST_EVENTS;
use super::reached::{accepted_event, closed, mid_run_from};
use super::Records;
use crate::cases::chance::setup;
use crate::cases::schedule::{ListMaker, Plan, Schedule, SCHEDULES};
use crate::cases::shapes::lively_list_from;
use crate::cases::ways_back::{claim, claim_all, go_back};
use crate::machine::kind::{RELEASE, REQUEST, STEP};
use crate::random::Random;
use crate::state::{stage, Process, State};

/// A setup and its open names.
type Opening = ([u8; 4], &'static [u8]);

/// Few names are open, so that all of them are held and more processes wait:
/// holes in a segment, segments all closed before, between and after others,
/// leaves and halves all closed, and one open name in the last place.
pub(crate) const OPENINGS: [Opening; 20] = [
    ([3, 1, 1, 4], &[1, 3]),
    ([4, 1, 1, 8], &[2, 5, 6]),
    ([2, 1, 1, 8], &[7]),
    ([4, 1, 2, 2], &[2, 3]),
    ([5, 1, 3, 2], &[0, 1, 4]),
    ([3, 1, 8, 1], &[3, 7]),
    ([3, 1, 8, 8], &[62]),
    ([4, 2, 1, 2], &[2, 3]),
    ([4, 2, 1, 2], &[0, 1]),
    ([5, 2, 1, 3], &[0, 2, 5]),
    ([4, 2, 3, 2], &[5, 10]),
    ([4, 4, 1, 1], &[2, 3]),
    ([5, 4, 1, 2], &[0, 3, 5]),
    ([4, 4, 2, 2], &[7, 8, 13]),
    ([4, 8, 1, 2], &[3, 12, 15]),
    ([3, 8, 2, 3], &[47]),
    ([3, 16, 1, 1], &[9, 15]),
    ([4, 16, 2, 1], &[0, 17, 31]),
    ([3, 16, 2, 2], &[0, 63]),
    ([12, 16, 4, 1], &[1, 2, 40, 41, 63]),
];

/// All names but these.
fn all_but(setup: [u8; 4], open: &[u8]) -> Vec<u8> {
    let [_, l, g, b] = setup;
    let mut names: Vec<u8> = (0..l * g * b).collect();
    names.retain(|name| !open.contains(name));
    names
}

/// The fresh state in which these names are open.
pub(crate) fn with_open((setup, open): Opening) -> State {
    closed(setup, &all_but(setup, open))
}

/// The whole list, in as many calls as it needs; each is given the state that
/// the one before it returned. The last state is given back.
fn try_list(records: &mut Records, start: &State, events: &[u8]) -> State {
    let mut state = start.clone();
    for part in events.chunks(2 * MOST_EVENTS) {
        records.list(&state, part, 2 * part.len() as u8);
        state.run(part, &mut [0; 4 * MOST_EVENTS]);
    }
    state
}

fn maker(rng: &mut Random, state: State, schedule: Schedule, noise: usize) -> ListMaker<'_> {
    let plan = Plan {
        schedule,
        pool: state.open_names() + 3,
        noise,
    };
    ListMaker::from_state(rng, state, plan)
}

/// The holders go back one after the other; the one that each lets in claims.
/// At last process 0 requests again.
fn go_round(maker: &mut ListMaker) {
    for process in 0..maker.state.n {
        if maker.stage(process) != stage::WORKING {
            continue;
        }
        let head = maker.state.queue[0];
        go_back(maker, process, |_| ());
        if maker.stage(head) == stage::WAITING {
            claim(maker, head);
        }
    }
    claim(maker, 0);
}

/// The fresh state's report or a first event; then all claim, so that every
/// open name is held and the others wait; then names come back and are won
/// again.
fn runs(records: &mut Records, rng: &mut Random) {
    for (turn, opening) in OPENINGS.into_iter().enumerate() {
        let fresh = with_open(opening);
        if turn % 2 == 0 {
            records.report(&fresh);
        } else {
            let [kind, process] = accepted_event(&fresh, 1);
            records.event(&fresh, kind, process);
        }
        let mut maker = maker(rng, fresh.clone(), Schedule::Uniform, 0);
        claim_all(&mut maker);
        go_round(&mut maker);
        let events = maker.events;
        let last = try_list(records, &fresh, &events);
        records.report(&last);
    }
}

/// Lists by every schedule, in which processes are on their way together.
fn schedules(records: &mut Records, rng: &mut Random) {
    for (turn, &opening) in OPENINGS.iter().skip(1).step_by(2).enumerate() {
        let fresh = with_open(opening);
        let mut maker = maker(rng, fresh.clone(), SCHEDULES[turn % 5], 3);
        maker.lively(MOST_EVENTS);
        let events = maker.events;
        try_list(records, &fresh, &events);
    }
}

/// A process about to try a segment.
fn prober(state: &State, r: u8) -> Process {
    Process {
        stage: stage::GETNAME,
        node: state.l + r / state.g,
        segment: r % state.g,
        ..Process::FRESH
    }
}

/// Processes that try each segment once more often than it has open names
/// that are clear, in any order. In every second state some are held already.
fn probes(records: &mut Records, rng: &mut Random) {
    for (turn, (setup, list)) in holes().into_iter().enumerate() {
        let mut state = closed(setup, &list);
        let mut used = 0;
        for r in 0..state.l * state.g {
            let open = !state.closed_bits(r) & (0xFF >> (8 - state.b));
            let held = if turn % 2 == 0 { 0 } else { rng.byte() & open };
            state.segments[usize::from(r)] = held;
            for _ in 0..=(open & !held).count_ones() {
                state.processes[used] = prober(&state, r);
                used += 1;
            }
        }
        let mut order: Vec<u8> = (0..used as u8).collect();
        rng.shuffle(&mut order);
        let events: Vec<u8> = order.iter().flat_map(|&process| [STEP, process]).collect();
        try_list(records, &state, &events);
    }
}

/// Processes put at a leaf that is all closed try its segments and go astray;
/// there every kind of event is tried.
fn closed_leaves(records: &mut Records) {
    for (setup, leaf) in [
        ([4, 2, 1, 3], 0),
        ([4, 2, 3, 2], 1),
        ([4, 4, 2, 2], 2),
        ([4, 16, 2, 2], 15),
    ] {
        let [_, _, g, b] = setup;
        let list: Vec<u8> = (leaf * g * b..(leaf + 1) * g * b).collect();
        let mut state = closed(setup, &list);
        state.processes[1] = prober(&state, leaf * g);
        state.processes[2] = prober(&state, leaf * g + g - 1);
        let mut kinds = vec![STEP; usize::from(g) + 1];
        kinds.extend([RELEASE, REQUEST]);
        let events: Vec<u8> = kinds.iter().flat_map(|&kind| [kind, 1, kind, 2]).collect();
        try_list(records, &state, &events);
        records.event(&state, STEP, 2);
    }
}

/// Steps down from each node with a counter, where whole blocks of names are
/// closed: a counter of 0 sends to the right at once.
fn descents(records: &mut Records) {
    for &setup in &BLOCK_SETUPS[1..] {
        let [n, l, ..] = setup;
        for list in blocks(setup).iter().step_by(2) {
            let mut state = closed(setup, list);
            for node in 1..l.min(n) {
                state.processes[usize::from(node)] = Process {
                    stage: stage::GETNAME,
                    node,
                    ..Process::FRESH
                };
            }
            let events: Vec<u8> = (1..l.min(n)).flat_map(|p| [STEP, p]).collect();
            try_list(records, &state, &events.repeat(2));
        }
    }
}

/// Random closures of each number of leaves: a lively list from the fresh
/// state, and a call on a state in mid-run.
fn random_runs(records: &mut Records, rng: &mut Random) {
    for (turn, leaves) in [1, 2, 4, 8, 16].repeat(2).into_iter().enumerate() {
        let (setup, list) = any_closure_of(rng, leaves);
        let fresh = closed(setup, &list);
        let mut events = lively_list_from(rng, turn, fresh.clone(), MOST_EVENTS);
        events.truncate(2 * MOST_EVENTS);
        try_list(records, &fresh, &events);
        let state = mid_run_from(rng, fresh);
        if turn < 5 {
            let [kind, process] = accepted_event(&state, turn);
            records.event(&state, kind, process);
        } else {
            records.report(&state);
        }
    }
}

/// A random setup with so many leaves that closes some names.
fn any_closure_of(rng: &mut Random, leaves: u8) -> Closure {
    loop {
        let setup = setup_of(rng, leaves);
        let [_, l, g, b] = setup;
        let list = random_closed(rng, l * g * b);
        if !list.is_empty() {
            return (setup, list);
        }
    }
}

pub fn add(records: &mut Records, rng: &mut Random) {
    runs(records, rng);
    schedules(records, rng);
    probes(records, rng);
    closed_leaves(records);
    descents(records);
    random_runs(records, rng);
}

/// The fresh state of a random setup that may close names, or one that a list
/// leads to from there.
pub(crate) fn any_state(rng: &mut Random) -> State {
    let setup = setup(rng);
    let [_, l, g, b] = setup;
    let list = random_closed(rng, l * g * b);
    let fresh = closed(setup, &list);
    if rng.chance(1, 4) {
        return fresh;
    }
    let schedule = SCHEDULES[rng.below(SCHEDULES.len())];
    let length = rng.below(400);
    let mut maker = maker(rng, fresh, schedule, 3);
    maker.lively(length);
    maker.state
}
