//! States reached in mid-run, lists that reach them, and events that they
//! accept.

use crate::answer::ACCEPTED;
use crate::cases::schedule::{natural_kind, ListMaker, Plan, Schedule};
use crate::random::Random;
use crate::state::{stage, State};

/// The setups whose ranges are broken one by one: small with N above k,
/// middle with N below k, largest.
pub const SETUPS: [[u8; 4]; 3] = [[5, 2, 1, 1], [7, 4, 2, 2], [64, 16, 2, 2]];

pub fn fresh(setup: [u8; 4]) -> State {
    let [n, l, g, b] = setup;
    State::setup(n, l, g, b).expect("an accepted setup")
}

/// The state of the partial setup with a count.
pub fn partial(setup: [u8; 4], count: u64) -> State {
    let [n, l, g, b] = setup;
    State::partial_setup(n, l, g, b, count).expect("an accepted setup")
}

/// The fresh state of a setup that closes some names.
pub fn closed(setup: [u8; 4], list: &[u8]) -> State {
    let [n, l, g, b] = setup;
    State::closed_setup(n, l, g, b, list).expect("an accepted setup")
}

fn any_in(state: &State, stage: u8) -> bool {
    let used = &state.processes[..usize::from(state.n)];
    used.iter().any(|p| p.stage == stage)
}

/// Workers, one in putname and, where N is above the open names, a queue of
/// two.
pub(crate) fn busy(state: &State) -> bool {
    let crowded = state.n >= state.open_names() + 2;
    any_in(state, stage::WORKING)
        && any_in(state, stage::PUTNAME)
        && (!crowded || state.queue_len >= 2)
}

/// A state reached by a list of events from a setup that closes no name,
/// usually a busy one.
pub fn mid_run(rng: &mut Random, setup: [u8; 4]) -> State {
    mid_run_from(rng, fresh(setup))
}

/// The same from any state in range.
pub fn mid_run_from(rng: &mut Random, start: State) -> State {
    let plan = Plan {
        schedule: Schedule::Uniform,
        pool: 64,
        noise: 0,
    };
    let length = 8 * usize::from(start.n);
    let mut maker = ListMaker::from_state(rng, start, plan);
    maker.lively(length);
    for _ in 0..4000 {
        if busy(&maker.state) {
            break;
        }
        maker.lively(1);
    }
    maker.state
}

/// A list of 20 to 120 events, some of them refused, that leaves the fresh
/// state a busy one. A dozen processes take part, so there must be at most 10
/// open names where N is above them; other states may never be busy.
pub(crate) fn busy_list(rng: &mut Random, start: &State) -> Vec<u8> {
    let mut events = Vec::new();
    for _ in 0..1000 {
        let plan = Plan {
            schedule: Schedule::Uniform,
            pool: 12,
            noise: 4,
        };
        let mut maker = ListMaker::from_state(rng, start.clone(), plan);
        let least = 20 + maker.rng.below(81);
        maker.lively(least);
        while !busy(&maker.state) && maker.events.len() < 2 * 120 {
            maker.lively(1);
        }
        events = maker.events;
        if busy(&maker.state) {
            break;
        }
    }
    events
}

/// An event that the state accepts, looked for from process `start` on.
pub fn accepted_event(state: &State, start: usize) -> [u8; 2] {
    let n = usize::from(state.n);
    for place in 0..n {
        let process = ((start + place) % n) as u8;
        let kind = natural_kind(state.processes[usize::from(process)].stage);
        if state.clone().event(kind, process) == ACCEPTED {
            return [kind, process];
        }
    }
    [0, 0]
}

/// A list of two events that the state accepts one after the other.
pub fn accepted_pair(state: &State, start: usize) -> [u8; 4] {
    let mut after = state.clone();
    let [kind, process] = accepted_event(&after, start);
    after.event(kind, process);
    let [next_kind, next_process] = accepted_event(&after, start + 1);
    [kind, process, next_kind, next_process]
}
