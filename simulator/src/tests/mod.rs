//! Unit tests.

mod bounds;
mod closed_calls;
mod closed_machine;
mod closed_search;
mod closed_setup;
mod cost_calls;
mod costs;
mod dearest;
mod dearest_calls;
mod dearest_search;
mod generators;
mod orders;
mod paper;
mod partial_calls;
mod partial_setup;
mod records;
mod refusals;
mod rolls;
mod writes;

use crate::state::State;

fn fresh(setup: [u8; 4]) -> State {
    let [n, l, g, b] = setup;
    State::setup(n, l, g, b).unwrap()
}

/// The fresh state of a setup that closes the names of a list.
fn closed(setup: [u8; 4], list: &[u8]) -> State {
    let [n, l, g, b] = setup;
    State::closed_setup(n, l, g, b, list).unwrap()
}

/// The open names of a state, one by one.
fn open_names(state: &State) -> Vec<u8> {
    let k = state.l * state.g * state.b;
    let open = |&name: &u8| (state.closed / 2_u64.pow(u32::from(name))).is_multiple_of(2);
    (0..k).filter(open).collect()
}

/// How many open names lie below a node, by the way up from each leaf.
fn open_below(state: &State, node: u8) -> u8 {
    let below = |&name: &u8| {
        let mut v = state.l + name / (state.g * state.b);
        while v > node {
            v /= 2;
        }
        v == node
    };
    open_names(state).into_iter().filter(below).count() as u8
}

/// Gives the events one after the other; all must be accepted.
fn accept(state: &mut State, events: &[[u8; 2]]) {
    for &[kind, process] in events {
        assert_eq!(state.event(kind, process), 0, "{kind} {process}");
    }
}
