//! Calls with several faults, so that the order of the checks shows, and
//! journals of every length about the right one.

use super::costs::set_cost;
use super::reached::{accepted_pair, mid_run};
use super::Records;
use crate::random::Random;
use crate::state::{stage, State};

fn event_faults(records: &mut Records, good: &State) {
    let mut broken = good.clone();
    broken.processes[1].node = 0;
    for kind in [0, 1, 2, 3, 255] {
        for process in [good.n - 1, good.n, 255] {
            records.event(good, kind, process);
        }
    }
    for [kind, process] in [[0, 0], [3, 0], [1, good.n], [3, good.n], [255, 255]] {
        records.event(&broken, kind, process);
    }
}

fn list_faults(records: &mut Records, good: &State) {
    let mut broken = good.clone();
    broken.gate = -65;
    let pair = accepted_pair(good, 0);
    let odd = [pair[0], pair[1], pair[2], pair[3], 1];
    for state in [good, &broken] {
        for events in [&pair[..], &odd] {
            for journal_len in [7, 8] {
                records.list(state, events, journal_len);
            }
        }
        records.list(state, &[], 0);
        records.list(state, &[], 5);
        records.list(state, &[0], 0);
        records.list(state, &[0], 3);
    }
}

fn journal_lengths(records: &mut Records, good: &State) {
    let pair = accepted_pair(good, 3);
    for journal_len in [0, 1, 4, 9, 11, 12, 255] {
        records.list(good, &pair, journal_len);
    }
    let many: Vec<u8> = (0..63).flat_map(|p| [p % 4, p % (good.n + 1)]).collect();
    records.list(good, &many, 252);
    records.list(good, &many, 251);
}

/// A refusal by the stage comes before a refusal of the step, and a list
/// goes on after each of them.
fn mixed_list(records: &mut Records, good: &State) {
    let mut state = good.clone();
    state.processes[0].stage = stage::GETNAME;
    set_cost(&mut state.processes[0], [250, 5]);
    state.processes[1].stage = stage::WORKING;
    set_cost(&mut state.processes[1], [255, 0]);
    state.processes[2].stage = stage::REMAINDER;
    let n = state.n;
    let events = [
        [1, 0],
        [0, 0],
        [2, 0],
        [1, 1],
        [0, 1],
        [3, 0],
        [3, n],
        [1, n],
        [1, 2],
        [2, 2],
        [2, 1],
        [0, 2],
    ];
    records.list(&state, &events.concat(), 50);
}

pub fn add(records: &mut Records, rng: &mut Random) {
    let good = mid_run(rng, [5, 2, 1, 1]);
    event_faults(records, &good);
    list_faults(records, &good);
    journal_lengths(records, &good);
    mixed_list(records, &good);
}
