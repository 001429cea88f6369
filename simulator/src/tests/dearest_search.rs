//! Document 02, request d: no list makes a claim cost more than the figure.

use super::dearest::figure;
use super::fresh;
use crate::cases::chance;
use crate::cases::shapes::{lively_list, triples};
use crate::dearest::dearest_holder;
use crate::random::Random;
use crate::State;
use std::collections::HashSet;

/// Four processes: k up to 4 in one leaf, segments of one bit and of two that
/// are more than four processes can fill, and two leaves.
const FOUR: [[u8; 4]; 12] = [
    [4, 1, 1, 1],
    [4, 1, 1, 2],
    [4, 1, 1, 3],
    [4, 1, 1, 4],
    [4, 1, 2, 1],
    [4, 1, 2, 2],
    [4, 1, 3, 1],
    [4, 1, 4, 1],
    [4, 1, 5, 1],
    [4, 1, 3, 2],
    [4, 2, 1, 1],
    [4, 2, 2, 2],
];

/// The most steps of any process, whatever its stage.
fn dearest_process(state: &State) -> u8 {
    let used = &state.processes[..usize::from(state.n)];
    used.iter().map(|p| p.steps).max().unwrap()
}

/// The numbers in use that events change; the others stay as they are.
fn changing(state: &State) -> Vec<u8> {
    let [n, l, g] = [state.n, state.l, state.g].map(usize::from);
    let mut numbers = vec![state.gate as u8, state.queue_len];
    numbers.extend(&state.queue[..n]);
    numbers.extend(&state.counters[..l]);
    numbers.extend(&state.segments[..l * g]);
    for p in &state.processes[..n] {
        numbers.extend([p.stage, p.node, p.segment, p.name, p.steps, p.returns]);
    }
    numbers
}

/// What a search over all states that events reach has found.
#[derive(Default)]
struct Found {
    states: usize,
    process: u8,
    holder: u8,
}

/// Every event of every process on every state found so far. Bad kinds and
/// strangers are refused, which changes no state.
fn search(setup: [u8; 4]) -> Found {
    let mut found = Found::default();
    let mut open = vec![fresh(setup)];
    let mut seen = HashSet::from([changing(&open[0])]);
    while let Some(state) = open.pop() {
        found.states += 1;
        found.process = found.process.max(dearest_process(&state));
        found.holder = found.holder.max(dearest_holder(&state));
        for process in 0..state.n {
            for kind in 0..3 {
                let mut after = state.clone();
                after.event(kind, process);
                if seen.insert(changing(&after)) {
                    open.push(after);
                }
            }
        }
    }
    found
}

/// Searches all states of each setup and gives their number.
fn search_all(setups: &[[u8; 4]]) -> usize {
    let mut states = 0;
    for &setup in setups {
        let found = search(setup);
        let both = [found.process, found.holder];
        assert_eq!(both, [figure(setup); 2], "{setup:?}");
        states += found.states;
    }
    states
}

/// Every shape with up to three processes.
#[test]
fn every_state_of_up_to_three_processes() {
    for (n, least) in [(1, 1_000), (2, 10_000), (3, 600_000)] {
        let setups: Vec<[u8; 4]> = triples().iter().map(|&[l, g, b]| [n, l, g, b]).collect();
        assert_eq!(setups.len(), 177);
        let states = search_all(&setups);
        assert!(states > least, "{n} {states}");
    }
}

#[test]
fn every_state_of_four_processes() {
    let states = search_all(&FOUR);
    assert!(states > 400_000, "{states}");
}

/// How often the figure was reached where the segments are too few for the
/// processes, and where the processes are too few for the segments.
#[derive(Default)]
struct Reached {
    few_segments: usize,
    few_processes: usize,
}

impl Reached {
    /// Runs a list; no process may have more steps than the figure.
    fn see(&mut self, setup: [u8; 4], events: &[u8]) {
        let [n, _, g, b] = setup;
        let most = figure(setup);
        let mut state = fresh(setup);
        let mut dearest = 0;
        for event in events.chunks(2) {
            state.event(event[0], event[1]);
            dearest = dearest.max(dearest_process(&state));
            assert!(dearest <= most, "{setup:?} {dearest}");
        }
        if dearest == most && n > g * b {
            self.few_segments += 1;
        }
        if dearest == most && n <= (g - 1) * b {
            self.few_processes += 1;
        }
    }
}

/// Fewer processes than would fill all segments of a leaf but the last.
fn few_processes(rng: &mut Random) -> [u8; 4] {
    let mut shapes = triples();
    shapes.retain(|&[_, g, b]| (g - 1) * b >= 4);
    let [l, g, b] = shapes[rng.below(shapes.len())];
    [rng.between(4, (g - 1) * b), l, g, b]
}

#[test]
fn random_lists_never_pass_the_figure() {
    let mut rng = Random::new(41);
    let mut reached = Reached::default();
    for turn in 0..1_500 {
        for setup in [chance::setup(&mut rng), few_processes(&mut rng)] {
            let events = lively_list(&mut rng, turn, setup, 600);
            reached.see(setup, &events);
        }
    }
    assert!(reached.few_segments > 100, "{}", reached.few_segments);
    assert!(reached.few_processes > 100, "{}", reached.few_processes);
}
