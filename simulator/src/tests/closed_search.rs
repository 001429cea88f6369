//! Document 02, request e: what a user may rely on with closed names, over
//! every state that events reach in small setups, and over random lists.

use super::{closed, open_names};
use crate::calls::closed::random_closed;
use crate::cases::chance;
use crate::cases::shapes::lively_list_from;
use crate::random::Random;
use crate::state::stage;
use crate::State;
use std::collections::HashSet;

/// Two to four processes: every closure is searched.
const EVERY_CLOSURE: [[u8; 4]; 20] = [
    [2, 1, 1, 4],
    [2, 1, 4, 1],
    [2, 2, 2, 1],
    [2, 2, 1, 3],
    [2, 4, 1, 2],
    [2, 8, 1, 1],
    [3, 1, 1, 3],
    [3, 1, 3, 1],
    [3, 1, 2, 2],
    [3, 2, 1, 1],
    [3, 2, 1, 2],
    [3, 2, 2, 1],
    [3, 4, 1, 1],
    [4, 1, 1, 3],
    [4, 1, 3, 1],
    [4, 2, 1, 1],
    [4, 1, 2, 2],
    [4, 2, 1, 2],
    [4, 2, 2, 1],
    [4, 4, 1, 1],
];

/// More processes or names, with chosen closures.
const CHOSEN: [([u8; 4], &[u8]); 22] = [
    ([4, 1, 1, 4], &[0, 2]),
    ([4, 1, 1, 8], &[0, 1, 3, 6, 7]),
    ([4, 1, 3, 2], &[0, 2, 3]),
    ([4, 1, 4, 1], &[1, 2]),
    ([4, 1, 8, 1], &[0, 1, 3, 4, 6]),
    ([4, 2, 1, 4], &[0, 2, 4, 5, 7]),
    ([4, 2, 2, 2], &[0, 1, 4, 5, 6]),
    ([4, 4, 1, 2], &[1, 2, 3, 4, 7]),
    ([4, 8, 1, 1], &[0, 1, 4, 5, 6]),
    ([4, 16, 1, 1], &[0, 1, 2, 3, 4, 5, 6, 8, 9, 10, 12, 13, 14]),
    ([5, 1, 1, 3], &[1]),
    ([5, 1, 2, 2], &[0, 1]),
    ([5, 2, 1, 2], &[0, 3]),
    ([5, 4, 1, 1], &[0, 2]),
    ([3, 2, 2, 2], &[0, 1, 4, 7]),
    ([3, 2, 3, 2], &[2, 3, 6, 7, 8]),
    ([3, 4, 1, 2], &[0, 1, 3, 6]),
    ([3, 4, 2, 1], &[0, 3, 4, 5]),
    ([3, 8, 1, 1], &[0, 1, 2, 3, 6]),
    ([3, 8, 1, 2], &[1, 4, 5, 6, 7, 8, 15]),
    ([3, 16, 1, 1], &[0, 1, 2, 3, 4, 5, 6, 7, 9, 14]),
    ([2, 16, 2, 2], &[0, 1, 2, 3, 5, 31, 32, 63]),
];

/// Processes let in: stages 3 to 6, and stage 2 out of the queue.
fn admitted(state: &State) -> usize {
    let queue = &state.queue[..usize::from(state.queue_len)];
    let used = state.processes[..usize::from(state.n)].iter().enumerate();
    used.filter(|(p, process)| match process.stage {
        2 => !queue.contains(&(*p as u8)),
        stage => stage >= 3,
    })
    .count()
}

/// Checks a state that a list has reached; at no moment so far were more than
/// `most` let in. A name still in its record on the way back counts as held.
fn check(state: &State, open: &[u8], most: usize) {
    assert!(admitted(state) <= open.len());
    let height = state.l.ilog2() as u8;
    let mut held = HashSet::new();
    for process in &state.processes[..usize::from(state.n)] {
        assert_ne!(process.stage, stage::EXHAUSTED);
        if process.stage == stage::WORKING {
            assert_ne!(process.name, 255);
            let steps = height + 1..=height + state.g;
            assert!(steps.contains(&process.steps));
        }
        if process.stage == stage::GETNAME {
            assert!(process.steps < height + state.g);
        }
        if process.stage == stage::REMAINDER && process.cost() > 0 {
            let round = height + 2..=2 * height + state.g + 1;
            assert!(round.contains(&process.shown_cost()));
        }
        if process.name != 255 {
            let below = open.iter().filter(|&&name| name < process.name);
            assert!(open.contains(&process.name));
            assert!(below.count() < most, "{} {most}", process.name);
            assert!(held.insert(process.name));
        }
    }
}

/// The numbers in use that events change; the others stay as they are.
fn changing(state: &State, most: usize) -> Vec<u8> {
    let [n, l, g] = [state.n, state.l, state.g].map(usize::from);
    let mut numbers = vec![most as u8, state.gate as u8, state.queue_len];
    numbers.extend(&state.queue[..n]);
    numbers.extend(&state.counters[..l]);
    numbers.extend(&state.segments[..l * g]);
    for p in &state.processes[..n] {
        numbers.extend([p.stage, p.node, p.segment, p.name, p.steps, p.returns]);
    }
    numbers
}

/// Every event of every process on every state found so far, together with
/// the most that were let in on the way there. Gives the number of states and
/// whether all open names were held at once.
fn search(setup: [u8; 4], list: &[u8]) -> (usize, bool) {
    let start = closed(setup, list);
    let open = open_names(&start);
    let mut seen = HashSet::from([changing(&start, 0)]);
    let mut left = vec![(start, 0)];
    let mut all_held = false;
    while let Some((state, most)) = left.pop() {
        assert!(state.in_range());
        check(&state, &open, most);
        let used = &state.processes[..usize::from(state.n)];
        all_held |= used.iter().filter(|p| p.stage == stage::WORKING).count() == open.len();
        for process in 0..state.n {
            for kind in 0..3 {
                let mut after = state.clone();
                let answer = after.event(kind, process);
                assert_ne!(answer, 15);
                let most = most.max(admitted(&after));
                if answer == 0 && seen.insert(changing(&after, most)) {
                    left.push((after, most));
                }
            }
        }
    }
    (seen.len(), all_held)
}

#[test]
fn every_state_of_every_closure() {
    let [mut states, mut searches] = [0; 2];
    for setup in EVERY_CLOSURE {
        let [n, l, g, b] = setup;
        let k = l * g * b;
        for set in 0..(1_u16 << k) - 1 {
            let list: Vec<u8> = (0..k).filter(|name| set >> name & 1 == 1).collect();
            let (found, all_held) = search(setup, &list);
            assert_eq!(all_held, usize::from(n) >= usize::from(k) - list.len());
            states += found;
            searches += 1;
        }
    }
    assert!(states > 3_000_000 && searches > 750, "{states} {searches}");
}

#[test]
fn every_state_of_chosen_closures() {
    let mut states = 0;
    for (setup, list) in CHOSEN {
        states += search(setup, list).0;
    }
    assert!(states > 1_500_000, "{states}");
}

/// Random lists on random closures of every size; some hold every open name
/// while others wait.
#[test]
fn random_lists_keep_the_promises() {
    let mut rng = Random::new(58);
    let mut full = 0;
    for turn in 0..2_000 {
        let setup = chance::setup(&mut rng);
        let [_, l, g, b] = setup;
        let list = random_closed(&mut rng, l * g * b);
        let mut state = closed(setup, &list);
        let open = open_names(&state);
        let mut most = 0;
        let mut crowded = false;
        for event in lively_list_from(&mut rng, turn, state.clone(), 500).chunks(2) {
            assert_ne!(state.event(event[0], event[1]), 15);
            most = most.max(admitted(&state));
            check(&state, &open, most);
            crowded |= admitted(&state) == open.len() && state.queue_len > 0;
        }
        full += usize::from(crowded && list.len() > 1);
    }
    assert!(full > 200, "{full}");
}
