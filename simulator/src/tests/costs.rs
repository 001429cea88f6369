//! Document 02, request b: what counts, what is shown and the sum's range.

use super::{accept, fresh, open_below, open_names};
use crate::calls::chance;
use crate::cases::worked::{P11_EVENTS, P11_SETUP};
use crate::random::Random;
use crate::state::{Process, MOST_COST, NO_NAME};
use crate::{GateReport, State, Status};

const UNTOUCHED: Status = Status {
    stage: 9,
    name: 9,
    cost: 9,
};

fn numbers(state: &State, process: usize) -> [u8; 2] {
    let p = &state.processes[process];
    [p.steps, p.returns]
}

fn set(state: &mut State, process: usize, [steps, returns]: [u8; 2]) {
    state.processes[process].steps = steps;
    state.processes[process].returns = returns;
}

/// The worked list's last figures; lines eight and nine end in 2.
#[test]
fn worked_list() {
    let mut state = fresh(P11_SETUP);
    let mut journal = [0; 44];
    assert_eq!(state.run(&P11_EVENTS, &mut journal), 0);
    let last: Vec<u8> = journal.chunks(4).map(|entry| entry[3]).collect();
    assert_eq!(last, [0, 0, 1, 0, 0, 0, 1, 2, 2, 0, 1]);
    assert_eq!(numbers(&state, 0), [1, 1]);
    assert_eq!(numbers(&state, 1), [1, 0]);
}

#[test]
fn fresh_and_blank_states() {
    for process in fresh([5, 4, 2, 2]).processes {
        assert_eq!((process.steps, process.returns), (0, 0));
    }
    assert_eq!(fresh([5, 1, 1, 1]).processes[5], Process::BLANK);
    assert!(State::BLANK.to_image().iter().all(|&byte| byte == 0));
}

/// A process is stage, node, segment, name, steps and returns.
#[test]
fn image_of_a_process() {
    let mut state = State::BLANK;
    state.processes[63] = Process {
        stage: 1,
        node: 2,
        segment: 3,
        name: 4,
        steps: 5,
        returns: 6,
    };
    let image = state.to_image();
    assert_eq!(image.len(), 542);
    assert_eq!(image[536..], [1, 2, 3, 4, 5, 6]);
    assert_eq!(State::from_image(&image), state);
}

/// Eight processes hold the eight names; each goes back from another leaf or
/// segment. The levels are left by the left where a bit of the leaf is 0.
#[test]
fn every_way_back() {
    let setup = [8, 4, 2, 1];
    let mut state = fresh(setup);
    for process in 0..8 {
        accept(&mut state, &[[0, process], [1, process]]);
        while state.processes[usize::from(process)].stage == 3 {
            accept(&mut state, &[[1, process]]);
        }
    }
    for process in 0..8 {
        let p = usize::from(process);
        let steps = 3 + process % 2;
        let leaf = process / 2;
        let [first, second] = [1 - leaf % 2, 1 - leaf / 2];
        assert_eq!(state.processes[p].name, process);
        assert_eq!(numbers(&state, p), [steps, 0]);
        accept(&mut state, &[[2, process]]);
        assert_eq!(numbers(&state, p), [steps, 0]);
        for returns in [1, 1 + first, 1 + first + second, 1 + first + second] {
            accept(&mut state, &[[1, process]]);
            assert_eq!(numbers(&state, p), [steps, returns]);
        }
        assert_eq!(state.processes[p].stage, 0);
    }
    for p in 0..8 {
        set(&mut state, p, [0, 0]);
    }
    assert_eq!(state, fresh(setup));
}

#[test]
fn a_new_request_begins_again() {
    let mut state = fresh([1, 1, 1, 1]);
    let mut journal = [0; 4];
    for _ in 0..3 {
        accept(
            &mut state,
            &[[0, 0], [1, 0], [1, 0], [2, 0], [1, 0], [1, 0]],
        );
        assert_eq!(numbers(&state, 0), [1, 1]);
        let mut after = state.clone();
        assert_eq!(after.run(&[0, 0], &mut journal), 0);
        assert_eq!((journal, numbers(&after, 0)), ([0, 1, 255, 0], [0, 0]));
    }
    for returns in 0..=255 {
        set(&mut state, 0, [255 - returns, returns]);
        let mut after = state.clone();
        assert_eq!(after.event(0, 0), 0);
        assert_eq!(numbers(&after, 0), [0, 0]);
    }
}

/// Refusals by the stage show the sum; 12, 6 and 15 show 255.
#[test]
fn the_sum_is_shown() {
    let mut state = fresh([2, 2, 1, 1]);
    set(&mut state, 0, [70, 80]);
    set(&mut state, 1, [0, 255]);
    state.processes[1].stage = 3;
    let events = [1, 0, 2, 0, 0, 1, 2, 1, 1, 1, 3, 0, 0, 2, 0, 0, 1, 0];
    let mut journal = [170; 36];
    assert_eq!(state.clone().run(&events, &mut journal), 0);
    let expected = [
        [8, 0, 255, 150],
        [9, 0, 255, 150],
        [7, 3, 255, 255],
        [9, 3, 255, 255],
        [15, 255, 255, 255],
        [12, 255, 255, 255],
        [6, 255, 255, 255],
        [0, 1, 255, 0],
        [0, 3, 255, 0],
    ];
    assert_eq!(journal.to_vec(), expected.concat());
    let mut lent = [UNTOUCHED; 3];
    assert_eq!(state.fill_roll(&mut lent), 0);
    assert_eq!([lent[0].cost, lent[1].cost, lent[2].cost], [150, 255, 9]);
}

fn refused_by_every_call(state: &State) {
    let mut after = state.clone();
    for [kind, process] in [[0, 0], [0, 1], [3, 9]] {
        assert_eq!(after.event(kind, process), 15);
    }
    let mut journal = [170; 8];
    assert_eq!(after.run(&[0, 0, 0, 1], &mut journal), 15);
    assert_eq!(journal, [170; 8]);
    let report = GateReport {
        answer: 15,
        open: 0,
        queued: 0,
    };
    assert_eq!(after.gate_report(), report);
    let mut lent = [UNTOUCHED; 3];
    assert_eq!(after.fill_roll(&mut lent[..1]), 15);
    assert_eq!(after.fill_roll(&mut lent), 15);
    assert_eq!(lent, [UNTOUCHED; 3]);
    assert_eq!(&after, state);
}

/// Every pair of numbers, for one process of three.
#[test]
fn range_of_the_sum() {
    let mut state = fresh([3, 1, 2, 1]);
    for steps in 0..=255 {
        for returns in 0..=255 {
            let p = usize::from(steps % 3);
            let mut changed = state.clone();
            set(&mut changed, p, [steps, returns]);
            let good = usize::from(steps) + usize::from(returns) <= 255;
            assert_eq!(changed.in_range(), good);
            if !good {
                refused_by_every_call(&changed);
            }
            set(&mut state, 3, [steps, returns]);
            assert!(state.in_range());
        }
    }
}

/// Whether the documents count the step of a process.
fn counts(p: &Process) -> bool {
    p.stage == 3 || p.stage == 5 && (p.name != NO_NAME || p.node.is_multiple_of(2))
}

/// Whether the step would take another number than the sum outside.
fn other_limit(state: &State, p: &Process) -> bool {
    match (p.stage, p.name, p.node) {
        (1, ..) => state.gate == -64 || state.gate <= 0 && state.queue_len == 64,
        (5, NO_NAME, 1) => state.gate == open_names(state).len() as i8,
        (5, NO_NAME, v) if v.is_multiple_of(2) => {
            state.counters[usize::from(v / 2)] == open_below(state, v)
        }
        _ => false,
    }
}

/// The answer of an event with a good kind and process.
fn answer(state: &State, kind: u8, p: &Process) -> u8 {
    match (kind, p.stage) {
        (0, 0) | (2, 4) => 0,
        (0, _) => 7,
        (1, 0 | 4) => 8,
        (2, _) => 9,
        _ if counts(p) && p.cost() == MOST_COST || other_limit(state, p) => 15,
        _ => 0,
    }
}

/// Both numbers after an accepted event.
fn numbers_after(kind: u8, p: &Process) -> [u8; 2] {
    match (kind, p.stage) {
        (0, _) => [0, 0],
        (1, 3) => [p.steps + 1, p.returns],
        (1, 5) if counts(p) => [p.steps, p.returns + 1],
        _ => [p.steps, p.returns],
    }
}

/// Random states: answers and numbers by the documents' sentences alone.
#[test]
fn any_event_on_any_state() {
    let mut rng = Random::new(21);
    let mut shown = [[0; 2]; 7];
    for _ in 0..4_000 {
        let state = chance::state(&mut rng);
        for process in 0..state.n {
            for kind in 0..3 {
                let p = &state.processes[usize::from(process)];
                let expected = answer(&state, kind, p);
                let mut after = state.clone();
                assert_eq!(after.event(kind, process), expected);
                let mut others = state.processes;
                if expected == 0 {
                    let after = after.processes[usize::from(process)];
                    assert_eq!([after.steps, after.returns], numbers_after(kind, p));
                    others[usize::from(process)] = after;
                } else {
                    assert_eq!(after, state);
                }
                assert_eq!(after.processes, others);
                if p.cost() == MOST_COST && kind == 1 {
                    shown[usize::from(p.stage)][usize::from(expected == 15)] += 1;
                }
            }
        }
    }
    assert!([1, 5]
        .iter()
        .all(|&stage| shown[stage].iter().all(|&n| n > 500)));
    assert_eq!([shown[2][1], shown[3][0], shown[6][1]], [0, 0, 0]);
}
