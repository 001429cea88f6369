//! Document 02, request c: the partial setup.

use super::{accept, fresh};
use crate::calls::reached::partial;
use crate::cases::shapes::triples;
use crate::random::Random;
use crate::state::{stage, Process};
use crate::{GateReport, State};

/// Where the counters stand in a state image.
const COUNTERS_AT: usize = 78;

/// Counts below any number of leaves, about them and far above.
fn counts() -> Vec<u64> {
    let mut counts: Vec<u64> = (0..=40).collect();
    for bits in [7, 8, 15, 16, 31, 32, 52, 53, 63] {
        counts.extend((1 << bits) - 2..(1 << bits) + 18);
    }
    counts.extend(u64::MAX - 17..=u64::MAX);
    counts
}

/// The state by the documents' sentences: the counter of node v is filled
/// when fewer than `count` nodes stand from L - 1 down to v + 1.
fn expected(setup: [u8; 4], count: u64) -> State {
    let [n, l, g, b] = setup;
    let mut state = State {
        n,
        l,
        g,
        b,
        gate: (l * g * b) as i8,
        ..State::BLANK
    };
    let mut width = l * g * b;
    let mut first = 1;
    while first < l {
        width /= 2;
        for v in first..2 * first {
            if u64::from(l - 1 - v) < count {
                state.counters[usize::from(v)] = width;
            }
        }
        first *= 2;
    }
    for process in &mut state.processes[..usize::from(n)] {
        (process.node, process.name) = (1, 255);
    }
    state
}

/// Every accepted setup, with N at both ends and between.
fn setups() -> Vec<[u8; 4]> {
    let numbers = [1, 2, 31, 63, 64];
    let each = |[l, g, b]: [u8; 3]| numbers.map(|n| [n, l, g, b]);
    triples().into_iter().flat_map(each).collect()
}

/// Counters 1 to 15 of the largest setup.
fn counters(count: u64) -> [u8; 15] {
    let state = partial([64, 16, 2, 2], count);
    assert_eq!(state.counters[0], 0);
    std::array::from_fn(|place| state.counters[place + 1])
}

#[test]
fn counters_of_sixteen_leaves() {
    for (count, expected) in [
        (0, [0, 0, 0, 0, 0, 0, 0, 0, 0, 0, 0, 0, 0, 0, 0]),
        (1, [0, 0, 0, 0, 0, 0, 0, 0, 0, 0, 0, 0, 0, 0, 4]),
        (2, [0, 0, 0, 0, 0, 0, 0, 0, 0, 0, 0, 0, 0, 4, 4]),
        (7, [0, 0, 0, 0, 0, 0, 0, 0, 4, 4, 4, 4, 4, 4, 4]),
        (8, [0, 0, 0, 0, 0, 0, 0, 4, 4, 4, 4, 4, 4, 4, 4]),
        (9, [0, 0, 0, 0, 0, 0, 8, 4, 4, 4, 4, 4, 4, 4, 4]),
        (12, [0, 0, 0, 8, 8, 8, 8, 4, 4, 4, 4, 4, 4, 4, 4]),
        (13, [0, 0, 16, 8, 8, 8, 8, 4, 4, 4, 4, 4, 4, 4, 4]),
        (14, [0, 16, 16, 8, 8, 8, 8, 4, 4, 4, 4, 4, 4, 4, 4]),
        (15, [32, 16, 16, 8, 8, 8, 8, 4, 4, 4, 4, 4, 4, 4, 4]),
        (16, [32, 16, 16, 8, 8, 8, 8, 4, 4, 4, 4, 4, 4, 4, 4]),
        (256, [32, 16, 16, 8, 8, 8, 8, 4, 4, 4, 4, 4, 4, 4, 4]),
    ] {
        assert_eq!(counters(count), expected, "{count}");
    }
    assert_eq!(counters(1 << 32), counters(15));
    assert_eq!(counters(u64::MAX), counters(15));
}

/// Which counters are filled for each count, and that all else is fresh.
#[test]
fn every_setup_and_every_count() {
    let counts = counts();
    for setup in setups() {
        for &count in &counts {
            assert_eq!(
                partial(setup, count),
                expected(setup, count),
                "{setup:?} {count}"
            );
        }
    }
}

#[test]
fn from_the_last_counter_on_it_is_the_setup() {
    let counts = counts();
    for setup in setups() {
        let all = u64::from(setup[1]) - 1;
        let whole = fresh(setup);
        assert_eq!(whole, expected(setup, all));
        for &count in &counts {
            let image = partial(setup, count).to_image();
            assert_eq!(image == whole.to_image(), count >= all);
        }
    }
}

#[test]
fn neighbouring_counts_differ_at_one_counter() {
    for setup in setups() {
        let last = usize::from(setup[1]) - 1;
        let whole = fresh(setup).to_image();
        for count in 0..last {
            let fewer = partial(setup, count as u64).to_image();
            let more = partial(setup, count as u64 + 1).to_image();
            let places = (0..542).filter(|&place| fewer[place] != more[place]);
            let at = COUNTERS_AT + last - count;
            assert_eq!(places.collect::<Vec<_>>(), [at]);
            assert_eq!([fewer[at], more[at]], [0, whole[at]]);
        }
    }
}

/// The first refusal in the documents' order, or 0.
pub fn refusal(setup: [u8; 4]) -> u8 {
    let [n, l, g, b] = setup.map(usize::from);
    let checks = [
        !(1..=64).contains(&n),
        ![1, 2, 4, 8, 16].contains(&l),
        !(1..=8).contains(&g),
        !(1..=8).contains(&b),
        l * g * b > 64,
    ];
    let first = checks.iter().position(|&fault| fault);
    first.map_or(0, |place| place as u8 + 1)
}

#[test]
fn refusals_are_those_of_the_setup() {
    let leaves = [0, 1, 2, 3, 4, 5, 8, 9, 15, 16, 17, 32, 64, 128, 255];
    let others = [0, 1, 2, 3, 4, 5, 7, 8, 9, 10, 16, 32, 64, 128, 255];
    let mut answers = [0; 6];
    for n in [0, 1, 2, 63, 64, 65, 128, 255] {
        for l in leaves {
            for g in others {
                for b in others {
                    let number = refusal([n, l, g, b]);
                    answers[usize::from(number)] += 1;
                    assert_eq!(State::setup(n, l, g, b).err().unwrap_or(0), number);
                    for count in [0, 1, 7, 15, 256, u64::MAX] {
                        let made = State::partial_setup(n, l, g, b, count);
                        assert_eq!(made.err().unwrap_or(0), number);
                    }
                }
            }
        }
    }
    assert!(answers.iter().all(|&number| number > 100), "{answers:?}");
}

/// The states of smaller counts are in range: every call answers them.
#[test]
fn smaller_counts_are_in_range() {
    for setup in setups() {
        let [n, l, ..] = setup;
        for count in 0..u64::from(l) {
            let mut state = partial(setup, count);
            assert!(state.in_range());
            let report = GateReport {
                answer: 0,
                open: state.names(),
                queued: 0,
            };
            assert_eq!(state.gate_report(), report);
            assert_eq!(state.run(&[], &mut []), 0);
            assert_eq!(state, partial(setup, count));
            accept(&mut state, &[[0, n - 1], [1, n - 1], [1, n - 1]]);
        }
    }
}

/// Two leaves of one name each and no counter filled: the second process
/// finds the right leaf full and goes astray, the third waits.
#[test]
fn a_list_that_ends_astray() {
    let mut state = partial([3, 2, 1, 1], 0);
    let [first, second, third] = [[1, 0], [1, 1], [1, 2]];
    let events = [
        [0, 0],
        first,
        first,
        first,
        [0, 1],
        second,
        second,
        second,
        [0, 2],
        third,
        second,
        [2, 1],
        [0, 1],
        [2, 0],
        first,
        first,
        first,
        third,
        third,
        third,
    ];
    let expected = [
        [0, 1, 255, 0],
        [0, 3, 255, 0],
        [0, 3, 255, 1],
        [0, 4, 1, 2],
        [0, 1, 255, 0],
        [0, 3, 255, 0],
        [0, 3, 255, 1],
        [0, 6, 255, 2],
        [0, 1, 255, 0],
        [0, 2, 255, 0],
        [0, 6, 255, 2],
        [9, 6, 255, 2],
        [7, 6, 255, 2],
        [0, 5, 1, 2],
        [0, 5, 255, 3],
        [0, 5, 255, 3],
        [0, 0, 255, 3],
        [0, 3, 255, 0],
        [0, 3, 255, 1],
        [0, 4, 1, 2],
    ];
    let mut journal = [170; 80];
    assert_eq!(state.run(&events.concat(), &mut journal), 0);
    assert_eq!(journal.to_vec(), expected.concat());
    assert_eq!(state.counters[1], 0);
    assert_eq!((state.gate, state.queue_len), (0, 0));
}

/// The way down goes left where the counter is filled, otherwise right.
#[test]
fn steps_down_from_every_node() {
    for setup in [[15, 16, 1, 1], [7, 8, 2, 2], [3, 4, 1, 3], [2, 2, 1, 1]] {
        let l = setup[1];
        for count in 0..l {
            for node in 1..l {
                let mut state = partial(setup, u64::from(count));
                state.processes[1].stage = stage::GETNAME;
                state.processes[1].node = node;
                let before = state.counters[usize::from(node)];
                let filled = node >= l - count;
                assert_eq!(before > 0, filled);
                accept(&mut state, &[[1, 1]]);
                assert_eq!(state.processes[1].node, 2 * node + u8::from(!filled));
                let after = state.counters[usize::from(node)];
                assert_eq!(after, before - u8::from(filled));
            }
        }
    }
}

fn put_back(state: &mut State, process: usize, node: u8) {
    state.processes[process] = Process {
        stage: stage::PUTNAME,
        node,
        ..Process::FRESH
    };
}

/// A counter that is filled stands at its fresh value, so that a step back
/// from the left is refused; the others rise from 0. From the right nothing
/// is given back.
#[test]
fn steps_back_to_every_node() {
    for setup in [[15, 16, 1, 1], [7, 8, 2, 2], [3, 4, 1, 3], [2, 2, 1, 1]] {
        let l = setup[1];
        for count in 0..l {
            for node in 1..l {
                let start = partial(setup, u64::from(count));
                let filled = node >= l - count;
                let mut state = start.clone();
                put_back(&mut state, 1, 2 * node);
                let number = if filled { 15 } else { 0 };
                assert_eq!(state.event(1, 1), number);
                if !filled {
                    assert_eq!(state.counters[usize::from(node)], 1);
                }
                state = start.clone();
                put_back(&mut state, 1, 2 * node + 1);
                accept(&mut state, &[[1, 1]]);
                assert_eq!(state.counters, start.counters);
            }
        }
    }
}

/// A counter that is not filled rises up to its fresh value and no further.
#[test]
fn an_unfilled_counter_has_its_fresh_value_as_its_limit() {
    let mut state = partial([8, 4, 2, 1], 2);
    for process in 0..5 {
        put_back(&mut state, process, 2);
    }
    accept(&mut state, &[[1, 0], [1, 1], [1, 2], [1, 3]]);
    assert_eq!(state.counters[1], 4);
    assert_eq!(state.event(1, 4), 15);
    accept(&mut state, &[[0, 7], [1, 7], [1, 7]]);
    assert_eq!((state.processes[7].node, state.counters[1]), (2, 3));
    accept(&mut state, &[[1, 4]]);
    assert_eq!(state.counters[1], 4);
}

/// Whole rounds, one process after the other, give everything back.
#[test]
fn rounds_give_everything_back() {
    let mut rng = Random::new(31);
    for setup in setups() {
        for count in 0..u64::from(setup[1]) {
            let start = partial(setup, count);
            let process = rng.byte_below(setup[0]);
            let p = usize::from(process);
            let mut state = start.clone();
            accept(&mut state, &[[0, process]]);
            while state.processes[p].stage != stage::WORKING {
                accept(&mut state, &[[1, process]]);
            }
            accept(&mut state, &[[2, process]]);
            while state.processes[p].stage != stage::REMAINDER {
                accept(&mut state, &[[1, process]]);
            }
            (state.processes[p].steps, state.processes[p].returns) = (0, 0);
            assert_eq!(state, start);
        }
    }
}
