//! Document 02, request e: first clear, ranges and events with closed names.

use super::paper::{event, faults};
use super::{accept, closed, fresh, open_below, open_names};
use crate::calls::closed::random_closed;
use crate::calls::closed_runs::any_state;
use crate::calls::closed_states::CLOSURES;
use crate::calls::{broken, chance};
use crate::cases::chance::setup;
use crate::operations::{set_first_open_zero, set_first_zero};
use crate::random::Random;
use crate::state::{stage, Process};
use crate::{GateReport, State, Status};

const UNTOUCHED: Status = Status {
    stage: 9,
    name: 9,
    cost: 9,
};

/// Every word and every set of closed bits.
#[test]
fn first_clear_agrees_with_a_search() {
    for b in 1..=8 {
        for closed in 0..1_u16 << b {
            for word in 0..1_u16 << b {
                let free = |bit: &u8| (word | closed) >> bit & 1 == 0;
                let index = (0..b).find(free).unwrap_or(b);
                let set = if index < b { 1 << index } else { 0 };
                for past in [0, 0xFF << b] {
                    let mut after = word as u8;
                    let given = (closed | past) as u8;
                    assert_eq!(set_first_open_zero(&mut after, given, b), index);
                    assert_eq!(u16::from(after), word | set);
                }
                if closed == 0 {
                    let mut after = word as u8;
                    assert_eq!(set_first_zero(&mut after, b), index);
                }
            }
        }
    }
}

/// A process in getname at segment 1 of leaf 0.
fn prober(state: &mut State) {
    state.processes[0] = Process {
        stage: stage::GETNAME,
        node: 2,
        segment: 1,
        ..Process::FRESH
    };
}

/// The middle segment of a leaf in every shape: its closed bits and its word
/// of every sort, beside segments that are all closed or all open.
#[test]
fn every_segment() {
    for b in 1..=8_u8 {
        for holes in 0..1_u16 << b {
            let middle = (0..b).filter(|bit| holes >> bit & 1 == 1);
            let middle: Vec<u8> = middle.map(|bit| b + bit).collect();
            let beside: Vec<u8> = (0..b).chain(2 * b..3 * b).collect();
            for list in [middle.clone(), [middle, beside].concat()] {
                let mut state = closed([1, 2, 3, b], &list);
                prober(&mut state);
                for word in (0..1_u16 << b).filter(|word| word & holes == 0) {
                    state.segments[1] = word as u8;
                    let (answer, after) = event(&state, 1, 0);
                    let mut ours = state.clone();
                    assert_eq!((ours.event(1, 0), answer), (0, 0));
                    assert_eq!(ours, after);
                    let full = word | holes == (1 << b) - 1;
                    let [stage, name] = [ours.processes[0].stage, ours.processes[0].name];
                    assert_eq!([stage == 3, name == 255], [full; 2]);
                }
            }
        }
    }
}

/// A change of one number, which may be the set of closed names.
fn change(rng: &mut Random, state: &mut State) {
    let mut image = state.to_image();
    match rng.below(5) {
        0 => state.closed ^= 1 << rng.below(64),
        1 => state.closed |= rng.draw() & rng.draw(),
        2 => {
            let r = rng.below(usize::from(state.l * state.g));
            state.segments[r] ^= 1 << rng.below(8);
        }
        3 => {
            let p = rng.below(usize::from(state.n));
            state.processes[p].name = rng.byte_below(65);
        }
        _ => {
            let at = rng.below(image.len());
            image[at] = rng.byte();
            *state = State::from_image(&image);
        }
    }
}

/// Random states and changed ones: in range exactly where the papers find no
/// fault, and every event as the papers say.
#[test]
fn any_event_on_any_state() {
    let mut rng = Random::new(55);
    let mut shown = [0; 2];
    for turn in 0..30_000 {
        let mut state = match turn % 3 {
            0 => any_state(&mut rng),
            _ => chance::state(&mut rng),
        };
        assert!(state.in_range());
        if turn % 2 == 0 {
            change(&mut rng, &mut state);
        }
        let good = faults(&state).is_empty();
        assert_eq!(state.in_range(), good, "{:?}", faults(&state));
        shown[usize::from(good)] += 1;
        for _ in 0..6 {
            let kind = [0, 1, 1, 1, 2, 3][rng.below(6)];
            let process = rng.byte_below(state.n.saturating_add(1));
            let (answer, after) = event(&state, kind, process);
            let mut ours = state.clone();
            assert_eq!(ours.event(kind, process), answer, "{kind} {process}");
            assert_eq!(ours, after);
        }
    }
    assert!(shown.iter().all(|&number| number > 5_000), "{shown:?}");
}

/// Limits of the counters and of the gate word by the names below.
#[test]
fn limits_agree_with_a_count() {
    let mut rng = Random::new(56);
    for _ in 0..3_000 {
        let state = chance::state(&mut rng);
        assert_eq!(usize::from(state.open_names()), open_names(&state).len());
        for v in 1..state.l {
            let by_names = open_below(&state, 2 * v);
            assert_eq!(state.fresh_counter(usize::from(v)), by_names);
        }
        for name in 0..state.names() {
            let open = open_names(&state).contains(&name);
            assert_eq!(state.is_closed(name), !open);
            let bits = state.closed_bits(name / state.b);
            assert_eq!(bits >> (name % state.b) & 1 == 0, open);
        }
    }
}

fn refused_by_every_call(state: &State) {
    let mut after = state.clone();
    for [kind, process] in [[0, 0], [1, 0], [3, 99]] {
        assert_eq!(after.event(kind, process), 15);
    }
    let mut journal = [170; 8];
    assert_eq!(after.run(&[0, 0, 0], &mut journal), 14);
    assert_eq!(after.run(&[0, 0, 0, 0], &mut journal[..7]), 13);
    assert_eq!(after.run(&[0, 0, 0, 0], &mut journal), 15);
    assert_eq!(journal, [170; 8]);
    let report = GateReport {
        answer: 15,
        open: 0,
        queued: 0,
    };
    assert_eq!(after.gate_report(), report);
    let mut lent = [UNTOUCHED; 64];
    assert_eq!(after.fill_roll(&mut lent[..0]), 15);
    assert_eq!(after.fill_roll(&mut lent), 15);
    assert!(lent.iter().all(|record| *record == UNTOUCHED));
    assert_eq!(&after, state);
}

/// Each closed bit set and each closed name in each record, in any stage.
#[test]
fn a_closed_name_held_is_broken() {
    for (setup, list) in CLOSURES {
        let good = closed(setup, list);
        for name in 0..good.names() {
            let mut state = good.clone();
            state.segments[usize::from(name / good.b)] = 1 << (name % good.b);
            assert_eq!(state.in_range(), !list.contains(&name));
            if list.contains(&name) {
                assert_eq!(faults(&state), ["bit"]);
                refused_by_every_call(&state);
            }
            for p in 0..usize::from(good.n) {
                for stage in 0..=6 {
                    state = good.clone();
                    (state.processes[p].stage, state.processes[p].name) = (stage, name);
                    assert_eq!(state.in_range(), !list.contains(&name));
                }
            }
            if list.contains(&name) {
                assert_eq!(faults(&state), ["record"]);
                refused_by_every_call(&state);
            }
        }
    }
}

/// Every value of the gate word and of each counter.
#[test]
fn upper_limits() {
    for (setup, list) in CLOSURES {
        let good = closed(setup, list);
        let mut state = good.clone();
        for gate in i8::MIN..=i8::MAX {
            state.gate = gate;
            let open = open_names(&good).len() as i8;
            assert_eq!(state.in_range(), (-64..=open).contains(&gate));
        }
        for v in 1..good.l {
            state = good.clone();
            for value in 0..=255 {
                state.counters[usize::from(v)] = value;
                assert_eq!(state.in_range(), value <= open_below(&good, 2 * v));
            }
        }
        for state in broken::closed_kinds(&good, 0).concat() {
            refused_by_every_call(&state);
        }
    }
}

/// A closed name from k on, and no open name, break a state in which nothing
/// else is wrong.
#[test]
fn closed_names_of_a_state() {
    for setup in [[3, 1, 1, 1], [3, 2, 1, 1], [3, 4, 2, 2], [3, 2, 5, 6]] {
        let mut good = fresh(setup);
        good.gate = -1;
        good.counters = [0; 16];
        for name in 0..64 {
            let mut state = good.clone();
            state.closed = 1 << name;
            let alone = name == 0 && good.names() == 1;
            let right = name < good.names() && !alone;
            assert_eq!(state.in_range(), right, "{setup:?} {name}");
            if !right {
                refused_by_every_call(&state);
            }
        }
        good.closed = (1 << good.names()) - 1;
        refused_by_every_call(&good);
        good.closed = u64::MAX;
        refused_by_every_call(&good);
    }
    let mut largest = fresh([3, 16, 2, 2]);
    largest.gate = 0;
    largest.counters = [0; 16];
    largest.closed = u64::MAX;
    refused_by_every_call(&largest);
    for name in 0..64 {
        largest.closed = u64::MAX - (1 << name);
        assert!(largest.in_range());
    }
}

/// Steps back that would raise a counter or the gate word above the open
/// names, though not above what it would be with nothing closed.
#[test]
fn steps_past_the_limits() {
    for (setup, list) in CLOSURES {
        let good = closed(setup, list);
        for v in 1..good.l {
            let mut state = good.clone();
            state.processes[1] = Process {
                stage: stage::PUTNAME,
                node: 2 * v,
                ..Process::FRESH
            };
            let mut after = state.clone();
            assert_eq!(after.event(1, 1), 15);
            assert_eq!(after, state);
            let counter = &mut state.counters[usize::from(v)];
            if *counter > 0 {
                *counter -= 1;
                accept(&mut state, &[[1, 1]]);
                assert_eq!(state.counters, good.counters);
            }
        }
        let mut state = good.clone();
        state.processes[1].stage = stage::PUTNAME;
        let mut after = state.clone();
        assert_eq!(after.event(1, 1), 15);
        assert_eq!(after, state);
        state.gate -= 1;
        accept(&mut state, &[[1, 1]]);
        assert_eq!(state.gate, good.gate);
    }
}

/// Three segments of two bits, of which the first is all closed and the next
/// has one hole: by hand.
#[test]
fn a_list_by_hand() {
    let mut state = closed([4, 1, 3, 2], &[0, 1, 3, 5, 5]);
    let claim = |process| [[0, process], [1, process]];
    let mut events = claim(0).to_vec();
    events.extend([[1, 0]; 2]);
    events.extend(claim(1));
    events.extend([[1, 1]; 3]);
    events.extend(claim(2));
    events.extend([[2, 0], [1, 0], [1, 0], [1, 2], [1, 2], [1, 2]]);
    let expected = [
        [0, 1, 255, 0],
        [0, 3, 255, 0],
        [0, 3, 255, 1],
        [0, 4, 2, 2],
        [0, 1, 255, 0],
        [0, 3, 255, 0],
        [0, 3, 255, 1],
        [0, 3, 255, 2],
        [0, 4, 4, 3],
        [0, 1, 255, 0],
        [0, 2, 255, 0],
        [0, 5, 2, 2],
        [0, 5, 255, 3],
        [0, 0, 255, 3],
        [0, 3, 255, 0],
        [0, 3, 255, 1],
        [0, 4, 2, 2],
    ];
    let mut journal = vec![170; 4 * events.len()];
    assert_eq!(state.run(&events.concat(), &mut journal), 0);
    assert_eq!(journal, expected.concat());
    assert_eq!((state.gate, state.queue_len), (0, 0));
    assert_eq!(state.segments[..3], [0, 1, 1]);
}

/// A round, one process after the other, gives everything back.
#[test]
fn rounds_give_everything_back() {
    let mut rng = Random::new(57);
    for _ in 0..2_000 {
        let setup = setup(&mut rng);
        let [_, l, g, b] = setup;
        let start = closed(setup, &random_closed(&mut rng, l * g * b));
        let process = rng.byte_below(start.n);
        let p = usize::from(process);
        let mut state = start.clone();
        accept(&mut state, &[[0, process]]);
        while state.processes[p].stage != stage::WORKING {
            accept(&mut state, &[[1, process]]);
        }
        assert_eq!(state.processes[p].name, open_names(&start)[0]);
        accept(&mut state, &[[2, process]]);
        while state.processes[p].stage != stage::REMAINDER {
            accept(&mut state, &[[1, process]]);
        }
        (state.processes[p].steps, state.processes[p].returns) = (0, 0);
        assert_eq!(state, start);
    }
}
