//! The worked orders P1 to P11.

use super::{accept, fresh};
use crate::cases::worked::{self, P10_EVENTS, P10_SETUP, P9_EVENTS, P9_SETUP};
use crate::operations::{bounded_decrement, clr_bit, set_first_zero};
use crate::state::stage;
use crate::{file_text, State, Status};

#[test]
fn p1_and_p2_first_zero() {
    let mut word = 5;
    assert_eq!((set_first_zero(&mut word, 3), word), (1, 7));
    assert_eq!((set_first_zero(&mut word, 3), word), (3, 7));
}

#[test]
fn operations_agree_with_a_search() {
    for b in 1..=8 {
        for word in 0..1_u16 << b {
            let index = (0..b).find(|i| word >> i & 1 == 0).unwrap_or(b);
            let mut after = word as u8;
            assert_eq!(set_first_zero(&mut after, b), index);
            let set = if index < b { 1 << index } else { 0 };
            assert_eq!(u16::from(after), word | set);
            for i in 0..b {
                let mut cleared = word as u8;
                clr_bit(&mut cleared, i);
                assert_eq!(u16::from(cleared), word - (word & 1 << i));
            }
        }
    }
}

#[test]
fn p3_and_p4_bounded_decrement() {
    let mut counter = 0;
    assert_eq!((bounded_decrement(&mut counter), counter), (0, 0));
    counter = 2;
    assert_eq!((bounded_decrement(&mut counter), counter), (2, 1));
}

#[test]
fn p5_to_p8_setup() {
    let state = fresh([64, 16, 2, 2]);
    assert_eq!((state.names(), state.gate), (64, 64));
    assert_eq!(&state.counters[..5], &[0, 32, 16, 16, 8]);
    assert_eq!(state.counters[15], 4);
    assert!(state.in_range());
    assert_eq!(State::setup(64, 16, 2, 3), Err(5));
    assert_eq!(State::setup(65, 16, 2, 2), Err(1));
    assert_eq!(State::setup(64, 3, 2, 2), Err(2));
}

fn holders(setup: [u8; 4], events: &[u8]) -> [Status; 2] {
    let mut state = fresh(setup);
    let mut journal = vec![0; events.len() * 2];
    assert_eq!(state.run(events, &mut journal), 0);
    assert!(journal.chunks(4).all(|entry| entry[0] == 0));
    let mut records = [Status {
        stage: 9,
        name: 9,
        cost: 9,
    }; 2];
    assert_eq!(state.fill_roll(&mut records), 0);
    records
}

fn holder(name: u8, cost: u8) -> Status {
    Status {
        stage: stage::WORKING,
        name,
        cost,
    }
}

#[test]
fn p9_second_process_goes_right() {
    let expected = [holder(0, 2), holder(1, 2)];
    assert_eq!(holders(P9_SETUP, &P9_EVENTS), expected);
}

#[test]
fn p10_second_process_changes_segment() {
    let expected = [holder(0, 1), holder(1, 2)];
    assert_eq!(holders(P10_SETUP, &P10_EVENTS), expected);
}

#[test]
fn p11_program() {
    let file = worked::p11_file();
    assert_eq!(file.len(), 49);
    let expected = "0 1 - 0\n0 3 - 0\n0 4 0 1\n0 1 - 0\n0 2 - 0\n0 2 - 0\n\
                    0 5 0 1\n0 5 - 2\n0 0 - 2\n0 3 - 0\n0 4 0 1\n";
    assert_eq!(file_text(&file), expected);
}

#[test]
fn a_round_gives_everything_back() {
    let start = fresh([3, 4, 2, 2]);
    let mut state = start.clone();
    let claim = [[0, 1], [1, 1], [1, 1], [1, 1], [1, 1]];
    accept(&mut state, &claim);
    assert_eq!(state.processes[1].name, 0);
    assert_eq!((state.gate, state.segments[0]), (15, 1));
    assert_eq!((state.counters[1], state.counters[2]), (7, 3));
    accept(&mut state, &[[2, 1], [1, 1], [1, 1], [1, 1], [1, 1]]);
    let process = &mut state.processes[1];
    assert_eq!((process.steps, process.returns), (3, 3));
    (process.steps, process.returns) = (0, 0);
    assert_eq!(state, start);
}

#[test]
fn the_head_of_the_queue_is_let_in() {
    let mut state = fresh([4, 1, 1, 1]);
    for process in [2, 0, 3, 1] {
        accept(&mut state, &[[0, process], [1, process]]);
    }
    assert_eq!(&state.queue[..4], &[0, 3, 1, 0]);
    assert_eq!((state.gate, state.queue_len), (-3, 3));
    accept(
        &mut state,
        &[[1, 2], [2, 2], [1, 2], [1, 2], [1, 3], [1, 0]],
    );
    assert_eq!(&state.queue[..4], &[3, 1, 0, 0]);
    assert_eq!((state.gate, state.queue_len), (-2, 2));
    assert_eq!(state.processes[3].stage, stage::WAITING);
    assert_eq!(state.processes[0].stage, stage::GETNAME);
}
