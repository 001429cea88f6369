//! Refusals and their order.

use super::fresh;
use crate::cases::worked::p11_file;
use crate::day_file::{lay_out, read_day_file};
use crate::state::{stage, Process, NO_NAME};
use crate::{file_text, GateReport, State, Status};

fn refused(state: &State, kind: u8, process: u8, number: u8) {
    let mut after = state.clone();
    assert_eq!(after.event(kind, process), number);
    assert_eq!(&after, state);
}

fn with_process(setup: [u8; 4], stage: u8, node: u8, segment: u8, cost: [u8; 2]) -> State {
    let mut state = fresh(setup);
    state.processes[0] = Process {
        stage,
        node,
        segment,
        name: NO_NAME,
        steps: cost[0],
        returns: cost[1],
    };
    state
}

#[test]
fn setup_order() {
    for (setup, number) in [
        ([0, 3, 9, 9], 1),
        ([1, 3, 9, 9], 2),
        ([1, 16, 9, 9], 3),
        ([1, 16, 8, 9], 4),
        ([1, 16, 8, 8], 5),
        ([1, 4, 8, 8], 5),
        ([1, 16, 0, 1], 3),
        ([1, 16, 1, 0], 4),
    ] {
        let [n, l, g, b] = setup;
        assert_eq!(State::setup(n, l, g, b), Err(number));
    }
}

#[test]
fn event_order() {
    let mut state = fresh([2, 1, 1, 1]);
    refused(&state, 3, 2, 12);
    refused(&state, 2, 2, 6);
    refused(&state, 2, 0, 9);
    refused(&state, 1, 0, 8);
    state.processes[0].stage = stage::EXHAUSTED;
    refused(&state, 0, 0, 7);
    refused(&state, 1, 0, 0);
    state.processes[0].stage = stage::WORKING;
    refused(&state, 1, 0, 8);
    state.gate = 2;
    refused(&state, 3, 2, 15);
    refused(&State::BLANK, 0, 0, 15);
}

#[test]
fn getname_at_the_highest_cost() {
    for (node, segment, word) in [(1, 0, 0), (6, 0, 0), (6, 0, 3), (6, 1, 3)] {
        for returns in 0..=255 {
            let cost = [255 - returns, returns];
            let mut state = with_process([5, 4, 2, 2], stage::GETNAME, node, segment, cost);
            state.segments[4..6].fill(word);
            assert!(state.in_range());
            refused(&state, 1, 0, 15);
            if cost[0] > 0 {
                state.processes[0].steps -= 1;
                assert_eq!(state.event(1, 0), 0);
                assert_eq!(state.processes[0].steps, cost[0]);
                assert_eq!(state.processes[0].returns, returns);
            }
        }
    }
}

#[test]
fn entry_at_the_limits() {
    for (gate, len, number) in [
        (-64, 0, 15),
        (-63, 64, 15),
        (0, 64, 15),
        (1, 64, 0),
        (-63, 63, 0),
    ] {
        let mut state = with_process([5, 4, 2, 1], stage::ENTRY, 1, 0, [0, 0]);
        state.gate = gate;
        state.queue_len = len;
        state.queue[..usize::from(len)].fill(3);
        assert!(state.in_range());
        if number == 15 {
            refused(&state, 1, 0, 15);
        }
        assert_eq!(state.event(1, 0), number);
        assert!(state.in_range());
    }
}

#[test]
fn putname_at_the_limits() {
    let mut state = with_process([5, 4, 2, 1], stage::PUTNAME, 4, 0, [0, 0]);
    refused(&state, 1, 0, 15);
    state.processes[0].node = 5;
    assert_eq!(state.event(1, 0), 0);
    assert_eq!(state.processes[0].node, 2);
    refused(&state, 1, 0, 15);
    state.processes[0].node = 1;
    state.queue_len = 2;
    refused(&state, 1, 0, 15);
    state.gate = 7;
    assert_eq!(state.event(1, 0), 0);
    assert_eq!((state.gate, state.queue_len), (8, 1));
}

#[test]
fn list_order_and_journal() {
    let good = fresh([2, 1, 1, 1]);
    let broken = State::BLANK;
    for (state, events, room, number) in [
        (&broken, &[0, 0, 1][..], 3, 14),
        (&broken, &[0, 0], 3, 13),
        (&broken, &[0, 0], 4, 15),
        (&broken, &[], 0, 15),
        (&good, &[0], 0, 14),
        (&good, &[0, 0], 3, 13),
        (&good, &[], 0, 0),
    ] {
        let mut journal = vec![170; room];
        let mut after = state.clone();
        assert_eq!(after.run(events, &mut journal), number);
        assert_eq!(&after, state);
        assert!(journal.iter().all(|&x| x == 170));
    }
    let mut journal = [170; 22];
    let events = [1, 0, 3, 0, 0, 2, 0, 1, 0, 1];
    assert_eq!(good.clone().run(&events, &mut journal), 0);
    let expected = [
        8, 0, 255, 0, 12, 255, 255, 255, 6, 255, 255, 255, 0, 1, 255, 0, 7, 1, 255, 0, 170, 170,
    ];
    assert_eq!(journal, expected);
}

#[test]
fn a_list_goes_on_after_15() {
    let mut state = with_process([2, 1, 1, 1], stage::GETNAME, 1, 0, [250, 5]);
    let mut journal = [170; 8];
    assert_eq!(state.run(&[1, 0, 0, 1], &mut journal), 0);
    assert_eq!(journal, [15, 255, 255, 255, 0, 1, 255, 0]);
}

#[test]
fn reports() {
    let mut state = fresh([3, 2, 1, 1]);
    let report = |answer, open, queued| GateReport {
        answer,
        open,
        queued,
    };
    assert_eq!(state.gate_report(), report(0, 2, 0));
    for (gate, expected) in [
        (0, report(0, 0, 0)),
        (-64, report(0, 0, 64)),
        (-65, report(15, 0, 0)),
        (3, report(15, 0, 0)),
    ] {
        state.gate = gate;
        assert_eq!(state.gate_report(), expected);
    }
    let untouched = Status {
        stage: 9,
        name: 9,
        cost: 9,
    };
    let mut records = [untouched; 4];
    assert_eq!(state.fill_roll(&mut records[..2]), 15);
    state.gate = 1;
    assert_eq!(state.fill_roll(&mut records[..2]), 13);
    assert_eq!(records, [untouched; 4]);
    assert_eq!(state.fill_roll(&mut records), 0);
    assert_eq!(records[3], untouched);
    assert_eq!(records[2].name, 255);
}

#[test]
fn day_files() {
    let file = p11_file();
    let (state, events) = read_day_file(&file).unwrap();
    assert_eq!(state, fresh([2, 1, 1, 1]));
    assert!(std::ptr::eq(events, &file[27..]));
    assert_eq!(file_text(&lay_out([2, 1, 1, 1], &[])), "");
    for at in 0..23 {
        for wrong in 1..=255 {
            let mut damaged = file.clone();
            damaged[at] ^= wrong;
            let number = if at < 5 { 10 } else { 11 };
            assert_eq!(read_day_file(&damaged), Err(number));
        }
    }
    for length in 0..file.len() {
        let number = if length < 27 { 10 } else { 11 };
        assert_eq!(read_day_file(&file[..length]), Err(number));
    }
    for (events, number) in [(32_741, 11), (32_742, 10), (32_743, 10)] {
        let long = lay_out([2, 1, 1, 1], &vec![0; events]);
        assert_eq!(read_day_file(&long), Err(number));
    }
    assert!(read_day_file(&lay_out([2, 1, 1, 1], &[0; 32_740])).is_ok());
    assert_eq!(file_text(&lay_out([0, 0, 1, 1], &[])), "refused 1\n");
}
