//! Document 02, request d: the figure, the list and the refusals.

use super::partial_setup::refusal;
use super::{accept, fresh};
use crate::cases::shapes::triples;
use crate::cases::worked::{P10_SETUP, P11_SETUP, P9_SETUP};
use crate::dearest::{dearest_holder, given, list, Given};
use crate::writes::refusals::setup_with;
use crate::State;

const REFUSED_ROOMS: [usize; 4] = [0, 1, 4_094, 4_095];
const ROOMS: [usize; 5] = [4_096, 4_097, 8_192, 65_536, usize::MAX];

/// One step for each level, and one for each segment of a leaf of which the
/// segments before it can be filled by the other processes.
pub fn figure([n, l, g, b]: [u8; 4]) -> u8 {
    let levels = (0..4).filter(|&level| l >> level > 1).count();
    let others = n - 1;
    let segments = (0..g).filter(|&before| before * b <= others).count();
    (levels + segments) as u8
}

fn is_given(setup: [u8; 4], room: usize, answer: u8, figure: u8) {
    let expected = Given { answer, figure };
    assert_eq!(given(setup, room), expected, "{setup:?} {room}");
}

/// h, then the smaller of g and 1 + (N - 1) div b.
#[test]
fn figures_by_hand() {
    for (setup, by_hand) in [
        // 0, 1 and 1 + 0 div 1 = 1.
        ([1, 1, 1, 1], 1),
        // 0, 1 and 1 + 1 div 1 = 2.
        (P11_SETUP, 1),
        // 1, 1 and 1 + 1 div 1 = 2: both of P9 spend 2.
        (P9_SETUP, 2),
        // 0, 2 and 1 + 1 div 1 = 2: the second of P10 spends 2.
        (P10_SETUP, 2),
        // 0, 8 and 1 + 0 div 8 = 1; for N - 1 = 7, 8, 55, 56, 63 the last is
        // 1, 2, 7, 8, 8.
        ([1, 1, 8, 8], 1),
        ([8, 1, 8, 8], 1),
        ([9, 1, 8, 8], 2),
        ([56, 1, 8, 8], 7),
        ([57, 1, 8, 8], 8),
        ([64, 1, 8, 8], 8),
        // 4, 2 and 1 + 1 div 2 = 1; for N - 1 = 2, 63 the last is 2, 32.
        ([2, 16, 2, 2], 5),
        ([3, 16, 2, 2], 6),
        ([64, 16, 2, 2], 6),
        // 3, 8 and 1 + 3 div 1 = 4; for N - 1 = 6, 7, 63 the last is 7, 8, 64.
        ([4, 8, 8, 1], 7),
        ([7, 8, 8, 1], 10),
        ([8, 8, 8, 1], 11),
        ([64, 8, 8, 1], 11),
        // 2, 5 and 1 + 11 div 3 = 4.
        ([12, 4, 5, 3], 6),
        // 1, 4 and 1 + 19 div 7 = 3.
        ([20, 2, 4, 7], 4),
    ] {
        is_given(setup, 4_096, 0, by_hand);
        assert_eq!(figure(setup), by_hand);
    }
}

/// Every accepted setup: the list is short, no event is refused, and the
/// dearest holder has the figure.
#[test]
fn every_list() {
    let mut number = 0;
    for [l, g, b] in triples() {
        for n in 1..=64 {
            let setup = [n, l, g, b];
            let events = list(setup);
            assert!(events.len() <= 4_096 && events.len().is_multiple_of(2));
            let mut state = fresh(setup);
            for event in events.chunks(2) {
                accept(&mut state, &[[event[0], event[1]]]);
            }
            let holder = dearest_holder(&state);
            assert_eq!(holder, figure(setup), "{setup:?}");
            is_given(setup, 4_096, 0, holder);
            number += 1;
        }
    }
    assert_eq!(number, 177 * 64);
}

#[test]
fn lists_by_hand() {
    assert_eq!(list([5, 1, 1, 3]), [0, 0, 1, 0, 1, 0]);
    assert_eq!(list(P9_SETUP), [0, 0, 1, 0, 1, 0, 1, 0]);
    let p10 = [0, 0, 1, 0, 1, 0, 0, 1, 1, 1, 1, 1, 1, 1];
    assert_eq!(list(P10_SETUP), p10);
    for setup in [[0, 1, 1, 1], [1, 1, 1, 0], [0, 0, 0, 0], [255; 4]] {
        assert_eq!(list(setup), []);
    }
}

/// Only processes that hold a name count, and of them the last one in use
/// too. Returns do not count.
#[test]
fn the_dearest_holder() {
    let mut state = fresh([5, 4, 2, 2]);
    assert_eq!(dearest_holder(&state), 0);
    for stage in [0, 1, 2, 3, 5, 6] {
        state.processes[0].stage = stage;
        state.processes[0].steps = 200;
        assert_eq!(dearest_holder(&state), 0);
    }
    for (process, steps, most) in [(2, 7, 7), (1, 3, 7), (4, 9, 9), (3, 9, 9), (5, 50, 9)] {
        state.processes[process].stage = 4;
        state.processes[process].steps = steps;
        state.processes[process].returns = 100;
        assert_eq!(dearest_holder(&state), most);
    }
    assert_eq!(dearest_holder(&State::BLANK), 0);
    for (byte, most) in [(4, 4), (255, 0)] {
        let state = State::from_image(&[byte; 542]);
        assert_eq!(dearest_holder(&state), most);
    }
}

/// Of any faults at once the first is answered, the buffer's last.
#[test]
fn order_of_the_refusals() {
    for choice in 0..32_u8 {
        let setup = setup_with(|fault| choice >> (fault - 1) & 1 == 1);
        let first = (choice.trailing_zeros() + 1) as u8;
        for room in REFUSED_ROOMS {
            let answer = if choice == 0 { 18 } else { first };
            is_given(setup, room, answer, 0);
        }
        for room in ROOMS {
            match choice {
                0 => is_given(setup, room, 0, figure(setup)),
                _ => is_given(setup, room, first, 0),
            }
        }
    }
}

/// The buffer's limit is the same for every setup, however short its list.
#[test]
fn every_buffer_of_every_shape() {
    for [l, g, b] in triples() {
        for n in [1, 17, 64] {
            let setup = [n, l, g, b];
            for room in REFUSED_ROOMS.into_iter().chain([list(setup).len()]) {
                is_given(setup, room, 18, 0);
            }
            for room in ROOMS {
                is_given(setup, room, 0, figure(setup));
            }
        }
    }
    for room in 0..4_096 {
        is_given([1, 1, 1, 1], room, 18, 0);
        is_given([64, 8, 8, 1], room, 18, 0);
    }
}

/// Any four numbers from 0 to 255: those of the setup come before 18.
#[test]
fn refusals_are_those_of_the_setup() {
    let numbers = [0, 1, 2, 3, 4, 7, 8, 9, 16, 17, 32, 64, 65, 128, 129, 255];
    for n in numbers {
        for l in numbers {
            for g in numbers {
                for b in numbers {
                    let setup = [n, l, g, b];
                    let (low, high) = match refusal(setup) {
                        0 => ((18, 0), (0, figure(setup))),
                        number => ((number, 0), (number, 0)),
                    };
                    for room in REFUSED_ROOMS {
                        is_given(setup, room, low.0, low.1);
                    }
                    is_given(setup, 4_096, high.0, high.1);
                }
            }
        }
    }
}
