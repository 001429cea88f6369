//! Every accepted shape with few and many processes, buffers of all lengths,
//! and setups that are refused.

use super::{Call, LIST_BYTES};
use crate::answer::{BITS, LEAVES, NAMES, PROCESSES, SEGMENTS};
use crate::calls::partial::TWO_FAULTS;
use crate::cases::shapes::triples;
use crate::writes::refusals::{setup_with, LATER_FAULTS, MANY_NAMES, ONE_FAULT};

/// Accepted setups for the buffers: the smallest, one process, N below and
/// above k, L = 16, b = 8, g = 8 and the dearest figure of all.
const SETUPS: [[u8; 4]; 9] = [
    [1, 1, 1, 1],
    [1, 16, 2, 2],
    [5, 2, 1, 1],
    [7, 4, 2, 2],
    [64, 16, 2, 2],
    [33, 16, 4, 1],
    [10, 2, 4, 8],
    [64, 1, 8, 8],
    [20, 8, 8, 1],
];

/// Buffers for the accepted setups.
const ROOMS: [usize; 6] = [0, 1, LIST_BYTES - 1, LIST_BYTES, LIST_BYTES + 1, 65_536];

/// Buffers for the refused setups.
const FEW_ROOMS: [usize; 3] = [0, LIST_BYTES - 1, LIST_BYTES];

/// More faults: numbers that a sign or a cut to seven bits changes, other
/// powers of two as leaves, and every number 0.
const MORE_FAULTS: [[u8; 4]; 11] = [
    [128, 1, 1, 1],
    [129, 1, 1, 1],
    [192, 1, 1, 1],
    [12, 64, 1, 1],
    [12, 128, 1, 1],
    [12, 129, 1, 1],
    [12, 4, 16, 1],
    [12, 1, 129, 1],
    [12, 4, 1, 16],
    [12, 1, 1, 129],
    [0, 0, 0, 0],
];

/// One and two, as many as fill a segment, one more, as many as names, and
/// the most.
fn processes(b: u8, k: u8) -> Vec<u8> {
    let mut numbers = vec![1, 2, b, b + 1, k, 64];
    numbers.sort_unstable();
    numbers.dedup();
    numbers
}

/// Every accepted shape.
fn shapes() -> Vec<[u8; 4]> {
    let with_processes = |[l, g, b]: [u8; 3]| {
        let numbers = processes(b, l * g * b);
        numbers.into_iter().map(move |n| [n, l, g, b])
    };
    triples().into_iter().flat_map(with_processes).collect()
}

/// For each set of the setup's faults but the empty one, a setup that has
/// them and no other.
fn fault_sets() -> Vec<[u8; 4]> {
    let faults = [PROCESSES, LEAVES, SEGMENTS, BITS, NAMES];
    (1..1 << faults.len())
        .map(|set: u8| setup_with(|fault| set >> (fault - PROCESSES) & 1 == 1))
        .collect()
}

fn refused() -> Vec<[u8; 4]> {
    let mut setups = ONE_FAULT.to_vec();
    setups.extend(MANY_NAMES);
    setups.extend(MORE_FAULTS);
    setups.extend(LATER_FAULTS);
    setups.extend(TWO_FAULTS.concat());
    setups.extend(fault_sets());
    setups
}

/// Every call of these setups with these buffers that is not there yet.
fn add(calls: &mut Vec<Call>, setups: &[[u8; 4]], rooms: &[usize]) {
    for &setup in setups {
        for &room in rooms {
            let call = Call { setup, room };
            if !calls.contains(&call) {
                calls.push(call);
            }
        }
    }
}

/// Each call once.
pub fn calls() -> Vec<Call> {
    let mut calls = Vec::new();
    add(&mut calls, &shapes(), &[LIST_BYTES]);
    add(&mut calls, &SETUPS, &ROOMS);
    add(&mut calls, &refused(), &FEW_ROOMS);
    calls
}
