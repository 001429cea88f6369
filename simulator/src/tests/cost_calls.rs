//! The generated calls and rolls about the cost.

use super::records::{figures, fixed_calls, read, Call};
use crate::calls::costs::{COUNTED, LAST, NOT_COUNTED, PAST};
use crate::calls::{self, chance, Records};
use crate::random::Random;
use crate::{rolls, State};

/// The first process, a middle one and the last, whatever N is.
fn thirds(state: &State, middle: fn(usize) -> usize) -> [usize; 3] {
    let n = usize::from(state.n.clamp(1, 64));
    [0, middle(n), n - 1]
}

fn has(state: &State, process: usize, cost: [u8; 2]) -> bool {
    let p = &state.processes[process];
    [p.steps, p.returns] == cost
}

/// Whether nothing but the cost of a process is outside its range.
fn broken_by_cost(state: &State, process: usize) -> bool {
    let mut mended = state.clone();
    mended.processes[process].returns = 0;
    !state.in_range() && mended.in_range()
}

#[test]
fn costs_past_the_end_in_every_call() {
    let calls = fixed_calls();
    for number in 0..3 {
        for cost in PAST {
            for third in 0..3 {
                let shown = calls.iter().filter(|call| {
                    let p = thirds(&call.state, |n| n / 2)[third];
                    call.number == number
                        && has(&call.state, p, cost)
                        && broken_by_cost(&call.state, p)
                });
                let answers: Vec<usize> = shown.map(Call::answer).collect();
                assert!(answers.len() >= 3);
                assert!(answers.iter().all(|&answer| answer == 15));
            }
        }
    }
}

#[test]
fn costs_past_the_end_in_rolls() {
    let mut records = Records::new(usize::MAX);
    rolls::fixed(&mut records, &mut Random::new(1));
    let mut input = &records.input[..];
    let mut shown = [[0; 3]; 4];
    for line in records.output.lines() {
        let (image, rest) = input.split_first_chunk().unwrap();
        input = &rest[usize::from(rest[0]) + 2..];
        let state = State::from_image(image);
        for (third, p) in thirds(&state, |n| (n - 1) / 2).into_iter().enumerate() {
            let way = PAST.iter().position(|&cost| has(&state, p, cost));
            let Some(way) = way.filter(|_| broken_by_cost(&state, p)) else {
                continue;
            };
            assert_eq!(figures(line)[0], 15);
            shown[way][third] += 1;
        }
    }
    assert!(shown.iter().flatten().all(|&number| number >= 2));
}

#[test]
fn costs_at_the_end_in_every_call() {
    let calls = fixed_calls();
    for number in 0..3 {
        for cost in LAST {
            let accepted = |call: &&Call| {
                let used = 0..usize::from(call.state.n);
                call.number == number
                    && call.answer() == 0
                    && used.into_iter().any(|p| has(&call.state, p, cost))
            };
            assert!(
                calls.iter().any(|call| accepted(&call)),
                "{number} {cost:?}"
            );
        }
    }
}

/// The answers of the event that a place's stage accepts, with a cost, in
/// the tree where every place can move.
fn answers(calls: &[Call], place: [u8; 4], cost: u16) -> Vec<usize> {
    let there = |call: &&Call| {
        let p = &call.state.processes[usize::from(call.events[1])];
        [p.stage, p.node, p.segment, p.name] == place && p.cost() == cost
    };
    let tree = |call: &&Call| call.number == 0 && [call.state.n, call.state.l] == [6, 4];
    let events = calls.iter().filter(tree);
    events.filter(there).map(Call::answer).collect()
}

/// Each counted step is there just before the end and at it, each other
/// event at the end.
#[test]
fn places_at_the_end() {
    let calls = fixed_calls();
    for place in COUNTED {
        let before = answers(&calls, place, 254);
        let last = answers(&calls, place, 255);
        assert!(before.len() >= 2 && before.iter().all(|&answer| answer == 0));
        assert!(last.len() >= 2 && last.iter().all(|&answer| answer == 15));
    }
    for place in NOT_COUNTED {
        let last = answers(&calls, place, 255);
        assert!(!last.is_empty() && last.iter().all(|&answer| answer == 0));
    }
}

/// Lists: a whole way back that ends at 255 goes on to a new request, one
/// that would need one more stays on it.
#[test]
fn ways_back_at_the_end() {
    let calls = fixed_calls();
    let kinds = [2, 1, 1, 1, 1, 0, 1];
    let lists: Vec<&Call> = calls
        .iter()
        .filter(|call| call.events.chunks(2).map(|event| event[0]).eq(kinds))
        .collect();
    assert_eq!(lists.len(), 8);
    for (place, list) in lists.iter().enumerate() {
        let journal: Vec<&[usize]> = list.line[2..].chunks(4).collect();
        if place % 2 == 0 {
            assert_eq!(journal[4], [0, 0, 255, 255]);
            assert_eq!(journal[5], [0, 1, 255, 0]);
        } else {
            assert_eq!(journal[4], [15, 255, 255, 255]);
            assert_eq!(journal[5][..2], [7, 5]);
            assert_eq!(journal[5][3], 255);
        }
    }
}

/// Random states: small costs, costs at the end and past it, each number
/// the larger one.
#[test]
fn random_costs() {
    let mut rng = Random::new(23);
    let mut sums = [0; 4];
    for _ in 0..500 {
        let state = chance::state(&mut rng);
        for p in &state.processes[..usize::from(state.n)] {
            let sum = usize::from(p.cost());
            sums[0] += usize::from(sum <= 18);
            sums[1] += usize::from((250..255).contains(&sum));
            sums[2] += usize::from(sum == 255 && p.steps < p.returns);
            sums[3] += usize::from(sum == 255 && p.steps > p.returns);
        }
        let broken = chance::broken_cost(&mut rng, &state);
        let used = 0..usize::from(state.n);
        let faults = used.filter(|&p| broken_by_cost(&broken, p));
        assert_eq!(faults.count(), 1);
    }
    assert!(sums.iter().all(|&number| number > 1_000), "{sums:?}");
}

#[test]
fn random_calls_show_costs_past_the_end() {
    let calls = read(&calls::all(1, 3_000));
    let fixed = fixed_calls().len();
    let shown = calls[fixed..].iter().filter(|call| {
        let used = 0..usize::from(call.state.n.min(64));
        used.into_iter().any(|p| broken_by_cost(&call.state, p))
    });
    assert!(shown.count() >= 30);
}
