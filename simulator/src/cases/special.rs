//! Lists with a purpose: contention, queues, rounds, refusals, longest files.

use super::schedule::{ListMaker, Plan, Schedule};
use super::Case;
use crate::day_file::{lay_out, MOST_EVENTS};
use crate::machine::kind;
use crate::random::Random;
use crate::state::stage;

pub(super) fn everybody(schedule: Schedule, noise: usize) -> Plan {
    Plan {
        schedule,
        pool: 64,
        noise,
    }
}

/// The setup's list by a plan alone.
fn planned(rng: &mut Random, setup: [u8; 4], count: usize, plan: Plan) -> Vec<u8> {
    let mut maker = ListMaker::new(rng, setup, plan);
    maker.lively(count);
    maker.events
}

pub(super) fn shuffled(maker: &mut ListMaker) -> Vec<u8> {
    let mut order: Vec<u8> = (0..maker.state.n).collect();
    maker.rng.shuffle(&mut order);
    order
}

pub(super) fn request_all(maker: &mut ListMaker) {
    for process in shuffled(maker) {
        if maker.stage(process) == stage::REMAINDER {
            maker.push(kind::REQUEST, process);
        }
    }
}

/// Whether a step would change the state.
fn moves(maker: &ListMaker, process: u8) -> bool {
    match maker.stage(process) {
        stage::ENTRY | stage::GETNAME | stage::PUTNAME => true,
        stage::WAITING => !maker.state.queued(process),
        _ => false,
    }
}

/// Steps in random order until nobody can move; sometimes a step is given
/// to one that works, waits or is in its remainder.
pub(super) fn race(maker: &mut ListMaker) {
    loop {
        let mut movers: Vec<u8> = (0..maker.state.n).collect();
        movers.retain(|&process| moves(maker, process));
        if movers.is_empty() {
            return;
        }
        let process = if maker.rng.chance(1, 12) {
            maker.rng.byte_below(maker.state.n)
        } else {
            movers[maker.rng.below(movers.len())]
        };
        maker.push(kind::STEP, process);
    }
}

pub(super) fn release_all(maker: &mut ListMaker) {
    for process in shuffled(maker) {
        if maker.stage(process) == stage::WORKING {
            maker.push(kind::RELEASE, process);
        }
    }
}

/// All request and race; then waves of releases, each followed by a race.
/// With `again`, those back in the remainder request before every wave.
fn contention(rng: &mut Random, setup: [u8; 4], waves: usize, again: bool) -> Vec<u8> {
    let mut maker = ListMaker::new(rng, setup, everybody(Schedule::Uniform, 0));
    request_all(&mut maker);
    race(&mut maker);
    for _ in 0..waves {
        release_all(&mut maker);
        if again {
            request_all(&mut maker);
        }
        race(&mut maker);
    }
    maker.events
}

fn contention_cases(rng: &mut Random) -> Vec<Case> {
    let setups = [
        [8, 4, 2, 1],
        [16, 4, 2, 2],
        [64, 16, 2, 2],
        [64, 1, 8, 8],
        [12, 4, 2, 1],
        [64, 8, 2, 1],
        [20, 2, 2, 3],
        [64, 2, 4, 4],
    ];
    setups
        .iter()
        .map(|&setup| {
            Case::new(
                "contention",
                lay_out(setup, &contention(rng, setup, 2, true)),
            )
        })
        .collect()
}

fn queue_cases(rng: &mut Random) -> Vec<Case> {
    let setups = [[64, 1, 1, 1], [64, 2, 1, 1], [64, 1, 2, 1], [64, 1, 1, 3]];
    setups
        .iter()
        .map(|&setup| Case::new("queue", lay_out(setup, &contention(rng, setup, 70, false))))
        .collect()
}

/// One process after another goes through whole rounds.
fn rounds(rng: &mut Random, setup: [u8; 4], count: usize) -> Vec<u8> {
    let mut maker = ListMaker::new(rng, setup, everybody(Schedule::Uniform, 0));
    for _ in 0..count {
        let process = maker.rng.byte_below(setup[0]);
        maker.push_natural(process);
        while maker.stage(process) != stage::REMAINDER {
            maker.push_natural(process);
        }
    }
    maker.events
}

fn round_cases(rng: &mut Random) -> Vec<Case> {
    let setups = [[1, 1, 1, 1], [3, 2, 2, 2], [5, 16, 1, 4], [64, 16, 4, 1]];
    let mut cases: Vec<Case> = setups
        .iter()
        .map(|&setup| Case::new("rounds", lay_out(setup, &rounds(rng, setup, 40))))
        .collect();
    for setup in [[3, 2, 1, 1], [4, 4, 1, 2]] {
        let plan = everybody(Schedule::LockStep, 0);
        let events = planned(rng, setup, 400, plan);
        cases.push(Case::new("rounds", lay_out(setup, &events)));
    }
    cases
}

/// Every kind for one process, then every process for each good kind and
/// for kind 3.
fn sweep(maker: &mut ListMaker) {
    let process = maker.rng.byte_below(maker.state.n);
    for kind in 0..=255 {
        maker.push(kind, process);
    }
    for kind in 0..=3 {
        for process in 0..=255 {
            maker.push(kind, process);
        }
    }
}

fn refusal_cases(rng: &mut Random) -> Vec<Case> {
    let mut cases = Vec::new();
    for (setup, before) in [([5, 2, 1, 2], 24), ([64, 4, 2, 2], 200), ([1, 1, 1, 1], 3)] {
        let mut maker = ListMaker::new(rng, setup, everybody(Schedule::Uniform, 0));
        maker.lively(before);
        sweep(&mut maker);
        cases.push(Case::new("refusals", lay_out(setup, &maker.events)));
    }
    for setup in [[6, 2, 2, 1], [9, 4, 1, 1]] {
        let plan = everybody(Schedule::Uniform, 32);
        let events = planned(rng, setup, 400, plan);
        cases.push(Case::new("refusals", lay_out(setup, &events)));
    }
    let events: Vec<u8> = (0..1200).map(|_| rng.byte()).collect();
    cases.push(Case::new("bytes", lay_out([64, 4, 2, 2], &events)));
    cases
}

fn skewed_cases(rng: &mut Random) -> Vec<Case> {
    let mut cases = Vec::new();
    for schedule in [Schedule::Starved, Schedule::Favoured, Schedule::LockStep] {
        for setup in [[10, 4, 2, 1], [24, 8, 2, 1], [40, 4, 4, 2]] {
            let events = planned(rng, setup, 300, everybody(schedule, 8));
            cases.push(Case::new("skewed", lay_out(setup, &events)));
        }
    }
    cases
}

fn largest_cases(rng: &mut Random) -> Vec<Case> {
    let setup = [64, 8, 2, 3];
    // Sixty waves are more than enough; the list is cut to the limit.
    let mut events = contention(rng, setup, 60, true);
    events.truncate(2 * MOST_EVENTS);
    let contended = Case::new("largest", lay_out(setup, &events));
    let setup = [64, 16, 2, 2];
    let events = planned(rng, setup, MOST_EVENTS, everybody(Schedule::Uniform, 24));
    vec![contended, Case::new("largest", lay_out(setup, &events))]
}

pub fn cases(rng: &mut Random) -> Vec<Case> {
    let mut cases = contention_cases(rng);
    cases.extend(queue_cases(rng));
    cases.extend(round_cases(rng));
    cases.extend(refusal_cases(rng));
    cases.extend(skewed_cases(rng));
    cases.extend(largest_cases(rng));
    cases
}
