//! The generators, and what they show of the machine.

use crate::calls::{broken, chance, reached, Records};
use crate::cases::{self, schedule, shapes, special, ways_back};
use crate::day_file::read_day_file;
use crate::random::Random;
use crate::state::{stage, State};
use crate::{calls, morning};

#[test]
fn images_round_trip() {
    let mut rng = Random::new(3);
    for _ in 0..50 {
        let image = std::array::from_fn(|_| rng.byte());
        assert_eq!(State::from_image(&image).to_image(), image);
    }
}

#[test]
fn any_image_and_any_bytes() {
    let mut rng = Random::new(4);
    for round in 0..4000 {
        let mut image: [u8; 542] = chance::state(&mut rng).to_image();
        if round % 2 == 0 {
            let at = rng.below(542);
            image[at] = rng.byte();
        }
        let mut state = State::from_image(&image);
        let good = state.in_range();
        let events: Vec<u8> = (0..200)
            .map(|place| rng.byte_below(if place % 2 == 0 { 4 } else { 70 }))
            .collect();
        let mut journal = [0; 400];
        let answer = state.run(&events, &mut journal);
        assert_eq!(answer, if good { 0 } else { 15 });
        assert_eq!(state.in_range(), good);
    }
}

#[test]
fn broken_states_are_broken() {
    let mut rng = Random::new(5);
    for setup in reached::SETUPS {
        let good = reached::mid_run(&mut rng, setup);
        assert!(good.in_range());
        let used = &good.processes[..usize::from(good.n)];
        assert!(used.iter().any(|p| p.stage == stage::WORKING));
        assert!(used.iter().any(|p| p.stage == stage::PUTNAME));
        assert_eq!(good.queue_len >= 2, good.n > good.names());
        assert!(broken::states(&good).iter().all(|s| !s.in_range()));
    }
    for _ in 0..200 {
        let good = chance::state(&mut rng);
        assert!(good.in_range());
        assert!(broken::states(&good).iter().all(|s| !s.in_range()));
    }
}

#[test]
fn every_shape_stands_once() {
    let triples = shapes::triples();
    assert_eq!(triples.len(), 177);
    assert!(triples.iter().all(|&[l, g, b]| l * g * b <= 64));
}

/// What a user may rely on: distinct names, no more admitted than names,
/// nobody exhausted, steps between h + 1 and h + g and no return so far.
fn check_promises(state: &State) {
    let used = &state.processes[..usize::from(state.n)];
    let height = state.l.ilog2() as u8;
    let mut admitted = 0;
    let mut held = [false; 64];
    for (p, process) in used.iter().enumerate() {
        assert_ne!(process.stage, stage::EXHAUSTED);
        let waits = process.stage == stage::WAITING && state.queued(p as u8);
        if process.stage >= stage::WAITING && !waits {
            admitted += 1;
        }
        if process.stage == stage::WORKING {
            assert!(!std::mem::replace(
                &mut held[usize::from(process.name)],
                true
            ));
            let steps = height + 1..=height + state.g;
            assert!(steps.contains(&process.steps));
            assert_eq!(process.returns, 0);
        }
    }
    assert!(admitted <= state.names());
}

#[test]
fn lists_keep_the_promises() {
    let mut rng = Random::new(6);
    let mut all = shapes::cases(&mut rng);
    all.extend(special::cases(&mut rng));
    all.extend(ways_back::cases(&mut rng));
    for case in all {
        let (mut state, events) = read_day_file(&case.file).unwrap();
        for event in events.chunks(2) {
            state.event(event[0], event[1]);
            check_promises(&state);
        }
    }
}

#[test]
fn batches_are_repeatable() {
    let first = cases::all(7, 420);
    let second = cases::all(7, 420);
    assert!(cases::batch_input(&first) == cases::batch_input(&second));
    let most = first
        .iter()
        .map(|case| case.file.len())
        .filter(|&x| x == 32_767);
    assert_eq!(most.count(), 2);
    assert_eq!(cases::all(7, 9).len(), 9);
    let calls = calls::all(7, 2_000);
    assert_eq!(calls.count, 2_000);
    assert_eq!(calls.output.lines().count(), 2_000);
    let again = calls::all(7, 2_000);
    assert!(calls.input == again.input && calls.output == again.output);
    assert!(calls.input != calls::all(8, 2_000).input);
    assert_eq!(calls::all(7, 3).count, 3);
}

#[test]
fn numbers_of_fixed_cases_and_records() {
    for seed in 0..20 {
        let mut rng = Random::new(seed);
        assert_eq!(cases::fixed(&mut rng).len(), 340);
        let mut records = Records::new(usize::MAX);
        calls::fixed(&mut records, &mut rng);
        assert_eq!(records.count, 1_920);
    }
}

#[test]
fn mornings_are_realistic() {
    for seed in 0..20 {
        let file = morning::file(seed);
        let (mut state, events) = read_day_file(&file).unwrap();
        let mut journal = vec![0; events.len() * 2];
        let fresh = state.clone();
        assert_eq!(state.run(events, &mut journal), 0);
        assert!((300..=400).contains(&(events.len() / 2)));
        for process in &mut state.processes[..12] {
            assert!((4..=7).contains(&process.cost()));
            (process.steps, process.returns) = (0, 0);
        }
        assert_eq!(state, fresh);
    }
}

#[test]
fn natural_kinds() {
    let kinds: Vec<u8> = (0..7).map(schedule::natural_kind).collect();
    assert_eq!(kinds, [0, 1, 1, 1, 2, 1, 1]);
}
