//! The roll and its generator.

use super::{accept, closed, fresh};
use crate::calls::closed_runs::{with_open, OPENINGS};
use crate::calls::closed_states::{self, CLOSURES};
use crate::calls::{broken, chance, reached, Records};
use crate::random::Random;
use crate::{rolls, State, Status};

const UNTOUCHED: Status = Status {
    stage: 170,
    name: 170,
    cost: 170,
};

/// Number of records that come first.
const FIXED: usize = 302;

fn status(stage: u8, name: u8, cost: u8) -> Status {
    Status { stage, name, cost }
}

/// Process 0 works, process 1 waits, process 2 rests.
fn three() -> State {
    let mut state = fresh([3, 1, 1, 1]);
    accept(&mut state, &[[0, 0], [1, 0], [1, 0], [0, 1], [1, 1]]);
    state
}

/// A refused roll writes nothing.
fn refused(state: &State, room: usize, number: u8) {
    let mut lent = vec![UNTOUCHED; room];
    assert_eq!(state.fill_roll(&mut lent), number);
    assert!(lent.iter().all(|record| *record == UNTOUCHED));
}

#[test]
fn lent_lists_about_n() {
    let state = three();
    let expected = [status(4, 0, 1), status(2, 255, 0), status(0, 255, 0)];
    for room in 0..3 {
        refused(&state, room, 13);
    }
    for room in 3..=80 {
        let mut lent = vec![UNTOUCHED; room];
        assert_eq!(state.fill_roll(&mut lent), 0);
        assert_eq!(lent[..3], expected);
        assert!(lent[3..].iter().all(|record| *record == UNTOUCHED));
    }
}

#[test]
fn broken_comes_before_short() {
    let mut rng = Random::new(8);
    for setup in reached::SETUPS {
        let good = reached::mid_run(&mut rng, setup);
        for state in broken::states(&good) {
            for room in [0, usize::from(good.n) - 1, usize::from(good.n), 80] {
                refused(&state, room, 15);
            }
        }
    }
    for room in [0, 5, 64] {
        refused(&State::BLANK, room, 15);
    }
}

/// The records from N on stay whatever the unused places hold.
#[test]
fn any_state_in_range() {
    let mut rng = Random::new(9);
    for _ in 0..200 {
        let state = chance::state(&mut rng);
        let n = usize::from(state.n);
        let mut lent = [UNTOUCHED; 80];
        assert_eq!(state.fill_roll(&mut lent), 0);
        for (record, p) in lent[..n].iter().zip(&state.processes) {
            assert_eq!(*record, status(p.stage, p.name, p.steps + p.returns));
        }
        assert!(lent[n..].iter().all(|record| *record == UNTOUCHED));
        refused(&state, n - 1, 13);
    }
}

#[test]
fn lines_of_a_roll() {
    let mut records = Records::new(4);
    records.roll(&three(), &[], 4);
    records.roll(&three(), &[2, 0, 3, 0, 1, 0, 1, 0, 1, 1, 0, 3], 3);
    records.roll(&three(), &[0, 2], 1);
    records.roll(&State::BLANK, &[0, 0], 0);
    records.roll(&three(), &[], 3);
    let expected = "roll 0 4 0 1 2 255 0 0 255 0 170 170 170\n\
                    roll 0 0 255 2 3 255 0 0 255 0\n\
                    roll 13 170 170 170\nroll 15\n";
    assert_eq!(records.output, expected);
    assert_eq!(records.input.len(), 4 * 544 + 12 + 2 + 2);
    assert_eq!(records.input[..542], three().to_image());
    assert_eq!(records.input[542..544], [0, 4]);
    assert_eq!(records.input[1086..1091], [12, 2, 0, 3, 0]);
    assert_eq!(records.input[1099], 3);
}

/// Two of the kinds need a closed name.
#[test]
fn every_kind_breaks_in_the_main_setups() {
    let filled = |state: &State| {
        let kinds = broken::kinds(state, 0);
        assert_eq!(kinds.len(), 19);
        kinds.iter().filter(|kind| !kind.is_empty()).count()
    };
    for setup in reached::SETUPS {
        assert_eq!(filled(&fresh(setup)), 17);
    }
    for (setup, list) in CLOSURES {
        assert_eq!(filled(&closed(setup, list)), 19);
    }
}

/// Every list of `mendable` mends its state when the state is not checked.
#[test]
fn mendable_states_are_refused() {
    let more = closed_states::mendable();
    for (state, events) in rolls::mendable().into_iter().chain(more) {
        let n = usize::from(state.n);
        let mut after = state.clone();
        assert!(!after.in_range());
        for event in events.chunks(2) {
            assert_eq!(after.apply(event[0], event[1]), 0);
        }
        assert!(after.in_range());
        after = state.clone();
        assert_eq!(after.run(&events, &mut [0; 12]), 15);
        assert_eq!(after, state);
        refused(&after, n, 15);
    }
}

#[test]
fn busy_lists() {
    let setups = [&reached::SETUPS[..], &[[14, 4, 1, 2], [64, 1, 2, 1]]].concat();
    let mut states: Vec<State> = setups.into_iter().map(fresh).collect();
    states.extend(
        CLOSURES[..2]
            .iter()
            .map(|&(setup, list)| closed(setup, list)),
    );
    states.push(with_open(OPENINGS[OPENINGS.len() - 1]));
    for seed in 0..20 {
        let mut rng = Random::new(seed);
        for start in &states {
            let events = reached::busy_list(&mut rng, start);
            assert!((20..=120).contains(&(events.len() / 2)));
            let mut state = start.clone();
            state.run(&events, &mut vec![0; 2 * events.len()]);
            assert!(reached::busy(&state));
        }
    }
}

/// The state, the events and the number of lent records of each record.
fn read(mut input: &[u8]) -> Vec<(State, Vec<u8>, usize)> {
    let mut read = Vec::new();
    while let Some((image, rest)) = input.split_first_chunk() {
        let (events, rest) = rest[1..].split_at(usize::from(rest[0]));
        read.push((
            State::from_image(image),
            events.to_vec(),
            usize::from(rest[0]),
        ));
        input = &rest[1..];
    }
    assert!(input.is_empty());
    read
}

/// The records read back and played event by event give the same lines.
#[test]
fn records_play_back() {
    let records = rolls::all(3, 500);
    let read = read(&records.input);
    assert_eq!(read.len(), 500);
    for ((mut state, events, room), line) in read.into_iter().zip(records.output.lines()) {
        assert!(events.len() <= 254 && events.len().is_multiple_of(2) && room <= 80);
        for event in events.chunks(2) {
            state.event(event[0], event[1]);
        }
        let mut lent = vec![UNTOUCHED; room];
        let mut expected = format!("roll {}", state.fill_roll(&mut lent));
        for Status { stage, name, cost } in lent {
            expected.push_str(&format!(" {stage} {name} {cost}"));
        }
        assert_eq!(line, expected);
    }
}

/// Lists of no event and of the most, and broken states with and without.
#[test]
fn lists_of_all_lengths() {
    let read = read(&rolls::all(5, FIXED).input);
    let number = |good: bool, bytes: std::ops::RangeInclusive<usize>| {
        read.iter()
            .filter(|(state, events, _)| state.in_range() == good && bytes.contains(&events.len()))
            .count()
    };
    assert!(number(true, 0..=0) >= 20);
    assert!(number(true, 2..=24) >= 50);
    assert!(number(true, 40..=240) >= 41);
    assert!(number(true, 254..=254) >= 1);
    assert!(number(false, 0..=0) >= 85);
    assert!(number(false, 2..=254) >= 98);
}

#[test]
fn batches_of_rolls() {
    for seed in 0..20 {
        let mut records = Records::new(usize::MAX);
        rolls::fixed(&mut records, &mut Random::new(seed));
        assert_eq!(records.count, FIXED);
    }
    let first = rolls::all(7, 340);
    let second = rolls::all(7, 340);
    assert!(first.input == second.input && first.output == second.output);
    assert!(first.input.len() < 220_000);
    assert_eq!(first.output.lines().count(), 340);
    assert!(first.input.starts_with(&rolls::all(7, 9).input));
    assert_eq!(rolls::all(7, 9).count, 9);
}
