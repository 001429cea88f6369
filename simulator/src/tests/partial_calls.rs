//! The generated calls about the partial setup.

use super::records::{fixed_calls, fixed_calls_of, read, Call};
use crate::calls::partial::{ONE_FAULT, TWO_FAULTS};
use crate::calls::partial_runs::{any_state, CLAIMS, MOST_EVENTS};
use crate::calls::reached::partial;
use crate::calls::{self, Records};
use crate::random::Random;
use crate::state::stage;
use crate::{digest, State};

const MOST: u64 = u64::MAX;

/// Counts that fewer bits cut to a small one.
const WIDE: [u64; 8] = [
    255,
    256,
    257,
    65_536,
    4_294_967_296,
    4_294_967_297,
    9_223_372_036_854_775_808,
    18_446_744_073_709_551_615,
];

fn partial_setups(calls: &[Call]) -> Vec<&Call> {
    calls.iter().filter(|call| call.number == 3).collect()
}

/// The numbers of the refusals that a setup's faults have.
fn faults(setup: [u8; 4]) -> Vec<u8> {
    let [n, l, g, b] = setup.map(usize::from);
    let checks = [
        (1, !(1..=64).contains(&n)),
        (2, ![1, 2, 4, 8, 16].contains(&l)),
        (3, !(1..=8).contains(&g)),
        (4, !(1..=8).contains(&b)),
        (5, l * g * b > 64),
    ];
    let found = checks.iter().filter(|(_, fault)| *fault);
    found.map(|(number, _)| *number).collect()
}

#[test]
fn record_and_line() {
    let mut records = Records::new(3);
    let mut state = State::from_image(&[255; 542]);
    (state.n, state.l, state.g, state.b) = (1, 2, 1, 1);
    records.partial_setup(&state, 0x0102_0304_0506_0708);
    records.partial_setup(&state, 0);
    state.n = 0;
    records.partial_setup(&state, MOST);
    records.partial_setup(&state, 1);
    let whole = partial([1, 2, 1, 1], 1).to_image();
    let fewer = partial([1, 2, 1, 1], 0).to_image();
    let lines = [
        format!("setup 0 {}\n", digest(&whole)),
        format!("setup 0 {}\n", digest(&fewer)),
        "setup 1 0\n".to_string(),
    ];
    assert_eq!(records.output, lines.concat());
    assert_eq!(records.input.len(), 3 * 551);
    assert_eq!(records.input[..5], [1, 2, 1, 1, 255]);
    assert_eq!(records.input[542..551], [3, 8, 7, 6, 5, 4, 3, 2, 1]);
    assert_eq!(
        records.input[551 + 542..2 * 551],
        [3, 0, 0, 0, 0, 0, 0, 0, 0]
    );
    assert_eq!(records.input[2 * 551..2 * 551 + 4], [0, 2, 1, 1]);
}

/// The counts of the accepted setups with so many leaves.
fn counts_of(calls: &[Call], l: u8) -> Vec<u64> {
    let accepted = |call: &&&Call| call.answer() == 0 && call.state.l == l;
    let calls = partial_setups(calls);
    calls
        .iter()
        .filter(accepted)
        .map(|call| call.count)
        .collect()
}

#[test]
fn counts_for_every_number_of_leaves() {
    let calls = fixed_calls();
    for l in [1, 2, 4, 8, 16] {
        let counts = counts_of(&calls, l);
        let leaves = u64::from(l);
        let mut wanted = vec![0, 1, leaves - 1, leaves];
        wanted.extend(leaves.checked_sub(2));
        wanted.extend(WIDE);
        if l >= 8 {
            wanted.extend(0..=17);
        }
        for count in wanted {
            assert!(counts.contains(&count), "{l} {count}");
        }
    }
}

/// N, g and b vary among the accepted setups of each number of leaves.
#[test]
fn setups_vary() {
    let calls = fixed_calls();
    for l in [1, 2, 4, 8, 16] {
        let mut seen: [Vec<u8>; 3] = Default::default();
        for call in partial_setups(&calls) {
            let [n, leaves, g, b] = call.setup();
            if call.answer() == 0 && leaves == l {
                seen[0].push(n);
                seen[1].push(g);
                seen[2].push(b);
            }
        }
        for numbers in &mut seen {
            numbers.sort_unstable();
            numbers.dedup();
            assert!(numbers.len() >= 4, "{l} {numbers:?}");
        }
    }
}

/// The faults of the chosen setups are the ones that their places say.
#[test]
fn chosen_faults() {
    for (number, setups) in (1..).zip(ONE_FAULT) {
        assert!(setups.iter().all(|&setup| faults(setup) == [number]));
    }
    for (number, setups) in (1..).zip(TWO_FAULTS) {
        let pair = [number, number + 1];
        assert!(setups.iter().all(|&setup| faults(setup) == pair));
    }
}

/// Each refusal alone and each two neighbours, with every sort of count.
#[test]
fn refusals_with_every_count() {
    let calls = fixed_calls();
    let alone = (1..=5).map(|number| vec![number]);
    let pairs = (1..=4).map(|number| vec![number, number + 1]);
    for wanted in alone.chain(pairs) {
        let mut counts: Vec<u64> = Vec::new();
        for call in partial_setups(&calls) {
            if faults(call.setup()) == wanted {
                assert_eq!(call.line, [usize::from(wanted[0]), 0]);
                counts.push(call.count);
            }
        }
        assert!(counts.contains(&0), "{wanted:?}");
        assert!(counts.iter().any(|count| (1..15).contains(count)));
        assert!(counts.contains(&MOST), "{wanted:?}");
    }
}

/// The states hold anything in their other bytes, for accepted setups and
/// for refused ones, and equal numbers give equal lines.
#[test]
fn other_bytes_do_not_matter() {
    let calls = fixed_calls();
    let setups = partial_setups(&calls);
    let ways: [fn(&State) -> bool; 3] = [
        |state| state.to_image()[4..].iter().all(|&byte| byte == 0),
        |state| state.to_image()[4..].iter().all(|&byte| byte == 255),
        |state| {
            (0..=255)
                .filter(|x| state.to_image()[4..].contains(x))
                .count()
                > 150
        },
    ];
    for way in ways {
        let shown = setups.iter().filter(|call| way(&call.state));
        let refused = shown.clone().filter(|call| call.answer() > 0);
        assert!(refused.count() >= 6);
        assert!(shown.count() >= 20);
    }
    let good = setups.iter().filter(|call| call.state.in_range());
    assert!(good.count() >= 9);
    for call in &setups {
        for other in &setups {
            if (call.setup(), call.count) == (other.setup(), other.count) {
                assert_eq!(call.text, other.text);
            }
        }
    }
    let same = |setup, count, good| {
        let same = |call: &&&Call| (call.setup(), call.count) == (setup, count);
        let same = setups.iter().filter(same);
        same.filter(|call| call.state.in_range() == good).count()
    };
    for good in [true, false] {
        assert!(same([5, 2, 1, 1], 0, good) >= 3);
        assert!(same([7, 4, 2, 2], 2, good) >= 3);
        assert!(same([64, 16, 2, 2], 9, good) >= 3);
    }
}

/// Counts read wrongly: cut, with a sign, one too many or too few.
const MISREADINGS: [fn(u64) -> u64; 9] = [
    |count| u64::from(count as u8),
    |count| u64::from(count as u16),
    |count| u64::from(count as u32),
    |count| (count as i8).max(0) as u64,
    |count| (count as i16).max(0) as u64,
    |count| (count as i32).max(0) as u64,
    |count| (count as i64).max(0) as u64,
    |count| count.saturating_add(1),
    |count| count.saturating_sub(1),
];

/// Each misreading shows for every number of leaves that has counters.
#[test]
fn misreadings_show() {
    let calls = fixed_calls();
    for l in [2, 4, 8, 16] {
        for (place, misread) in MISREADINGS.iter().enumerate() {
            let shows = |call: &&&Call| {
                let right = partial(call.setup(), call.count);
                let wrong = partial(call.setup(), misread(call.count));
                digest(&right.to_image()) != digest(&wrong.to_image())
            };
            let setups = partial_setups(&calls);
            let accepted = |call: &&&Call| call.answer() == 0 && call.state.l == l;
            let shown = setups.iter().filter(accepted).filter(shows);
            assert!(shown.count() >= 1, "{l} {place}");
        }
    }
}

/// The smaller count whose state this is.
fn smaller_count(state: &State) -> Option<u64> {
    let State { n, l, g, b, .. } = *state;
    let last = u64::from(l.checked_sub(1)?);
    (0..last).find(|&count| State::partial_setup(n, l, g, b, count).as_ref() == Ok(state))
}

/// Reports and events on the states of smaller counts: each is accepted, or
/// refused for its kind, its process or its stage.
#[test]
fn first_calls() {
    let calls = fixed_calls();
    let mut reports = [0; 17];
    let mut answers = [0; 16];
    for call in calls
        .iter()
        .filter(|call| smaller_count(&call.state).is_some())
    {
        match call.number {
            0 => answers[call.answer()] += 1,
            2 => {
                let k = usize::from(call.state.names());
                assert_eq!(call.line, [0, k, 0]);
                reports[usize::from(call.state.l)] += 1;
            }
            _ => assert_eq!(call.answer(), 0),
        }
    }
    assert!([2, 4, 8, 16].iter().all(|&l| reports[l] >= 2));
    assert!([0, 6, 8, 9, 12].iter().all(|&number| answers[number] >= 2));
    assert_eq!((answers[7], answers[15]), (0, 0));
}

/// The state after a list.
fn after(call: &Call) -> State {
    let mut state = call.state.clone();
    let mut journal = vec![170; usize::from(call.journal_len)];
    assert_eq!(state.run(&call.events, &mut journal), 0);
    state
}

fn number_in(state: &State, stages: &[u8]) -> usize {
    let used = &state.processes[..usize::from(state.n)];
    used.iter().filter(|p| stages.contains(&p.stage)).count()
}

/// The lists on states of smaller counts.
fn lists(calls: &[Call]) -> Vec<&Call> {
    let on_smaller = |call: &&Call| call.number == 1 && smaller_count(&call.state).is_some();
    calls.iter().filter(on_smaller).collect()
}

/// Several processes get through the gate and down the tree, for every
/// number of leaves and most counts; many lists end with some astray.
#[test]
fn lists_through_the_gate() {
    for seed in 0..10 {
        let calls = fixed_calls_of(seed);
        let lists = lists(&calls);
        for start in CLAIMS {
            let found = lists.iter().any(|call| {
                let count = smaller_count(&call.state);
                let state = after(call);
                (call.setup(), count) == (start.0, Some(start.1))
                    && number_in(&state, &[stage::WORKING]) >= 1
                    && number_in(&state, &[stage::EXHAUSTED]) >= 1
            });
            assert!(found, "{start:?}");
        }
        let several = lists.iter().filter(|call| {
            let state = after(call);
            number_in(&state, &[stage::WORKING, stage::EXHAUSTED]) >= 4
        });
        assert!(several.count() >= 20);
        assert!(lists
            .iter()
            .all(|call| call.events.len() <= 2 * MOST_EVENTS));
    }
}

/// Names that the claims of a list win, one process after the other.
fn names_won(call: &Call) -> Vec<usize> {
    let journal = call.journal();
    let won = journal.iter().filter(|entry| entry[..2] == [0, 4]);
    won.map(|entry| entry[2]).collect()
}

/// What the claims of sixteen leaves win: the names below the right child of
/// the lowest node on the way to the right that is not filled.
#[test]
fn names_of_sixteen_leaves() {
    let calls = fixed_calls();
    for (count, names) in [
        (0, vec![15]),
        (1, vec![14, 15]),
        (3, vec![14, 15]),
        (7, vec![14, 15]),
        (8, vec![14, 15]),
        (11, vec![12, 13, 14, 15]),
        (13, vec![8, 9, 10, 11, 12, 13, 14, 15]),
        (14, vec![8, 9, 10, 11, 12, 13, 14, 15]),
    ] {
        let start = partial([9, 16, 1, 1], count);
        let list = calls.iter().find(|call| {
            let kinds = call.events.chunks(2).map(|event| event[0]);
            call.number == 1 && call.state == start && kinds.take(8).eq([0, 1, 1, 1, 1, 1, 1, 0])
        });
        assert_eq!(names_won(list.unwrap()), names, "{count}");
    }
}

/// Lists with a whole way back after which others are let in and win.
#[test]
fn lists_with_ways_back() {
    let calls = fixed_calls();
    let back = |call: &&&Call| {
        let journal = call.journal();
        let left = journal.iter().position(|entry| entry[..2] == [0, 0]);
        left.is_some_and(|left| journal[left..].iter().any(|entry| entry[..2] == [0, 4]))
    };
    let lists = lists(&calls);
    for l in [2, 4, 8, 16] {
        let found = lists.iter().filter(back).filter(|call| call.state.l == l);
        assert!(found.count() >= 1, "{l}");
    }
}

/// Whether all but the processes are as a smaller count leaves them.
fn on_smaller_count(state: &State) -> bool {
    let mut cleaned = state.clone();
    cleaned.processes = partial([state.n, 1, 1, 1], 0).processes;
    smaller_count(&cleaned).is_some()
}

/// Steps back to a counter at its fresh value and to one that is not, alone,
/// for every number of leaves; and steps down from both.
#[test]
fn single_steps() {
    let calls = fixed_calls();
    let mut back = [[0; 2]; 17];
    let mut down = [[0; 2]; 17];
    for call in calls.iter().filter(|call| call.number == 0) {
        let state = &call.state;
        if !state.in_range() || !on_smaller_count(state) || call.events[0] != 1 {
            continue;
        }
        let Some(p) = state.processes.get(usize::from(call.events[1])) else {
            continue;
        };
        let l = usize::from(state.l);
        if p.stage == stage::GETNAME && p.node < state.l {
            let filled = state.counters[usize::from(p.node)] > 0;
            assert_eq!(call.answer(), 0);
            down[l][usize::from(filled)] += 1;
        }
        if p.stage == stage::PUTNAME && p.node.is_multiple_of(2) {
            let filled = state.counters[usize::from(p.node / 2)] > 0;
            assert_eq!(call.answer(), if filled { 15 } else { 0 });
            back[l][usize::from(filled)] += 1;
        }
    }
    for l in [4, 8, 16] {
        assert!(back[l].iter().chain(&down[l]).all(|&number| number > 0));
    }
    assert!(back[2][0] > 0 && down[2][0] > 0);
}

/// Lists in which a return is refused at a fresh counter and accepted later,
/// from states of every number of leaves.
#[test]
fn returns_that_find_a_fresh_counter() {
    let calls = fixed_calls();
    let mut shown = [0; 17];
    for call in calls.iter().filter(|call| call.number == 1) {
        if call.answer() != 0 || !on_smaller_count(&call.state) {
            continue;
        }
        let journal = call.journal();
        let events: Vec<&[u8]> = call.events.chunks(2).collect();
        let refused = journal.iter().position(|entry| entry[0] == 15);
        let Some(at) = refused else {
            continue;
        };
        let later = at + 1..events.len();
        let again = later
            .into_iter()
            .any(|place| events[place] == events[at] && journal[place][..2] == [0, 5]);
        shown[usize::from(call.state.l)] += usize::from(again);
    }
    assert!([2, 4, 8, 16].iter().all(|&l| shown[l] >= 1), "{shown:?}");
}

/// The line of a partial setup by the documents' sentences.
fn expected_setup(call: &Call) -> String {
    if let Some(number) = faults(call.setup()).first() {
        return format!("setup {number} 0");
    }
    let [n, l, g, b] = call.setup().map(usize::from);
    let k = l * g * b;
    let mut image = [0; 542];
    image[..4].copy_from_slice(&call.setup());
    image[12] = k as u8;
    let mut filled = 0;
    for v in (1..l).rev() {
        if filled < call.count {
            image[78 + v] = (k >> (v.ilog2() + 1)) as u8;
            filled += 1;
        }
    }
    for p in 0..n {
        let at = 158 + 6 * p;
        image[at..at + 4].copy_from_slice(&[0, 1, 0, 255]);
    }
    let figure = image
        .iter()
        .fold(0, |d, &x| (31 * d + u64::from(x)) % 65_521);
    format!("setup 0 {figure}")
}

/// The records read back give the same lines, call by call.
#[test]
fn records_play_back() {
    for seed in [1, 2, 3] {
        let records = calls::all(seed, 2_400);
        let mut again = Records::new(usize::MAX);
        for call in read(&records) {
            match call.number {
                0 => again.event(&call.state, call.events[0], call.events[1]),
                1 => again.list(&call.state, &call.events, call.journal_len),
                2 => again.report(&call.state),
                3 => again.partial_setup(&call.state, call.count),
                _ => again.closed_setup(&call.state, &call.closed),
            }
            if call.number == 3 {
                assert_eq!(call.text, expected_setup(&call));
            }
        }
        assert!(again.input == records.input);
        assert!(again.output == records.output);
    }
}

/// Kinds of calls among the records that the comparison uses.
#[test]
fn numbers_of_kinds() {
    let calls = read(&calls::all(1, 2_000));
    let mut numbers = [0; 5];
    for call in &calls {
        numbers[usize::from(call.number)] += 1;
    }
    assert_eq!(numbers.iter().sum::<usize>(), 2_000);
    assert!(numbers.iter().all(|&number| number >= 140), "{numbers:?}");
    let fixed = fixed_calls().len();
    let random = partial_setups(&calls[fixed..]);
    assert!(random.len() >= 8, "{}", random.len());
}

/// The random states are in range; some are as the partial setup left them,
/// some have processes astray or with a name.
#[test]
fn random_states() {
    let mut rng = Random::new(32);
    let mut shown = [0; 3];
    for _ in 0..500 {
        let state = any_state(&mut rng);
        assert!(state.in_range());
        shown[0] += usize::from(smaller_count(&state).is_some());
        shown[1] += usize::from(number_in(&state, &[stage::EXHAUSTED]) > 0);
        shown[2] += usize::from(number_in(&state, &[stage::WORKING]) > 0);
    }
    assert!(shown[0] >= 100 && shown[2] >= 100, "{shown:?}");
    assert!(shown[1] >= 50, "{shown:?}");
}
