//! The generated calls and rolls about closed names.

use super::closed_setup::{closed_refusal, expected};
use super::paper::{event, faults, four};
use super::records::{figures, fixed_calls, fixed_calls_of, read, Call};
use super::{closed, open_below, open_names};
use crate::calls::closed_runs::{any_state, with_open, OPENINGS};
use crate::calls::{self, chance, Records};
use crate::random::Random;
use crate::state::{stage, State};
use crate::{digest, rolls};
use std::collections::HashSet;

/// The faults that closed names give a state.
const FAULTS: [&str; 6] = ["past", "none", "gate", "counter", "bit", "record"];

fn closed_setups(calls: &[Call]) -> Vec<&Call> {
    calls.iter().filter(|call| call.number == 4).collect()
}

fn names([_, l, g, b]: [u8; 4]) -> usize {
    usize::from(l) * usize::from(g) * usize::from(b)
}

/// The answer that the paper gives a setup with closed names.
fn answer(call: &Call) -> u8 {
    closed_refusal(call.setup(), &call.closed)
}

#[test]
fn record_and_line() {
    let mut records = Records::new(4);
    let mut state = State::from_image(&[255; 542]);
    (state.n, state.l, state.g, state.b) = (2, 2, 1, 3);
    records.closed_setup(&state, &[4, 0, 4]);
    records.closed_setup(&state, &[1; 600]);
    records.closed_setup(&state, &[6]);
    records.closed_setup(&state, &[0, 1, 2, 3, 4, 5]);
    records.closed_setup(&state, &[]);
    let lines = [
        format!(
            "closed 0 {}\n",
            digest(&expected([2, 2, 1, 3], &[0, 4]).to_image())
        ),
        format!(
            "closed 0 {}\n",
            digest(&expected([2, 2, 1, 3], &[1]).to_image())
        ),
        "closed 19 0\n".to_string(),
        "closed 20 0\n".to_string(),
    ];
    assert_eq!(records.output, lines.concat());
    assert_eq!(records.input.len(), 4 * 545 + 3 + 600 + 1 + 6);
    assert_eq!(records.input[..5], [2, 2, 1, 3, 255]);
    assert_eq!(records.input[542..548], [4, 3, 0, 4, 0, 4]);
    assert_eq!(records.input[548 + 542..548 + 547], [4, 88, 2, 1, 1]);
}

/// The figure that shows a state.
fn figure(state: &State) -> u64 {
    let image = state.to_image();
    image
        .iter()
        .fold(0, |d, &x| (31 * d + u64::from(x)) % 65_521)
}

/// The line of an event by the papers.
fn event_line(call: &Call) -> String {
    let (answer, after) = event(&call.state, call.events[0], call.events[1]);
    format!("event {answer} {}", figure(&after))
}

/// The line of a list by the papers.
fn list_line(call: &Call) -> String {
    let mut journal = vec![170; usize::from(call.journal_len)];
    let mut state = call.state.clone();
    let answer = if call.events.len() % 2 == 1 {
        14
    } else if journal.len() < 2 * call.events.len() {
        13
    } else if !faults(&state).is_empty() {
        15
    } else {
        0
    };
    if answer == 0 {
        for (pair, entry) in call.events.chunks(2).zip(journal.chunks_mut(4)) {
            let (answer, after) = event(&state, pair[0], pair[1]);
            state = after;
            entry.copy_from_slice(&[answer, 255, 255, 255]);
            if ![12, 6, 15].contains(&answer) {
                let p = &state.processes[usize::from(pair[1])];
                entry[1..].copy_from_slice(&[p.stage, p.name, p.steps + p.returns]);
            }
        }
    }
    let mut line = format!("list {answer} {}", figure(&state));
    for byte in journal {
        line += &format!(" {byte}");
    }
    line
}

fn report_line(state: &State) -> String {
    if !faults(state).is_empty() {
        return "report 15 0 0".to_string();
    }
    let gate = i32::from(state.gate);
    format!("report 0 {} {}", gate.max(0), (-gate).max(0))
}

/// Every line of the events, lists, reports and setups with closed names, by
/// the papers' sentences.
#[test]
fn every_line() {
    for seed in [1, 2] {
        let records = calls::all(seed, 2_600);
        for call in read(&records) {
            let line = match call.number {
                0 => event_line(&call),
                1 => list_line(&call),
                2 => report_line(&call.state),
                3 => continue,
                _ => match answer(&call) {
                    0 => format!("closed 0 {}", figure(&expected(call.setup(), &call.closed))),
                    number => format!("closed {number} 0"),
                },
            };
            assert_eq!(call.text, line);
        }
    }
}

/// 19 and 20, alone and together, with each of the refusals before them and
/// with two of those.
#[test]
fn order_of_the_refusals() {
    let calls = fixed_calls();
    let setups = closed_setups(&calls);
    let faulty = |call: &Call| {
        let all = (0..names(call.setup()).min(256)).all(|x| call.closed.contains(&(x as u8)));
        let past = call.closed.contains(&255);
        [past, all]
    };
    for first in [1, 2, 3, 4, 5] {
        for wanted in [[true, false], [false, true], [true, true]] {
            let shown = setups
                .iter()
                .filter(|call| answer(call) == first && faulty(call) == wanted);
            let shown: Vec<_> = shown.collect();
            assert!(!shown.is_empty(), "{first} {wanted:?}");
            let line = [usize::from(first), 0];
            assert!(shown.iter().all(|call| call.line == line));
        }
    }
    for k in [1, 2, 16, 60, 64] {
        let here = setups.iter().filter(|call| names(call.setup()) == k);
        let twenty = here.clone().filter(|call| answer(call) == 20);
        assert!(twenty.count() >= 2, "{k}");
        let all = |call: &&&Call| (0..k).all(|x| call.closed.contains(&(x as u8)));
        let both = here.filter(|call| answer(call) == 19);
        let places: HashSet<usize> = both
            .filter(all)
            .filter_map(|call| call.closed.iter().position(|&x| usize::from(x) == k))
            .collect();
        assert!(places.contains(&0) && places.contains(&k), "{k}");
        assert!(k == 1 || places.contains(&(k / 2)), "{k}");
    }
}

/// Lists of one name: k - 1, k, 63, 64 and 255 for each of several k.
#[test]
fn ends_of_the_numbers() {
    let calls = fixed_calls();
    let setups = closed_setups(&calls);
    for k in [1, 2, 16, 60, 64_usize] {
        for name in [k - 1, k, 63, 64, 255] {
            let there = |call: &&&Call| names(call.setup()) == k && call.closed == [name as u8];
            let call = setups.iter().find(there).unwrap();
            let number = match name < k {
                true if k == 1 => 20,
                true => 0,
                false => 19,
            };
            assert_eq!(call.answer(), number, "{k} {name}");
        }
    }
}

/// Empty lists, lists longer than k and than 256, and of 599 and 600 names,
/// accepted and refused.
#[test]
fn lengths_of_the_lists() {
    let calls = fixed_calls();
    let setups = closed_setups(&calls);
    let number = |wanted: u8, range: std::ops::RangeInclusive<usize>| {
        let right = |call: &&&Call| answer(call) == wanted && range.contains(&call.closed.len());
        setups.iter().filter(right).count()
    };
    for l in [1, 2, 4, 8, 16] {
        let empty = |call: &&&Call| call.closed.is_empty() && call.state.l == l;
        let shown = setups.iter().filter(empty);
        assert!(shown.filter(|call| answer(call) == 0).count() >= 1, "{l}");
    }
    for length in [127, 128, 255, 256, 257, 300, 511, 512, 513, 588, 599, 600] {
        assert!(number(0, length..=length) >= 1, "{length}");
    }
    assert!(number(19, 257..=600) >= 6 && number(20, 257..=600) >= 3);
    assert!(number(19, 600..=600) >= 2 && number(20, 600..=600) >= 1);
    let longer = |call: &&&Call| answer(call) == 0 && call.closed.len() > names(call.setup());
    assert!(setups.iter().filter(longer).count() >= 20);
    assert!(calls.iter().all(|call| call.closed.len() <= 600));
}

/// One set of names in rising, falling and another order gives one figure.
#[test]
fn orders_of_the_lists() {
    let calls = fixed_calls();
    let setups = closed_setups(&calls);
    for setup in [[9, 4, 2, 2], [12, 16, 4, 1]] {
        let here: Vec<_> = setups.iter().filter(|call| call.setup() == setup).collect();
        assert_eq!(here.len(), 3);
        assert!(here.iter().all(|call| call.text == here[0].text));
        assert!(here[0].closed.is_sorted() && here[1].closed.iter().rev().is_sorted());
        assert!(!here[2].closed.is_sorted());
    }
}

/// A list read wrongly.
type Misreading = fn(&[u8]) -> Vec<u8>;

/// Cut, an end left out, numbers cut to fewer bits.
const MISREADINGS: [Misreading; 8] = [
    |list| list[..list.len() % 256].to_vec(),
    |list| list[..list.len().min(255)].to_vec(),
    |list| list[..list.len().min(256)].to_vec(),
    |list| list[..list.len() % 128].to_vec(),
    |list| list[list.len().min(1)..].to_vec(),
    |list| list[..list.len().saturating_sub(1)].to_vec(),
    |list| list.iter().map(|name| name % 64).collect(),
    |list| list.iter().map(|name| name % 128).collect(),
];

#[test]
fn misreadings_show() {
    let calls = fixed_calls();
    for (place, misread) in MISREADINGS.iter().enumerate() {
        let shows = |call: &&&Call| {
            let wrong = misread(&call.closed);
            let setup = call.setup();
            match (answer(call), closed_refusal(setup, &wrong)) {
                (0, 0) => {
                    figure(&expected(setup, &call.closed)) != figure(&expected(setup, &wrong))
                }
                (right, wrong) => right != wrong,
            }
        };
        let setups = closed_setups(&calls);
        assert!(setups.iter().filter(shows).count() >= 2, "{place}");
    }
}

/// Names named twice: below a left child of the root and not, many times, and
/// so many that counting them twice would leave none open.
#[test]
fn doubles() {
    let calls = fixed_calls();
    let mut shown = [0; 4];
    for call in closed_setups(&calls) {
        if answer(call) != 0 {
            continue;
        }
        let unlike: HashSet<u8> = call.closed.iter().copied().collect();
        let k = names(call.setup());
        let twice = |name: &&u8| call.closed.iter().filter(|x| x == name).count() > 1;
        let doubled: Vec<&u8> = unlike.iter().filter(twice).collect();
        let left = doubled.iter().any(|&&name| usize::from(name) < k / 2);
        let right = doubled.iter().any(|&&name| usize::from(name) >= k / 2);
        shown[0] += usize::from(left && call.state.l > 1);
        shown[1] += usize::from(right && call.state.l > 1);
        shown[2] += usize::from(!doubled.is_empty() && call.closed.len() >= k);
        shown[3] += usize::from(unlike.len() == 1 && call.closed.len() == 600);
    }
    assert!(shown.iter().all(|&number| number >= 3), "{shown:?}");
}

/// For each b every set of closed bits of a segment, in setups and in states
/// whose segments are tried.
#[test]
fn every_hole() {
    let calls = fixed_calls();
    for b in 1..=8 {
        let [mut made, mut tried] = [HashSet::new(), HashSet::new()];
        for call in &calls {
            let State { l, g, .. } = call.state;
            if call.state.b != b || call.answer() != 0 {
                continue;
            }
            let bits = |state: &State, r: u8| {
                let open = open_names(state);
                let segment = (r * b..(r + 1) * b).filter(|name| !open.contains(name));
                segment.map(|name| 1_u32 << (name % b)).sum::<u32>()
            };
            if call.number == 4 {
                let state = expected(call.setup(), &call.closed);
                made.extend((0..l * g).map(|r| bits(&state, r)));
            }
            if call.number == 1 {
                tried.extend(
                    tried_segments(call)
                        .into_iter()
                        .map(|r| bits(&call.state, r)),
                );
            }
        }
        assert_eq!([made.len(), tried.len()], [1 << b; 2], "{b}");
    }
}

/// Segments that processes of a list are put at, and that they try until no
/// open bit is clear.
fn tried_segments(call: &Call) -> Vec<u8> {
    let mut state = call.state.clone();
    let mut tried = Vec::new();
    for pair in call.events.chunks(2) {
        let p = state.processes[usize::from(pair[1]) % 64];
        let after = event(&state, pair[0], pair[1]).1;
        let moved = after.processes[usize::from(pair[1]) % 64];
        if p.stage == stage::GETNAME && p.node >= state.l && moved.name == 255 {
            tried.push((p.node - state.l) * state.g + p.segment);
        }
        state = after;
    }
    tried
}

/// Whole segments, leaves and halves closed, for every number of leaves that
/// has them.
#[test]
fn whole_blocks() {
    let calls = fixed_calls();
    let setups = closed_setups(&calls);
    for l in [1, 2, 4, 8, 16] {
        let mut shown = [0; 4];
        for call in &setups {
            let [_, leaves, g, b] = call.setup();
            if leaves != l || answer(call) != 0 {
                continue;
            }
            let state = expected(call.setup(), &call.closed);
            let open = open_names(&state);
            let none = |first: u8, end: u8| !open.iter().any(|name| (first..end).contains(name));
            let k = l * g * b;
            shown[0] += usize::from((0..l * g).any(|r| none(r * b, (r + 1) * b)));
            shown[1] += usize::from((l..2 * l).any(|v| open_below(&state, v) == 0));
            shown[2] += usize::from(none(0, k / 2));
            shown[3] += usize::from(none(k / 2, k));
        }
        let wanted = if l == 1 { &shown[..1] } else { &shown[..] };
        assert!(wanted.iter().all(|&number| number >= 2), "{l} {shown:?}");
    }
}

/// Several accepted setups of each number of leaves close some names.
#[test]
fn closures_for_every_number_of_leaves() {
    for seed in 0..10 {
        let calls = fixed_calls_of(seed);
        for l in [1, 2, 4, 8, 16] {
            let lists: HashSet<(Vec<u8>, [u8; 4])> = closed_setups(&calls)
                .iter()
                .filter(|call| answer(call) == 0 && call.state.l == l && !call.closed.is_empty())
                .map(|call| (call.closed.clone(), call.setup()))
                .collect();
            assert!(lists.len() >= 12, "{l}");
        }
    }
}

/// The states hold anything in their other bytes, and only the four numbers
/// and the list matter.
#[test]
fn other_bytes_do_not_matter() {
    let calls = fixed_calls();
    let setups = closed_setups(&calls);
    for byte in [0, 255] {
        let filled = |call: &&&Call| call.state.to_image()[4..].iter().all(|&x| x == byte);
        assert!(setups.iter().filter(filled).count() >= 20);
    }
    assert!(setups.iter().filter(|call| call.state.in_range()).count() >= 9);
    let closing = |call: &&&Call| call.state.closed != 0 && answer(call) == 0;
    assert!(setups.iter().filter(closing).count() >= 50);
}

/// From each opening's fresh state: a list during which every open name is
/// held while others wait, and in which names come back and are won again.
#[test]
fn runs() {
    let calls = fixed_calls();
    for opening in OPENINGS {
        let fresh = with_open(opening);
        let open = open_names(&fresh);
        assert_eq!(open, opening.1);
        let lists = calls.iter().filter(|call| call.number == 1);
        let mut state = fresh.clone();
        let mut crowded = false;
        let mut won: Vec<u8> = Vec::new();
        for call in lists.skip_while(|call| call.state != fresh) {
            if call.state != state {
                break;
            }
            for pair in call.events.chunks(2) {
                let after = event(&state, pair[0], pair[1]).1;
                let p = &after.processes[usize::from(pair[1])];
                if pair[0] == 1 && p.stage == stage::WORKING {
                    won.push(p.name);
                }
                state = after;
                let used = &state.processes[..usize::from(state.n)];
                let held = used.iter().filter(|p| p.stage == stage::WORKING).count();
                crowded |= held == open.len() && state.queue_len > 0;
            }
        }
        assert!(crowded, "{opening:?}");
        assert!(won.starts_with(&open));
        assert!(open.iter().any(|name| won[open.len()..].contains(name)));
    }
}

/// Each fault that closed names give, alone, in each sort of call.
#[test]
fn each_fault_alone_in_every_call() {
    let calls = fixed_calls();
    for fault in FAULTS {
        for number in 0..3 {
            let alone = |call: &&Call| {
                call.number == number && faults(&call.state) == [fault] && call.state.closed != 0
            };
            let shown: Vec<&Call> = calls.iter().filter(alone).collect();
            assert!(shown.len() >= 5, "{fault} {number}");
            let broken = |call: &&&Call| call.answer() == 15;
            assert!(shown.iter().filter(broken).count() >= 5);
            assert!(shown
                .iter()
                .all(|call| [13, 14, 15].contains(&call.answer())));
        }
    }
}

/// The gate word and counters at their limits, one above, and at what they
/// would be with nothing closed, in each sort of call.
#[test]
fn values_about_the_limits() {
    let calls = fixed_calls();
    for number in 0..3 {
        let mut shown = [[0; 3]; 2];
        for call in calls.iter().filter(|call| call.number == number) {
            let state = &call.state;
            let wrong = faults(state);
            if state.closed == 0 || !["", "gate", "counter"].contains(&wrong.concat().as_str()) {
                continue;
            }
            let [open, k] = [open_names(state).len(), names(four(state))].map(|x| x as i8);
            shown[0][0] += usize::from(state.gate == open && wrong.is_empty());
            shown[0][1] += usize::from(state.gate == open + 1);
            shown[0][2] += usize::from(state.gate == k && k > open + 1);
            for v in 1..state.l {
                let limit = open_below(state, 2 * v);
                let whole = names(four(state)) >> (v.ilog2() + 1);
                let value = state.counters[usize::from(v)];
                let fewer = usize::from(limit) < whole;
                shown[1][0] += usize::from(value == limit && fewer && wrong.is_empty());
                shown[1][1] += usize::from(value == limit + 1);
                shown[1][2] += usize::from(usize::from(value) == whole && value > limit + 1);
            }
        }
        assert!(
            shown.iter().flatten().all(|&x| x >= 2),
            "{number} {shown:?}"
        );
    }
}

/// Steps back that are refused only because names are closed, alone and in a
/// list, and their neighbours that are accepted.
#[test]
fn steps_past_the_limits() {
    let calls = fixed_calls();
    let mut shown = [[0; 2]; 4];
    for call in calls.iter().filter(|call| call.number < 2) {
        if call.state.closed == 0 || !faults(&call.state).is_empty() || call.events.len() % 2 == 1 {
            continue;
        }
        let mut state = call.state.clone();
        for pair in call.events.chunks(2) {
            let (answer, after) = event(&state, pair[0], pair[1]);
            let process = state.processes.get(usize::from(pair[1]));
            let sort = process.and_then(|p| match (pair[0], p.stage, p.name, p.node) {
                (1, 5, 255, 1) => Some(0),
                (1, 5, 255, v) if v % 2 == 0 => Some(1),
                _ => None,
            });
            if let Some(sort) = sort.filter(|_| [0, 15].contains(&answer)) {
                let place = 2 * sort + usize::from(call.number);
                shown[place][usize::from(answer == 15)] += 1;
            }
            state = after;
        }
    }
    assert!(shown.iter().flatten().all(|&x| x >= 3), "{shown:?}");
}

/// A leaf and a segment that are all closed are passed; a counter of 0 sends
/// to the right.
#[test]
fn closed_blocks_are_passed() {
    let calls = fixed_calls();
    let mut shown = [0; 3];
    for call in calls.iter().filter(|call| call.number == 1) {
        if call.state.closed == 0 || call.answer() != 0 {
            continue;
        }
        for r in tried_segments(call) {
            let State { g, b, l, .. } = call.state;
            let open = open_names(&call.state);
            let none = !open.iter().any(|name| name / b == r);
            shown[0] += usize::from(none && r % g + 1 < g);
            shown[1] += usize::from(none && r % g + 1 == g);
            shown[2] += usize::from(open_below(&call.state, l + r / g) == 0);
        }
    }
    assert!(shown.iter().all(|&number| number >= 10), "{shown:?}");
}

/// The state, the list's bytes and the line's answer of each roll.
fn rolls_of(seed: u64) -> Vec<(State, usize, usize)> {
    let mut records = Records::new(usize::MAX);
    rolls::fixed(&mut records, &mut Random::new(seed));
    let mut input = &records.input[..];
    let mut rolls = Vec::new();
    for line in records.output.lines() {
        let (image, rest) = input.split_first_chunk().unwrap();
        let bytes = usize::from(rest[0]);
        input = &rest[bytes + 2..];
        rolls.push((State::from_image(image), bytes, figures(line)[0]));
    }
    rolls
}

/// Rolls of states with closed names, in range and broken in each way, with
/// and without a list.
#[test]
fn rolls_with_closed_names() {
    let rolls = rolls_of(1);
    let closing = rolls.iter().filter(|(state, ..)| state.closed != 0);
    for (empty, least) in [(true, 2), (false, 15)] {
        let good = closing
            .clone()
            .filter(|(state, bytes, _)| faults(state).is_empty() && (*bytes == 0) == empty);
        let accepted = good.filter(|(_, _, answer)| *answer == 0);
        assert!(accepted.count() >= least, "{empty}");
        for fault in FAULTS {
            let alone = closing
                .clone()
                .filter(|(state, bytes, _)| faults(state) == [fault] && (*bytes == 0) == empty);
            let answers: Vec<usize> = alone.map(|(_, _, answer)| *answer).collect();
            assert!(answers.len() >= 2, "{fault} {empty}");
            assert!(answers.iter().all(|&answer| answer == 15));
        }
    }
}

/// Random states: a share of them close names, in mid-run too; the random
/// calls show every answer of a setup with closed names.
#[test]
fn random_states_and_calls() {
    let mut rng = Random::new(59);
    let mut shown = [0; 4];
    for _ in 0..1_000 {
        let state = chance::state(&mut rng);
        assert!(faults(&state).is_empty());
        shown[0] += usize::from(state.closed != 0);
        shown[1] += usize::from(state.closed == 0);
        let state = any_state(&mut rng);
        assert!(faults(&state).is_empty());
        let used = &state.processes[..usize::from(state.n)];
        let holds = used.iter().any(|p| p.stage == stage::WORKING);
        shown[2] += usize::from(state.closed != 0 && holds);
        shown[3] += usize::from(state.closed != 0 && state.queue_len > 0);
    }
    assert!(shown.iter().all(|&number| number > 200), "{shown:?}");
    let calls = read(&calls::all(1, 8_000));
    let random = &calls[fixed_calls().len()..];
    for number in [0, 1, 2, 3, 4, 5, 19, 20] {
        let setups = closed_setups(random);
        let here = setups.iter().filter(|call| answer(call) == number);
        assert!(here.count() >= 4, "{number}");
    }
    for fault in FAULTS {
        let broken = |call: &&Call| call.number < 3 && faults(&call.state) == [fault];
        assert!(random.iter().filter(broken).count() >= 4, "{fault}");
    }
}

/// A state is what the setup with its closed names gives, for every opening.
#[test]
fn openings_are_setups() {
    for (setup, open) in OPENINGS {
        let [_, l, g, b] = setup;
        let list: Vec<u8> = (0..l * g * b).filter(|x| !open.contains(x)).collect();
        assert_eq!(with_open((setup, open)), closed(setup, &list));
        assert!(setup[0] > open.len() as u8);
    }
}
