//! States with one number, or the sum of two, outside its range, and states
//! that hold a closed name.

use super::costs::{set_cost, PAST};
use super::reached::{accepted_event, accepted_pair, mid_run, SETUPS};
use super::Records;
use crate::random::Random;
use crate::state::{all_names, Process, State, MAX, NO_NAME};

/// States with one kind of number outside its range.
type Kind = Vec<State>;

fn changed(good: &State, change: impl FnOnce(&mut State)) -> State {
    let mut state = good.clone();
    change(&mut state);
    state
}

/// The four setup numbers at both ends, and k above 64, by b alone where
/// that is enough. With one leaf k cannot be above 64.
fn setup_numbers(good: &State) -> Vec<Kind> {
    let processes = [0, 65].map(|n| changed(good, |s| s.n = n));
    let leaves = [0, 3, 32].map(|l| changed(good, |s| s.l = l));
    let segments = [0, 9].map(|g| changed(good, |s| s.g = g));
    let bits = [0, 9].map(|b| changed(good, |s| s.b = b));
    let mut names = Vec::new();
    let wide = u16::from(good.l) * u16::from(good.g) * 8;
    if wide > 64 {
        names.push(changed(good, |s| s.b = 8));
    } else if good.l > 1 {
        names.push(changed(good, |s| (s.g, s.b) = (8, 8)));
    }
    vec![
        processes.into(),
        leaves.into(),
        segments.into(),
        bits.into(),
        names,
    ]
}

/// The closed names of a state in rising order.
fn closed_names(state: &State) -> Vec<u8> {
    (0..MAX as u8).filter(|&x| state.is_closed(x)).collect()
}

/// One more closed name, just not below k and the last of all, and no open
/// name.
fn closed(good: &State) -> Kind {
    let k = good.names();
    let mut past = vec![k, MAX as u8 - 1];
    past.dedup();
    past.retain(|&name| (k..MAX as u8).contains(&name));
    let mut states: Kind = past
        .into_iter()
        .map(|name| changed(good, |s| s.closed |= 1 << name))
        .collect();
    states.push(none_open(good));
    states
}

/// Every name closed and none held: nothing else is wrong.
pub(crate) fn none_open(good: &State) -> State {
    changed(good, |s| {
        s.closed = all_names(s.names());
        s.gate = s.gate.min(0);
        s.counters[1..usize::from(s.l)].fill(0);
        s.segments[..usize::from(s.l * s.g)].fill(0);
        for process in &mut s.processes[..usize::from(s.n)] {
            process.name = NO_NAME;
        }
    })
}

/// The bit of each closed name set.
pub(crate) fn closed_bits(good: &State) -> Kind {
    let (b, names) = (good.b, closed_names(good).into_iter());
    names
        .map(|name| {
            changed(good, |s| {
                s.segments[usize::from(name / b)] |= 1 << (name % b)
            })
        })
        .collect()
}

/// The lowest, a middle and the highest closed name in a record.
fn closed_records(good: &State, p: usize) -> Kind {
    let names = closed_names(good);
    let last = names.len().saturating_sub(1);
    let mut places = vec![0, last / 2, last];
    places.dedup();
    let chosen = places.into_iter().filter_map(|place| names.get(place));
    chosen
        .map(|&name| changed(good, |s| s.processes[p].name = name))
        .collect()
}

/// Below its range and above it: one above the open names and, where that is
/// more, k.
pub(crate) fn gate(good: &State) -> Kind {
    let [open, k] = [good.open_names(), good.names()].map(|x| x as i8);
    let mut values = vec![-65, open + 1, k];
    values.dedup();
    values.retain(|value| !(-64..=open).contains(value));
    values
        .into_iter()
        .map(|value| changed(good, |s| s.gate = value))
        .collect()
}

/// A queue of at least two, so that it has a first and a last place.
fn with_queue(good: &State) -> State {
    changed(good, |s| {
        if s.queue_len < 2 {
            s.queue[..2].copy_from_slice(&[0, s.n - 1]);
            s.queue_len = 2;
        }
    })
}

/// Its length, its entries and the places past its end.
fn queue(good: &State) -> Vec<Kind> {
    let queued = with_queue(good);
    let len = usize::from(queued.queue_len);
    let lengths = [65, 255].map(|len| changed(good, |s| s.queue_len = len));
    let entries = vec![
        changed(&queued, |s| s.queue[0] = s.n),
        changed(&queued, |s| s.queue[len - 1] = s.n),
        changed(good, |s| {
            s.queue_len = MAX as u8;
            s.queue[MAX - 1] = s.n;
        }),
    ];
    let mut past = Vec::new();
    let end = usize::from(good.queue_len);
    if end < MAX {
        past.push(changed(good, |s| s.queue[end] = 1));
        past.push(changed(good, |s| s.queue[MAX - 1] = 1));
    }
    vec![lengths.into(), entries, past]
}

/// One above its fresh value and, where that is more, what it would be with
/// no name closed.
fn counter(good: &State, v: usize) -> Kind {
    let fresh = good.fresh_counter(v);
    let whole = changed(good, |s| s.closed = 0).fresh_counter(v);
    let mut values = vec![fresh + 1, whole];
    values.dedup();
    values.retain(|&value| value > fresh);
    values
        .into_iter()
        .map(|value| changed(good, |s| s.counters[v] = value))
        .collect()
}

pub(crate) fn counters(good: &State) -> Kind {
    let nodes = 1..usize::from(good.l);
    nodes.flat_map(|v| counter(good, v)).collect()
}

/// A word of eight bits cannot break.
fn segments(good: &State) -> Kind {
    let used = usize::from(good.l) * usize::from(good.g);
    let words = if good.b < 8 { 0..used } else { 0..0 };
    words
        .map(|r| changed(good, |s| s.segments[r] = 1 << s.b))
        .collect()
}

/// Its stage, node, segment, name, closed names too, and cost.
fn process(good: &State, p: usize) -> Vec<Kind> {
    let [l, g, k] = [good.l, good.g, good.names()];
    let one = |change: &dyn Fn(&mut Process)| changed(good, |s| change(&mut s.processes[p]));
    let costs = PAST.map(|cost| one(&|x| set_cost(x, cost)));
    vec![
        vec![one(&|x| x.stage = 7), one(&|x| x.stage = 255)],
        vec![one(&|x| x.node = 0), one(&|x| x.node = 2 * l)],
        vec![one(&|x| x.segment = g)],
        vec![one(&|x| x.name = k), one(&|x| x.name = 254)],
        closed_records(good, p),
        costs.into(),
    ]
}

/// The first process, a middle one and process N - 1.
fn processes(good: &State) -> Vec<Kind> {
    let n = usize::from(good.n);
    let mut chosen = vec![0, n / 2, n - 1];
    chosen.dedup();
    chosen.into_iter().flat_map(|p| process(good, p)).collect()
}

/// The closed names, the gate word, the queue, the counters and the segment
/// words.
fn shared_numbers(good: &State) -> Vec<Kind> {
    let mut kinds = vec![closed(good), gate(good)];
    kinds.extend(queue(good));
    kinds.extend([counters(good), segments(good), closed_bits(good)]);
    kinds
}

/// States with a number other than the setup's outside its range.
fn machine_numbers(good: &State) -> Vec<State> {
    let mut kinds = shared_numbers(good);
    kinds.extend(processes(good));
    kinds.concat()
}

/// All states that differ from a good one by one number outside its range, and
/// one without an open name.
pub fn states(good: &State) -> Vec<State> {
    let mut states = setup_numbers(good).concat();
    states.extend(machine_numbers(good));
    states
}

/// The same by kinds, with process `p` for the numbers of a process. A kind
/// that the setup or its closed names cannot break is empty.
pub(crate) fn kinds(good: &State, p: usize) -> Vec<Kind> {
    let mut kinds = setup_numbers(good);
    kinds.extend(shared_numbers(good));
    kinds.extend(process(good, p));
    kinds
}

/// What closed names can break: the closed names themselves, the gate word,
/// the counters, a bit and the record of process `p`.
pub(crate) fn closed_kinds(good: &State, p: usize) -> Vec<Kind> {
    vec![
        closed(good),
        gate(good),
        counters(good),
        closed_bits(good),
        closed_records(good, p),
    ]
}

/// Each broken state with an event and a list that the good one accepts,
/// and with the gate report.
pub(crate) fn try_all(records: &mut Records, good: &State, states: &[State]) {
    for (index, state) in states.iter().enumerate() {
        let [kind, process] = accepted_event(good, index);
        records.event(state, kind, process);
        records.list(state, &accepted_pair(good, index), 8);
        records.report(state);
    }
}

/// The setup's own numbers are broken for the small and the largest setup.
pub fn add(records: &mut Records, rng: &mut Random) {
    let [small, middle, largest] = SETUPS.map(|setup| mid_run(rng, setup));
    try_all(records, &small, &states(&small));
    try_all(records, &middle, &machine_numbers(&middle));
    try_all(records, &largest, &states(&largest));
    records.event(&State::BLANK, 0, 0);
    records.list(&State::BLANK, &[0, 0, 1, 0], 8);
    records.report(&State::BLANK);
}
