//! Rolls filled after a list of events, with lent records of all numbers.
//!
//! A record of `rolls.in` is a state image, the number of event bytes, the
//! events and the number of lent roll records. The list runs with a journal
//! that is long enough; the roll is filled from the state that it gives
//! back, which is the lent one where the list is refused.

use crate::calls::closed::random_closed;
use crate::calls::closed_runs::{with_open, OPENINGS};
use crate::calls::closed_states::{self, CLOSURES};
use crate::calls::costs::{set_cost, LAST, PAST};
use crate::calls::reached::{
    accepted_event, accepted_pair, busy_list, closed, fresh, mid_run, mid_run_from, SETUPS,
};
use crate::calls::{broken, chance, ends, Records};
use crate::cases::chance::setup;
use crate::cases::shapes::lively_list_from;
use crate::cases::ways_back;
use crate::machine::kind::{RELEASE, REQUEST, STEP};
use crate::random::Random;
use crate::state::{stage, State};
use std::io;
use std::path::Path;

/// Most lent records.
pub const MOST_ROOM: u8 = 80;

/// Most events of a list, whose length in bytes is an even byte.
pub const MOST_EVENTS: usize = 127;

/// Words of eight bits with N below k, and the most processes with N far
/// above k.
const MORE_SETUPS: [[u8; 4]; 2] = [[12, 1, 2, 8], [64, 1, 2, 1]];

/// One process: N equal to k and below it.
const LONE_SETUPS: [[u8; 4]; 2] = [[1, 1, 1, 1], [1, 4, 2, 2]];

/// Besides the main setups, fresh states with N above k: a tree whose k is
/// not small, and the most processes.
const CROWDED_SETUPS: [[u8; 4]; 2] = [[14, 4, 1, 2], [64, 1, 2, 1]];

/// For each number of leaves, as many processes as names, and few enough for
/// all of them to go back in one list.
pub(crate) const BACK_SETUPS: [[u8; 4]; 5] = [
    [2, 1, 2, 1],
    [4, 2, 2, 1],
    [8, 4, 2, 1],
    [16, 8, 2, 1],
    [16, 16, 1, 1],
];

/// The only process of the setup, holding a name.
fn lone_worker(setup: [u8; 4]) -> State {
    let mut state = fresh(setup);
    while state.processes[0].stage != stage::WORKING {
        let [kind, process] = accepted_event(&state, 0);
        state.event(kind, process);
    }
    state
}

/// One to twelve events, some of them refused.
fn short_list(rng: &mut Random, state: &State) -> Vec<u8> {
    let count = 1 + rng.below(12);
    chance::events(rng, state, count)
}

/// Numbers of lent records about N, none and the most.
fn rooms(n: u8) -> Vec<u8> {
    let mut rooms = vec![0, n - 1, n, n + 1, MOST_ROOM];
    rooms.dedup();
    rooms
}

/// Fresh states, each roll after a list of its own that leaves workers, one
/// in putname and, where N is above k, a queue.
fn fresh_states(records: &mut Records, rng: &mut Random) {
    for &setup in SETUPS.iter().chain(&CROWDED_SETUPS) {
        let state = fresh(setup);
        for room in rooms(state.n) {
            records.roll(&state, &busy_list(rng, &state), room);
        }
    }
    for setup in SETUPS {
        let mut state = fresh(setup);
        ends::fill_unused(&mut state, || rng.byte().max(1));
        records.roll(&state, &busy_list(rng, &fresh(setup)), MOST_ROOM);
    }
    let state = fresh(CROWDED_SETUPS[0]);
    let longest = chance::events(rng, &state, MOST_EVENTS);
    records.roll(&state, &longest, state.n);
}

/// States in mid-run with short lists, one of them empty; the turn chooses
/// which.
fn mid_run_states(records: &mut Records, rng: &mut Random, state: &State, turn: usize) {
    let rooms = rooms(state.n);
    let empty = turn % rooms.len();
    for (place, room) in rooms.into_iter().enumerate() {
        let events = if place == empty {
            Vec::new()
        } else {
            short_list(rng, state)
        };
        records.roll(state, &events, room);
    }
}

/// Unused places are neither checked, shown nor changed by a list.
fn unused_places(records: &mut Records, rng: &mut Random, good: &State) {
    let mut state = good.clone();
    ends::fill_unused(&mut state, || rng.byte().max(1));
    records.roll(&state, &short_list(rng, &state), state.n);
    records.roll(&state, &[], state.n + 1);
    records.roll(&state, &short_list(rng, &state), MOST_ROOM);
}

/// Numbers at the ends of their ranges: the processes of every stage, the
/// gate word and the queue. The list tries every kind on each process.
fn range_ends(records: &mut Records) {
    let mut state = fresh([7, 4, 2, 2]);
    for stage in stage::REMAINDER..=stage::EXHAUSTED {
        state.processes[usize::from(stage)] = ends::last_places(&state, stage);
    }
    let kinds = [STEP, RELEASE, REQUEST];
    let events: Vec<u8> = (0..state.n)
        .flat_map(|process| kinds.map(|kind| [kind, process]).concat())
        .collect();
    records.roll(&state, &events, state.n);
    records.roll(&state, &[], MOST_ROOM);
    let queued = ends::with_full_queue(&state);
    records.roll(&queued, &events, queued.n - 1);
    records.roll(&queued, &events, queued.n);
}

/// The first process, a middle one or the last by the turn, 0 to 2.
fn third(good: &State, turn: usize) -> usize {
    turn * (usize::from(good.n) - 1) / 2
}

/// One state of every kind of fault, each with enough room and with too
/// little, with a list that the good state accepts and with none. The turn,
/// 0 to 2, chooses the first, a middle or the last of each kind.
fn broken_states(records: &mut Records, good: &State, kinds: &[Vec<State>], turn: usize) {
    for (index, kind) in kinds.iter().enumerate() {
        let chosen = turn * kind.len().saturating_sub(1) / 2;
        let Some(state) = kind.get(chosen) else {
            continue;
        };
        let n = good.n.max(state.n);
        let rooms = if (index + turn).is_multiple_of(2) {
            [n, n - 1]
        } else {
            [MOST_ROOM, 0]
        };
        let pair = accepted_pair(good, index);
        let lists = if (index / 2).is_multiple_of(2) {
            [&pair[..], &[]]
        } else {
            [&[], &pair[..]]
        };
        for (events, room) in lists.into_iter().zip(rooms) {
            records.roll(state, events, room);
        }
    }
}

/// Costs past the end of their range, for the first, a middle and the last
/// process.
fn broken_costs(records: &mut Records, good: &State) {
    let pair = accepted_pair(good, 1);
    for (turn, cost) in PAST.into_iter().enumerate() {
        for third in 0..3 {
            let mut state = good.clone();
            let process = third * (usize::from(good.n) - 1) / 2;
            set_cost(&mut state.processes[process], cost);
            let room = [good.n, good.n - 1, MOST_ROOM][(turn + third) % 3];
            let events = [&[][..], &pair][(turn + third) % 2];
            records.roll(&state, events, room);
        }
    }
}

/// Every cost at the end of its range.
fn highest_costs(records: &mut Records, rng: &mut Random, good: &State) {
    let mut state = good.clone();
    for process in 0..usize::from(good.n) {
        set_cost(&mut state.processes[process], LAST[process % LAST.len()]);
    }
    records.roll(&state, &[], state.n);
    records.roll(&state, &short_list(rng, &state), MOST_ROOM);
}

/// All hold a name; in the list all go back, and every second one requests
/// again.
fn ways_back(records: &mut Records, rng: &mut Random) {
    for setup in BACK_SETUPS {
        let mut maker = ways_back::maker(rng, setup);
        ways_back::claim_all(&mut maker);
        let state = maker.state.clone();
        maker.events.clear();
        for process in 0..state.n {
            ways_back::go_back(&mut maker, process, |_| ());
        }
        for process in (1..state.n).step_by(2) {
            maker.push(REQUEST, process);
        }
        records.roll(&state, &maker.events, state.n);
    }
}

/// A state whose process 0 is about to leave the gate and let the queue's
/// only process in.
fn leaving(setup: [u8; 4]) -> State {
    let mut state = fresh(setup);
    state.processes[0].stage = stage::PUTNAME;
    state.gate = -1;
    state.queue_len = 1;
    state.queue[0] = state.n - 1;
    state
}

/// States with a fault that the list beside them would mend if it were run:
/// it is refused, and so is the roll.
pub(crate) fn mendable() -> Vec<(State, Vec<u8>)> {
    let setup = [7, 4, 2, 2];
    let [mut node, mut segment, mut name] = [fresh(setup), fresh(setup), fresh(setup)];
    let [mut cost, mut highest] = [fresh(setup), fresh(setup)];
    node.processes[3].node = 0;
    segment.processes[3].segment = segment.g;
    name.processes[3].name = name.names();
    set_cost(&mut cost.processes[3], PAST[0]);
    set_cost(&mut highest.processes[3], PAST[3]);
    let [mut gate, mut counter] = [fresh(setup), fresh(setup)];
    gate.gate += 1;
    counter.counters[1] += 1;
    let [mut low_gate, mut head] = [leaving(setup), leaving(setup)];
    low_gate.gate = -65;
    head.queue[0] = head.n;
    vec![
        (node, vec![REQUEST, 3]),
        (segment, vec![REQUEST, 3]),
        (name, vec![REQUEST, 3]),
        (cost, vec![REQUEST, 3]),
        (highest, vec![REQUEST, 3, STEP, 3]),
        (gate, vec![REQUEST, 0, STEP, 0]),
        (counter, vec![REQUEST, 0, STEP, 0, STEP, 0]),
        (low_gate, vec![STEP, 0]),
        (head, vec![STEP, 0]),
    ]
}

/// Fresh states that close names, with lists that leave them busy, and states
/// in mid-run.
fn closed_states(records: &mut Records, rng: &mut Random, goods: &[State; 3]) {
    let [first, second, _] = CLOSURES.map(|(setup, list)| closed(setup, list));
    let last = with_open(OPENINGS[OPENINGS.len() - 1]);
    for state in [first, second, last] {
        for room in [state.n - 1, state.n, MOST_ROOM] {
            records.roll(&state, &busy_list(rng, &state), room);
        }
    }
    for (turn, good) in goods.iter().enumerate() {
        mid_run_states(records, rng, good, turn);
    }
    unused_places(records, rng, &goods[1]);
}

/// States that closed names break, in every way.
fn broken_closures(records: &mut Records, goods: &[State; 3]) {
    for (turn, good) in goods.iter().enumerate() {
        let kinds = broken::closed_kinds(good, third(good, turn));
        broken_states(records, good, &kinds, turn);
    }
    for (turn, state) in closed_states::broken_alone().iter().enumerate() {
        let events = [&[][..], &[REQUEST, 0]][turn % 2];
        records.roll(state, events, state.n);
    }
    for (state, events) in closed_states::mendable() {
        records.roll(&state, &events, state.n);
    }
}

/// The records that come first.
pub fn fixed(records: &mut Records, rng: &mut Random) {
    fresh_states(records, rng);
    let main = SETUPS.map(|setup| mid_run(rng, setup));
    let more = MORE_SETUPS.map(|setup| mid_run(rng, setup));
    let lone = LONE_SETUPS.map(lone_worker);
    for (turn, state) in main.iter().chain(&more).chain(&lone).enumerate() {
        mid_run_states(records, rng, state, turn);
    }
    for state in main.iter().chain(&lone) {
        unused_places(records, rng, state);
    }
    range_ends(records);
    records.roll(&State::BLANK, &[], 0);
    records.roll(&State::BLANK, &[REQUEST, 0, STEP, 0], 5);
    for (turn, state) in main.iter().enumerate() {
        let kinds = broken::kinds(state, third(state, turn));
        broken_states(records, state, &kinds, turn);
    }
    for state in [&main[0], &main[2]] {
        broken_costs(records, state);
    }
    for (state, events) in mendable() {
        records.roll(&state, &events, state.n);
    }
    for state in &main {
        highest_costs(records, rng, state);
    }
    ways_back(records, rng);
    let goods = CLOSURES.map(|(setup, list)| mid_run_from(rng, closed(setup, list)));
    closed_states(records, rng, &goods);
    broken_closures(records, &goods);
}

/// Mostly N itself or a little more.
fn room(rng: &mut Random, n: u8) -> u8 {
    match rng.below(8) {
        0 => rng.between(0, MOST_ROOM),
        1 => n - 1,
        2 => n.saturating_sub(rng.between(2, 4)),
        3 => n + 1,
        4 => n + rng.between(2, 9),
        _ => n,
    }
}

/// A fresh state, which may close names, with a lively list of any length.
fn add_fresh(records: &mut Records, rng: &mut Random) {
    let setup = setup(rng);
    let [_, l, g, b] = setup;
    let state = if rng.chance(1, 2) {
        closed(setup, &random_closed(rng, l * g * b))
    } else {
        fresh(setup)
    };
    let count = 20 + rng.below(MOST_EVENTS - 19);
    let turn = rng.below(5);
    let mut events = lively_list_from(rng, turn, state.clone(), count);
    events.truncate(2 * MOST_EVENTS);
    let room = room(rng, state.n);
    records.roll(&state, &events, room);
}

/// A state of any kind, perhaps broken; its list is mostly short.
fn add_any(records: &mut Records, rng: &mut Random) {
    let good = chance::state(rng);
    let count = match rng.below(8) {
        0 => 0,
        1 => rng.below(MOST_EVENTS + 1),
        _ => rng.below(25),
    };
    let events = chance::events(rng, &good, count);
    let state = chance::perhaps_broken(rng, &good);
    let room = room(rng, good.n);
    records.roll(&state, &events, room);
}

fn add_random(records: &mut Records, rng: &mut Random) {
    if rng.chance(1, 3) {
        add_fresh(records, rng);
    } else {
        add_any(records, rng);
    }
}

/// The first `count` records of a seed.
pub fn all(seed: u64, count: usize) -> Records {
    let mut rng = Random::new(seed);
    let mut records = Records::new(count);
    fixed(&mut records, &mut rng);
    while !records.full() {
        add_random(&mut records, &mut rng);
    }
    records
}

/// Writes both files into the folder.
pub fn write(seed: u64, count: usize, folder: &Path) -> io::Result<()> {
    all(seed, count).write(folder, "rolls")
}
