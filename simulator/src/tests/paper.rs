//! The machine by the papers' sentences alone, name by name.

use super::partial_setup::refusal;
use super::{open_below, open_names};
use crate::State;

/// The four numbers of a state.
pub fn four(state: &State) -> [u8; 4] {
    [state.n, state.l, state.g, state.b]
}

fn is_closed(state: &State, name: usize) -> bool {
    state.closed / 2_u64.pow(name as u32) % 2 == 1
}

/// What is wrong with a state, each sort once.
pub fn faults(state: &State) -> Vec<&'static str> {
    if refusal(four(state)) != 0 {
        return vec!["setup"];
    }
    let mut faults = closed_faults(state);
    if !(-64..=open_names(state).len() as i64).contains(&i64::from(state.gate)) {
        faults.push("gate");
    }
    faults.extend(queue_faults(state));
    for v in 1..state.l {
        if state.counters[usize::from(v)] > open_below(state, 2 * v) {
            faults.push("counter");
        }
    }
    faults.extend(word_faults(state));
    faults.extend(process_faults(state));
    faults.sort_unstable();
    faults.dedup();
    faults
}

fn closed_faults(state: &State) -> Vec<&'static str> {
    let k = usize::from(state.l * state.g * state.b);
    let mut faults = Vec::new();
    if (k..64).any(|name| is_closed(state, name)) {
        faults.push("past");
    }
    if (0..k).all(|name| is_closed(state, name)) {
        faults.push("none");
    }
    faults
}

fn queue_faults(state: &State) -> Vec<&'static str> {
    let len = usize::from(state.queue_len);
    let wrong = |(place, &p): (usize, &u8)| if place < len { p >= state.n } else { p != 0 };
    if len > 64 || state.queue.iter().enumerate().any(wrong) {
        return vec!["queue"];
    }
    Vec::new()
}

fn word_faults(state: &State) -> Vec<&'static str> {
    let [_, l, g, b] = four(state).map(usize::from);
    let mut faults = Vec::new();
    for r in 0..l * g {
        for bit in (0..8).filter(|bit| state.segments[r] >> bit & 1 == 1) {
            if bit >= b {
                faults.push("word");
            } else if is_closed(state, r * b + bit) {
                faults.push("bit");
            }
        }
    }
    faults
}

fn process_faults(state: &State) -> Vec<&'static str> {
    let [n, l, g, b] = four(state).map(usize::from);
    let mut faults = Vec::new();
    for p in &state.processes[..n] {
        let [stage, node, segment, name] = [p.stage, p.node, p.segment, p.name].map(usize::from);
        if stage > 6
            || !(1..2 * l).contains(&node)
            || segment >= g
            || name >= l * g * b && name != 255
            || usize::from(p.steps) + usize::from(p.returns) > 255
        {
            faults.push("process");
        } else if name != 255 && is_closed(state, name) {
            faults.push("record");
        }
    }
    faults
}

/// The answer of an event and the state after it.
pub fn event(before: &State, kind: u8, process: u8) -> (u8, State) {
    let (answer, after) = answer_of(before, kind, process);
    match after {
        Some(after) if answer == 0 => (0, after),
        _ => (answer, before.clone()),
    }
}

fn answer_of(before: &State, kind: u8, process: u8) -> (u8, Option<State>) {
    if !faults(before).is_empty() {
        return (15, None);
    }
    if kind > 2 {
        return (12, None);
    }
    if process >= before.n {
        return (6, None);
    }
    let mut after = before.clone();
    let p = &mut after.processes[usize::from(process)];
    match (kind, p.stage) {
        (0, 0) => {
            (p.stage, p.node, p.segment, p.name) = (1, 1, 0, 255);
            (p.steps, p.returns) = (0, 0);
        }
        (2, 4) => p.stage = 5,
        (0, _) => return (7, None),
        (2, _) => return (9, None),
        (_, 0 | 4) => return (8, None),
        _ => match turn(before, process) {
            Some(turned) if faults(&turned).is_empty() => after = turned,
            _ => return (15, None),
        },
    }
    (0, Some(after))
}

/// The state after a turn, none where a number has no room.
fn turn(before: &State, process: u8) -> Option<State> {
    let mut s = before.clone();
    let at = usize::from(process);
    let p = before.processes[at];
    match p.stage {
        1 => {
            s.gate -= 1;
            if before.gate > 0 {
                s.processes[at].stage = 3;
            } else {
                *s.queue.get_mut(usize::from(s.queue_len))? = process;
                s.queue_len += 1;
                s.processes[at].stage = 2;
            }
        }
        2 if !s.queue[..usize::from(s.queue_len)].contains(&process) => s.processes[at].stage = 3,
        3 => {
            s.processes[at].steps = p.steps.checked_add(1)?;
            claim(&mut s, at);
        }
        5 => go_back(&mut s, at)?,
        _ => {}
    }
    Some(s)
}

fn claim(s: &mut State, at: usize) {
    let p = &mut s.processes[at];
    if p.node < s.l {
        let counter = &mut s.counters[usize::from(p.node)];
        p.node = if *counter > 0 {
            *counter -= 1;
            2 * p.node
        } else {
            2 * p.node + 1
        };
        return;
    }
    let r = (p.node - s.l) * s.g + p.segment;
    let names = r * s.b..(r + 1) * s.b;
    let word = s.segments[usize::from(r)];
    let clear = |&name: &u8| word >> (name % s.b) & 1 == 0;
    let open = |&name: &u8| s.closed >> name & 1 == 0;
    match names.clone().filter(open).find(clear) {
        Some(name) => {
            s.segments[usize::from(r)] += 1 << (name % s.b);
            (p.stage, p.name) = (4, name);
        }
        None if p.segment < s.g - 1 => p.segment += 1,
        None => p.stage = 6,
    }
}

fn go_back(s: &mut State, at: usize) -> Option<()> {
    let p = &mut s.processes[at];
    if p.name != 255 {
        s.segments[usize::from(p.name / s.b)] &= 255 - (1 << (p.name % s.b));
        p.name = 255;
        p.returns = p.returns.checked_add(1)?;
    } else if p.node > 1 {
        if p.node.is_multiple_of(2) {
            s.counters[usize::from(p.node / 2)] += 1;
            p.returns = p.returns.checked_add(1)?;
        }
        p.node /= 2;
    } else {
        let len = usize::from(s.queue_len);
        if len > 0 {
            s.queue[..len].rotate_left(1);
            s.queue[len - 1] = 0;
            s.queue_len -= 1;
        }
        s.gate += 1;
        (p.stage, p.segment) = (0, 0);
    }
    Some(())
}
