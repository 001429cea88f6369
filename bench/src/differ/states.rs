//! Hand-made states, in range and broken.

use simulator::calls::{broken, chance};
use simulator::random::Random;
use simulator::State;

use super::difference::{same, Check};
use super::runs::of;
use super::Differ;
use crate::archive::{
    self, CLOSED_AT, COUNTERS_AT, GATE_AT, PROCESS_AT, QUEUED_AT, QUEUE_AT, WORDS_AT,
};
use crate::lists;

/// Numbers about the limits of bytes, processes, names and the gate word.
const EDGES: [u8; 16] = [
    0, 1, 2, 6, 7, 8, 9, 63, 64, 65, 127, 128, 191, 192, 254, 255,
];

/// A place of the state's image, each kind of number about as often.
fn place(rng: &mut Random, state: &State) -> usize {
    let n = usize::from(state.n);
    let len = usize::from(state.queue_len);
    match rng.below(11) {
        0 => rng.below(4),
        1 => GATE_AT,
        2 => QUEUED_AT,
        3 => QUEUE_AT + (len + rng.below(3)).clamp(1, 64) - 1,
        4 => QUEUE_AT + rng.below(64),
        5 => COUNTERS_AT + rng.below(16),
        6 => WORDS_AT + rng.below(64),
        7 => PROCESS_AT + rng.below(6 * 64),
        8 => CLOSED_AT + rng.below(8),
        _ => PROCESS_AT + rng.below(6 * n),
    }
}

/// Any number, one about a limit, or one beside the old one.
fn number(rng: &mut Random, state: &State, old: u8) -> u8 {
    let limits = [
        state.n,
        state.names(),
        2 * state.l,
        state.g,
        1 << (state.b - 1),
    ];
    let beside = rng.byte_below(3).wrapping_sub(1);
    match rng.below(4) {
        0 => rng.byte(),
        1 => EDGES[rng.below(EDGES.len())],
        2 => old.wrapping_add(beside),
        _ => limits[rng.below(limits.len())].wrapping_add(beside),
    }
}

/// The state with a random place set.
fn changed(rng: &mut Random, state: &State) -> State {
    let mut image = state.to_image();
    let at = place(rng, state);
    image[at] = number(rng, state, image[at]);
    State::from_image(&image)
}

/// The state with the steps and returns of a process together about 255.
fn summed(rng: &mut Random, state: &State) -> State {
    let mut state = state.clone();
    let sum = 254 + rng.below(4);
    let least = sum.saturating_sub(255);
    let steps = least + rng.below(sum.min(255) - least + 1);
    let process = &mut state.processes[rng.below(usize::from(state.n))];
    process.steps = steps as u8;
    process.returns = (sum - steps) as u8;
    state
}

impl Differ {
    /// Hand-made states about a reached one, and others at random.
    pub fn hand_made(&mut self, reached: &State) -> Check {
        self.reports(reached)?;
        for _ in 0..16 {
            let state = changed(&mut self.rng, reached);
            self.state(reached, &state)?;
        }
        for _ in 0..4 {
            let any = chance::state(&mut self.rng);
            self.state(&any, &any)?;
            let state = changed(&mut self.rng, &any);
            self.state(&any, &state)?;
        }
        for from in [reached.clone(), chance::state(&mut self.rng)] {
            let state = summed(&mut self.rng, &from);
            self.tally.sums += 1;
            self.tally.broken_sums += u64::from(!state.in_range());
            self.state(&from, &state)?;
        }
        if self.rng.chance(1, 8) {
            let states = broken::states(reached);
            let state = &states[self.rng.below(states.len())];
            self.state(reached, state)?;
        }
        if self.rng.chance(1, 64) {
            self.state(reached, &State::BLANK)?;
        }
        Ok(())
    }

    /// Every call on a state, hand-made, of a smaller count or fresh with
    /// closed names. The events suit the state, or the one it was made from if
    /// it is broken.
    pub fn state(&mut self, from: &State, state: &State) -> Check {
        let in_range = state.in_range();
        self.tally.add_state(state, in_range);
        self.reports(state)?;
        let source = if in_range { state } else { from };
        let count = self.rng.below(48);
        let events = lists::after(&mut self.rng, source, count);
        self.any_list(state, &events)?;
        let mut after = state.clone();
        let single = if in_range { 16 } else { 2 };
        for pair in events.chunks_exact(2).take(single) {
            self.any_event(&mut after, pair[0], pair[1])?;
        }
        let [kind, process] = [self.rng.byte(), self.rng.byte()];
        self.any_event(&mut after, kind, process)?;
        self.large_event(&after)
    }

    /// The gate report and the roll.
    fn reports(&mut self, state: &State) -> Check {
        let got = archive::gate_report(of(state));
        let expected = state.gate_report();
        self.tally.reports += 1;
        same(
            "the gate report (answer, free, queued)",
            [got.answer, got.free, got.queued],
            [expected.answer, expected.open, expected.queued],
        )
        .map_err(|found| found.given_figures("state", &state.to_image()))?;
        self.roll(state)?;
        Ok(())
    }
}
