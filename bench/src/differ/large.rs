//! Numbers above 255, which no byte of a list has: the calls refuse them with
//! the numbers of docs/MACHINE.md.

use simulator::day_file::EVENTS_AT;
use simulator::random::Random;
use simulator::State;

use super::difference::{same, same_state, Check};
use super::lent::Lent;
use super::runs::of;
use super::Differ;
use crate::archive::{self, Done};
use crate::lists::Setup;

const STRANGER: u8 = 6;
const KIND: u8 = 12;
const BROKEN_STATE: u8 = 15;

/// A number above 255; its low byte is often one that a call accepts.
fn large(rng: &mut Random) -> u32 {
    match rng.below(4) {
        0 => 256 + rng.below(256) as u32,
        1 => 256 << rng.below(24),
        2 => u32::MAX - rng.below(256) as u32,
        _ => (rng.draw() as u32).max(256),
    }
}

/// The numbers of a setup, one or more of them now above 255.
pub fn enlarged(rng: &mut Random, setup: Setup) -> [u32; 4] {
    let mut numbers = setup.map(u32::from);
    numbers[rng.below(4)] = large(rng);
    if rng.chance(1, 4) {
        numbers[rng.below(4)] = large(rng);
    }
    numbers
}

/// The number of a setup's first check that fails; 0 where none of the first
/// four does.
pub fn setup_answer([n, l, g, b]: [u32; 4]) -> u8 {
    let holds = [
        (1..=64).contains(&n),
        [1, 2, 4, 8, 16].contains(&l),
        (1..=8).contains(&g),
        (1..=8).contains(&b),
    ];
    let failing = holds.iter().position(|holds| !holds);
    failing.map_or(0, |place| place as u8 + 1)
}

/// What an event with a large number answers.
fn event_answer(state: &State, kind: u32) -> u8 {
    match kind {
        _ if !state.in_range() => BROKEN_STATE,
        0..=2 => STRANGER,
        _ => KIND,
    }
}

impl Differ {
    /// The setup, in each of its forms, with one number or more above 255.
    pub fn large_setup(&mut self, setup: Setup) -> Check {
        let numbers = enlarged(&mut self.rng, setup);
        let [n, l, g, b] = numbers;
        let count = self.rng.draw() >> self.rng.below(64);
        self.tally.large_setups += 1;
        for got in [
            archive::setup(n, l, g, b),
            archive::partial_setup(numbers, count),
            archive::closed_setup(numbers, &count.to_le_bytes()),
        ] {
            same(
                "the answer to a large number",
                got.answer,
                setup_answer(numbers),
            )
            .and_then(|()| same_state("a setup with a large number", got.state, &State::BLANK))
            .map_err(|found| found.given("setup", format_args!("{numbers:?}, count {count}")))?;
        }
        Ok(())
    }

    /// The day file of a setup with one number or more above 255: nothing is
    /// written.
    pub fn large_write(&mut self, setup: Setup, events: &[u8]) -> Check {
        let numbers = enlarged(&mut self.rng, setup);
        let room = self.rng.below(2 * (EVENTS_AT + events.len()));
        let mut out = Lent::new(room, self.rng.byte());
        let lent = out.clone();
        let got = archive::write_file(numbers, events, out.lend());
        self.tally.large_writes += 1;
        same(
            "the answer to a large number, and the size",
            (got.answer, got.size),
            (setup_answer(numbers), 0),
        )
        .and_then(|()| out.same("a file with a large number", &lent))
        .map_err(|found| {
            found
                .given("setup", format_args!("{numbers:?}"))
                .given_figures("events", events)
                .given("bytes lent for the file", room)
        })
    }

    /// An event with a large process, a large kind or both, on any state.
    pub fn large_event(&mut self, state: &State) -> Check {
        let kind = self.rng.below(3) as u32;
        let process = large(&mut self.rng);
        let lent = of(state);
        let by_kind = [archive::request, archive::step, archive::release][kind as usize];
        self.refused(state, kind, process, by_kind(lent, process))?;
        self.refused(state, kind, process, archive::event(lent, kind, process))?;
        let kind = large(&mut self.rng);
        let process = match self.rng.below(4) {
            0 => process,
            _ => self.rng.byte_below(64).into(),
        };
        self.refused(state, kind, process, archive::event(lent, kind, process))
    }

    /// The answer is the right number, and the state as it was.
    fn refused(&mut self, state: &State, kind: u32, process: u32, got: Done) -> Check {
        self.tally.large_events += 1;
        let expected = event_answer(state, kind);
        same("the answer to a large number", got.answer, expected)
            .and_then(|()| same_state("an event with a large number", got.state, state))
            .map_err(|found| {
                found
                    .given("kind and process", format_args!("{kind} {process}"))
                    .given_figures("state", &state.to_image())
            })
    }
}
