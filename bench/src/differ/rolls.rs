//! The roll: status records in a lent list.

use simulator::State;

use super::difference::{same, Check};
use super::runs::of;
use super::Differ;
use crate::archive;

/// Records past the lent ones that must stay as they are.
const GUARD: usize = 4;
/// What a record holds beforehand.
const UNTOUCHED: u8 = 170;

/// The archive's answer, and all records after the call.
fn got(state: &State, room: usize) -> (u8, Vec<[u8; 3]>) {
    let untouched = archive::Status {
        stage: UNTOUCHED,
        name: UNTOUCHED,
        figure: UNTOUCHED,
    };
    let mut records = vec![untouched; room + GUARD];
    let answer = archive::fill_status(of(state), &mut records[..room]);
    let bytes = records.iter().map(|r| [r.stage, r.name, r.figure]);
    (answer, bytes.collect())
}

/// The simulator's.
fn expected(state: &State, room: usize) -> (u8, Vec<[u8; 3]>) {
    let untouched = simulator::Status {
        stage: UNTOUCHED,
        name: UNTOUCHED,
        cost: UNTOUCHED,
    };
    let mut records = vec![untouched; room + GUARD];
    let answer = state.fill_roll(&mut records[..room]);
    let bytes = records.iter().map(|r| [r.stage, r.name, r.cost]);
    (answer, bytes.collect())
}

impl Differ {
    /// The roll with as many records as there are processes, one fewer, one
    /// more, or any number.
    pub fn roll(&mut self, state: &State) -> Check {
        let n = usize::from(state.n);
        let room = match self.rng.below(5) {
            0 => n.saturating_sub(1),
            1 => n + 1,
            2 => self.rng.below(80),
            _ => n,
        };
        self.tally.rolls += 1;
        same("the roll", got(state, room), expected(state, room)).map_err(|found| {
            found
                .given_figures("state", &state.to_image())
                .given("records", room)
        })
    }
}
