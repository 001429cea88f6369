//! The setup's second form, and calls on the states of smaller counts.

use simulator::random::Random;
use simulator::State;

use super::difference::{same, same_state, Check};
use super::Differ;
use crate::archive;
use crate::lists::Setup;

/// A count about the setup's counters, or of any size.
fn count(rng: &mut Random, l: u8) -> u64 {
    match rng.below(4) {
        0 => rng.draw() >> rng.below(64),
        1 => (rng.draw() << rng.below(64)).wrapping_add(u64::from(rng.byte_below(18))),
        _ => rng.below(usize::from(l) + 2) as u64,
    }
}

impl Differ {
    /// A setup with a count. The state of a smaller one is given to every
    /// other call.
    pub fn partial_setup(&mut self, setup: Setup) -> Check {
        let [n, l, g, b] = setup;
        let count = count(&mut self.rng, l);
        let (answer, state) = match State::partial_setup(n, l, g, b, count) {
            Ok(state) => (0, state),
            Err(number) => (number, State::BLANK),
        };
        let got = archive::partial_setup(setup.map(u32::from), count);
        self.tally.partial_setups += 1;
        self.tally.refused_partial += u64::from(answer != 0);
        same("the answer to a count", got.answer, answer)
            .and_then(|()| same_state("setup with a count", got.state, &state))
            .map_err(|found| found.given_figures("setup", &setup).given("count", count))?;
        if answer == 0 && count + 1 < u64::from(l) {
            self.tally.smaller_counts += 1;
            self.state(&state, &state)?;
        }
        Ok(())
    }
}
