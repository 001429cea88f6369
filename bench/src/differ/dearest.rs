//! The dearest claim's list: the call beside the paper's figure, and its list
//! run by both sides.

use simulator::cases::shapes;
use simulator::dearest::{dearest_holder, given, LIST_BYTES};

use super::difference::{same, Check, Difference};
use super::large::{enlarged, setup_answer};
use super::lent::Lent;
use super::Differ;
use crate::archive;
use crate::lists::{any_setup, fresh, Setup};

/// The list that the call made, none if it was refused, once its answer and
/// figure are right and every byte past the list is as it was lent.
fn made(setup: Setup, room: usize, salt: u8) -> Result<Vec<u8>, Difference> {
    let mut out = Lent::new(room, salt);
    let mut expected = out.clone();
    let right = given(setup, room);
    let got = archive::dearest_list(setup.map(u32::from), out.lend());
    let what = "the answer to the dearest list, and its figure";
    same(what, (got.answer, got.figure), (right.answer, right.figure))?;
    if got.answer != 0 {
        same("the size of a refused list", got.size, 0)?;
    }
    let fits = got.size <= LIST_BYTES && got.size.is_multiple_of(2);
    same("whether the list is even and short enough", fits, true)?;
    let list = out.lend()[..got.size].to_vec();
    expected.lend()[..got.size].copy_from_slice(&list);
    out.same("past the dearest list", &expected)?;
    Ok(list)
}

impl Differ {
    /// Every accepted setup.
    pub fn dearest_lists(&mut self) -> Check {
        for [l, g, b] in shapes::triples() {
            for n in 1..=64 {
                let spare = self.rng.below(40);
                self.dearest([n, l, g, b], LIST_BYTES + spare)?;
            }
        }
        Ok(())
    }

    /// A setup of a round, with bytes about the least; any other setup, with
    /// any number of bytes; and numbers above 255.
    pub fn dearest_calls(&mut self, setup: Setup) -> Check {
        let about = LIST_BYTES - 2 + self.rng.below(4);
        self.dearest(setup, about)?;
        let other = any_setup(&mut self.rng);
        let any = self.rng.below(2 * LIST_BYTES);
        self.dearest(other, any)?;
        self.dearest(other, LIST_BYTES)?;
        self.large_dearest(setup, any)
    }

    /// The call; and, accepted, its list run by both sides, of which no event
    /// is refused and whose dearest holder has the figure.
    fn dearest(&mut self, setup: Setup, room: usize) -> Check {
        let salt = self.rng.byte();
        let with = |found: Difference| {
            let found = found.given_figures("setup", &setup);
            found.given("bytes lent for the list", room)
        };
        let list = made(setup, room, salt).map_err(with)?;
        let right = given(setup, room);
        self.tally.add_dearest(right.answer);
        if right.answer != 0 {
            return Ok(());
        }
        let refused = self.tally.refused_events();
        let after = self.list_of(&fresh(setup), &list)?;
        let refused = self.tally.refused_events() - refused;
        same(
            "how many events of the dearest list are refused",
            refused,
            0,
        )
        .and_then(|()| same("the dearest holder", dearest_holder(&after), right.figure))
        .map_err(with)
    }

    /// A setup with one number or more above 255: nothing is written.
    fn large_dearest(&mut self, setup: Setup, room: usize) -> Check {
        let numbers = enlarged(&mut self.rng, setup);
        let mut out = Lent::new(room, self.rng.byte());
        let lent = out.clone();
        let got = archive::dearest_list(numbers, out.lend());
        self.tally.large_dearest += 1;
        same(
            "the answer to a large number, the figure and the size",
            (got.answer, got.figure, got.size),
            (setup_answer(numbers), 0, 0),
        )
        .and_then(|()| out.same("a list with a large number", &lent))
        .map_err(|found| {
            found
                .given("setup", format_args!("{numbers:?}"))
                .given("bytes lent for the list", room)
        })
    }
}
