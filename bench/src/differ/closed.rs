//! Setups that close names, and what follows them.

use simulator::calls::closed::{random_closed, MOST_CLOSED};
use simulator::cases::shapes;
use simulator::random::Random;
use simulator::State;

use super::difference::{same, same_state, Check, Difference};
use super::Differ;
use crate::archive;
use crate::lists::{self, any_setup, Setup};

/// Names in a row of which every set of closed ones is tried.
const ROW: u8 = 8;
/// Names in lists about and above what 8, 16 and 20 bits count.
const LENGTHS: [usize; 7] = [255, 256, 257, 65_535, 65_536, 65_537, 1_048_577];
/// It has 60 names.
const LONG: Setup = [20, 2, 5, 6];

/// The number of names, or the nearest that a setup can have.
fn names([_, l, g, b]: Setup) -> u8 {
    let product = usize::from(l) * usize::from(g) * usize::from(b);
    product.clamp(1, 64) as u8
}

/// A list that a setup with k names accepts, or one with a number that is not
/// below k, with every name, with both, longer than it need be, or of any
/// bytes.
fn any_list(rng: &mut Random, k: u8) -> Vec<u8> {
    let mut list = random_closed(rng, k);
    let choice = rng.below(8);
    if choice == 0 {
        return (0..rng.below(80)).map(|_| rng.byte()).collect();
    }
    if choice < 3 {
        list.extend(0..k);
        rng.shuffle(&mut list);
    }
    if choice == 2 || choice == 3 {
        let past = [k, k.saturating_add(1), 64, 128, 255, rng.between(k, 255)];
        list.insert(rng.below(list.len() + 1), past[rng.below(past.len())]);
    }
    if choice == 4 {
        let length = list.len() + rng.below(MOST_CLOSED);
        list = list.iter().copied().cycle().take(length).collect();
    }
    list
}

/// Whether a name is named twice.
fn doubled(list: &[u8]) -> bool {
    let mut names = list.to_vec();
    names.sort_unstable();
    names.windows(2).any(|pair| pair[0] == pair[1])
}

impl Differ {
    /// The setup with a list of closed names: its fresh state, or the blank
    /// one if it is refused.
    pub fn closed_setup(&mut self, setup: Setup, list: &[u8]) -> Result<State, Difference> {
        let [n, l, g, b] = setup;
        let (answer, state) = match State::closed_setup(n, l, g, b, list) {
            Ok(state) => (0, state),
            Err(number) => (number, State::BLANK),
        };
        let got = archive::closed_setup(setup.map(u32::from), list);
        self.tally.add_closed_setup(answer, state.closed != 0);
        if answer == 0 {
            self.tally.none_closed += u64::from(list.is_empty());
            self.tally.doubled += u64::from(doubled(list));
            self.tally.longer += u64::from(list.len() > usize::from(names(setup)));
        }
        same("the answer to closed names", got.answer, answer)
            .and_then(|()| same_state("setup with closed names", got.state, &state))
            .map_err(|found| {
                let first = &list[..list.len().min(MOST_CLOSED)];
                found
                    .given_figures("setup", &setup)
                    .given("bytes of the list of closed names", list.len())
                    .given_figures("its first bytes", first)
            })?;
        Ok(state)
    }

    /// Every set of closed names of every shape with few, the same set again
    /// and again where there are more; and long lists.
    pub fn closed_setups(&mut self) -> Check {
        for shape in shapes::triples() {
            let setup = lists::setup(&mut self.rng, shape);
            let k = names(setup);
            for set in 0..1_u32 << k.min(ROW) {
                let closed = (0..k).filter(|name| set >> (name % ROW) & 1 == 1);
                let mut list: Vec<u8> = closed.collect();
                self.rng.shuffle(&mut list);
                self.closed_setup(setup, &list)?;
            }
        }
        for length in LENGTHS {
            self.long_list(length)?;
        }
        Ok(())
    }

    /// Lists of as many bytes, the last of which is named before, closes one
    /// more name, the last open one among them, or is not below k.
    fn long_list(&mut self, length: usize) -> Check {
        let k = names(LONG);
        let mut list: Vec<u8> = (1..k).collect();
        list.resize(length, 1);
        for last in [1, 0, k] {
            list[length - 1] = last;
            self.closed_setup(LONG, &list)?;
        }
        list[..usize::from(k)].fill(0);
        for last in [1, k - 1, 255] {
            list[length - 1] = last;
            self.closed_setup(LONG, &list)?;
        }
        Ok(())
    }

    /// A setup of the shape with closed names, its list, and cases made from
    /// both; then any other setups.
    pub fn closed_round(&mut self, shape: [u8; 3]) -> Check {
        let setup = lists::setup(&mut self.rng, shape);
        let list = random_closed(&mut self.rng, names(setup));
        let start = self.closed_setup(setup, &list)?;
        self.state(&start, &start)?;
        let (events, after) = self.list_round(&start)?;
        self.refused_list(&start, &events)?;
        self.hand_made(&after)?;
        self.faults(&after)?;
        for _ in 0..4 {
            let list = any_list(&mut self.rng, names(setup));
            self.closed_setup(setup, &list)?;
        }
        for _ in 0..4 {
            let other = any_setup(&mut self.rng);
            let list = any_list(&mut self.rng, names(other));
            self.closed_setup(other, &list)?;
        }
        Ok(())
    }
}
