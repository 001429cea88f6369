//! Compares the archive's calls with the simulator's.

mod claim;
mod closed;
mod counts;
mod dearest;
mod difference;
mod faults;
mod files;
mod large;
mod lent;
mod rolls;
mod runs;
mod states;
mod tally;
mod writes;

use simulator::cases::{self, shapes};
use simulator::random::Random;
use simulator::State;

use crate::{archive, lists};
use difference::{same, same_state, Check, Difference};
use lists::{fresh, Setup};
use tally::Tally;

/// Events of the longest list that is run one event at a time, too.
const SHORT_LIST: usize = 400;
/// Fixed and random day files that come first.
const FIRST_FILES: usize = 400;

struct Differ {
    rng: Random,
    tally: Tally,
}

/// Compares until the lists have that many events, or a difference is found.
fn compare(seed: u64, events: u64) -> Result<Tally, Difference> {
    let mut differ = Differ {
        rng: Random::new(seed),
        tally: Tally::default(),
    };
    let shapes = shapes::triples();
    // A difference in these shows in a day file.
    for shape in &shapes {
        differ.open_round(*shape)?;
    }
    for case in cases::all(seed, FIRST_FILES) {
        differ.file(&case.file)?;
    }
    differ.long_writes()?;
    differ.dearest_lists()?;
    differ.closed_setups()?;
    for shape in shapes.into_iter().cycle() {
        if differ.tally.list_events >= events {
            break;
        }
        differ.round(shape)?;
        differ.closed_round(shape)?;
    }
    Ok(differ.tally)
}

/// The whole test; whether all agree and nothing was left out.
pub fn run(seed: u64, events: u64) -> std::io::Result<bool> {
    match compare(seed, events) {
        Ok(tally) => {
            print!("{tally}");
            Ok(tally.missing().is_empty())
        }
        Err(difference) => {
            println!("seed: {seed}");
            difference.show()?;
            Ok(false)
        }
    }
}

impl Differ {
    /// A list from a fresh state, and the state after it.
    fn list_round(&mut self, start: &State) -> Result<(Vec<u8>, State), Difference> {
        let count = lists::count(&mut self.rng);
        let events = lists::any(&mut self.rng, start, count);
        let after = self.list_of(start, &events)?;
        if count <= SHORT_LIST {
            self.chain(start, &events)?;
        }
        Ok((events, after))
    }

    /// One setup of the shape with its list, and the state after it.
    fn open_round(&mut self, shape: [u8; 3]) -> Result<(Setup, Vec<u8>, State), Difference> {
        let setup = lists::setup(&mut self.rng, shape);
        self.setup(setup)?;
        let (events, after) = self.list_round(&fresh(setup))?;
        Ok((setup, events, after))
    }

    /// The same, and cases made from it.
    fn round(&mut self, shape: [u8; 3]) -> Check {
        let (setup, events, after) = self.open_round(shape)?;
        self.refused_list(&fresh(setup), &events)?;
        self.hand_made(&after)?;
        if events.len() <= 2 * SHORT_LIST || self.rng.chance(1, 4) {
            self.files(setup, &events)?;
        }
        self.writes(setup, &events)?;
        self.dearest_calls(setup)?;
        for _ in 0..4 {
            self.partial_setup(setup)?;
        }
        for _ in 0..8 {
            let setup = lists::any_setup(&mut self.rng);
            self.setup(setup)?;
            self.partial_setup(setup)?;
            self.large_setup(setup)?;
        }
        Ok(())
    }

    /// The fresh state, or the number and the blank state.
    fn setup(&mut self, setup: Setup) -> Check {
        let [n, l, g, b] = setup;
        let (answer, state) = match State::setup(n, l, g, b) {
            Ok(state) => (0, state),
            Err(number) => (number, State::BLANK),
        };
        let [n, l, g, b] = setup.map(u32::from);
        let got = archive::setup(n, l, g, b);
        self.tally.setups += 1;
        self.tally.refused_setups += u64::from(answer != 0);
        same("the setup's answer", got.answer, answer)
            .and_then(|()| same_state("setup", got.state, &state))
            .map_err(|difference| difference.given_figures("setup", &setup))
    }
}
