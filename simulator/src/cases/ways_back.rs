//! Whole rounds by every way back: all names are taken, so that each leaf is
//! left by its own levels to the left and to the right. In a second round
//! every cost begins again.

use super::schedule::{natural_kind, ListMaker, Schedule};
use super::special::{everybody, race, release_all, request_all, shuffled};
use super::Case;
use crate::day_file::lay_out;
use crate::machine::kind::{RELEASE, REQUEST};
use crate::random::Random;
use crate::state::stage;

/// For each number of leaves, as many processes as names, and a few more.
pub const SETUPS: [[u8; 4]; 10] = [
    [2, 1, 2, 1],
    [4, 2, 2, 1],
    [8, 4, 2, 1],
    [16, 8, 2, 1],
    [32, 16, 2, 1],
    [3, 1, 1, 1],
    [6, 2, 1, 2],
    [10, 4, 1, 2],
    [10, 8, 1, 1],
    [18, 16, 1, 1],
];

pub(crate) fn maker(rng: &mut Random, setup: [u8; 4]) -> ListMaker<'_> {
    ListMaker::new(rng, setup, everybody(Schedule::Uniform, 0))
}

/// From its request on until the process holds a name or waits.
pub(crate) fn claim(maker: &mut ListMaker, process: u8) {
    maker.push_natural(process);
    while matches!(maker.stage(process), stage::ENTRY | stage::GETNAME) {
        maker.push_natural(process);
    }
}

/// One process after the other, so that the names are taken in their order.
pub(crate) fn claim_all(maker: &mut ListMaker) {
    for process in 0..maker.state.n {
        claim(maker, process);
    }
}

/// One that holds a name releases it and goes all the way back. After each
/// event `then` is called.
pub(crate) fn go_back(maker: &mut ListMaker, process: u8, then: impl Fn(&mut ListMaker)) {
    maker.push_natural(process);
    while maker.stage(process) == stage::PUTNAME {
        then(maker);
        maker.push_natural(process);
    }
    then(maker);
}

/// An event that the stage refuses, which shows the cost and leaves it.
fn refused_press(maker: &mut ListMaker, process: u8) {
    let natural = natural_kind(maker.stage(process));
    let mut kinds: Vec<u8> = (REQUEST..=RELEASE).collect();
    kinds.retain(|&kind| kind != natural);
    let kind = kinds[maker.rng.below(kinds.len())];
    maker.push(kind, process);
}

/// All claim; those that hold a name go back one after the other; then all
/// go round again at once.
fn list(rng: &mut Random, setup: [u8; 4]) -> Vec<u8> {
    let mut maker = maker(rng, setup);
    claim_all(&mut maker);
    for process in shuffled(&mut maker) {
        if maker.stage(process) == stage::WORKING {
            go_back(&mut maker, process, |maker| refused_press(maker, process));
        }
    }
    request_all(&mut maker);
    race(&mut maker);
    for _ in 0..2 {
        release_all(&mut maker);
        race(&mut maker);
    }
    maker.events
}

pub fn cases(rng: &mut Random) -> Vec<Case> {
    SETUPS
        .iter()
        .map(|&setup| Case::new("back", lay_out(setup, &list(rng, setup))))
        .collect()
}
