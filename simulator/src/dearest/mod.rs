//! Document 02, request d: the dearest claim for a setup, and the calls that
//! compare it.
//!
//! A record of `dearest.in` is N, L, g and b, one byte each, and the bytes of
//! the lent buffer in four bytes, low byte first. Its line shows the answer,
//! the figure, the dearest holder's steps once the list has been run, and 0
//! for a buffer in which nothing is amiss.

pub mod setups;

use crate::answer::{ACCEPTED, SMALL_BUFFER};
use crate::calls::Records;
use crate::machine::kind::{REQUEST, STEP};
use crate::state::{check_setup, stage, State};
use std::io;
use std::path::Path;

/// The shortest buffer that may be lent; no list is longer.
pub const LIST_BYTES: usize = 4_096;

/// The last figure of every line.
const NOTHING_AMISS: u8 = 0;

/// What the call of the dearest list gives besides the list.
#[derive(Clone, Copy, PartialEq, Eq, Debug)]
pub struct Given {
    pub answer: u8,
    /// The most steps of one claim; 0 when refused.
    pub figure: u8,
}

/// The answer and the figure for a setup and a lent buffer of `room` bytes.
pub fn given(setup: [u8; 4], room: usize) -> Given {
    let (answer, figure) = match checked(setup, room) {
        Ok(()) => (ACCEPTED, figure(setup)),
        Err(number) => (number, 0),
    };
    Given { answer, figure }
}

/// The setup's checks come first; the buffer's does not look at the list.
fn checked(setup: [u8; 4], room: usize) -> Result<(), u8> {
    let [n, l, g, b] = setup;
    check_setup(n, l, g, b)?;
    if room < LIST_BYTES {
        return Err(SMALL_BUFFER);
    }
    Ok(())
}

/// One step for each level and one for each segment tried. Right for accepted
/// setups.
fn figure(setup: [u8; 4]) -> u8 {
    height(setup) + most_segments(setup)
}

fn height([_, l, ..]: [u8; 4]) -> u8 {
    l.ilog2() as u8
}

/// The most segments that one claim tries: all of a leaf, or one more than
/// the other processes can fill.
fn most_segments([n, _, g, b]: [u8; 4]) -> u8 {
    g.min(1 + (n - 1) / b)
}

/// A list in which the last claim costs the figure; none for a refused setup.
/// Processes claim one after the other and keep their names, so that they
/// all go to leaf 0 and each segment is full before the next is reached.
pub fn list(setup: [u8; 4]) -> Vec<u8> {
    let [n, l, g, b] = setup;
    if check_setup(n, l, g, b).is_err() {
        return Vec::new();
    }
    let others = b * (most_segments(setup) - 1);
    let mut events = Vec::new();
    for process in 0..=others {
        let claim = height(setup) + 1 + process / b;
        events.extend([REQUEST, process]);
        // One step at the gate comes before the claim's.
        events.extend([STEP, process].repeat(1 + usize::from(claim)));
    }
    events
}

/// The most steps among the processes that hold a name; 0 if none does.
pub fn dearest_holder(state: &State) -> u8 {
    let used = state.processes.iter().take(usize::from(state.n));
    let holders = used.filter(|p| p.stage == stage::WORKING);
    holders.map(|p| p.steps).max().unwrap_or(0)
}

/// The dearest holder once the list has been run from the fresh setup.
fn holder_after_list(setup: [u8; 4]) -> u8 {
    let [n, l, g, b] = setup;
    let mut state = State::setup(n, l, g, b).unwrap_or(State::BLANK);
    let events = list(setup);
    state.run(&events, &mut vec![0; 2 * events.len()]);
    dearest_holder(&state)
}

/// One call.
#[derive(Clone, Copy, PartialEq, Eq, Debug)]
pub struct Call {
    pub setup: [u8; 4],
    /// Bytes of the lent buffer.
    pub room: usize,
}

impl Call {
    /// The record of `dearest.in`.
    pub fn record(&self) -> Vec<u8> {
        let room = (self.room as u32).to_le_bytes();
        [self.setup, room].concat()
    }

    /// The line of `dearest.out`, without its end.
    pub fn line(&self) -> String {
        let Given { answer, figure } = given(self.setup, self.room);
        let holder = match answer {
            ACCEPTED => holder_after_list(self.setup),
            _ => 0,
        };
        format!("dearest {answer} {figure} {holder} {NOTHING_AMISS}")
    }
}

/// All records.
pub fn all() -> Records {
    let mut records = Records::new(usize::MAX);
    for call in setups::calls() {
        records.push(&call.record(), &call.line());
    }
    records
}

/// Writes both files into the folder.
pub fn write(folder: &Path) -> io::Result<()> {
    all().write(folder, "dearest")
}
