//! Day files written to lent buffers, read again and written back.

use simulator::day_file::{lay_out, EVENTS_AT};
use simulator::write_day_file;

use super::difference::{first_difference, same, same_state, Check, Difference};
use super::lent::Lent;
use super::Differ;
use crate::archive::{self, Part};
use crate::lists::{any_setup, fresh, Setup};

/// Bytes of lists about the longest that a file holds, which has 32,740.
const LIMITS: [usize; 4] = [32_740, 32_741, 32_742, 32_743];
/// Bytes of lists far above it.
const MEGABYTES: [usize; 2] = [1_048_576, 1_048_577];
/// Bytes kept of a list for calls that are refused.
const FEW: usize = 80;
/// Its file can be written.
const ACCEPTED: Setup = [64, 16, 2, 2];

/// A day file in a lent buffer: the answer, if it, the size and every byte
/// are the same and the file can be read again.
fn written(setup: Setup, events: &[u8], mut out: Lent) -> Result<u8, Difference> {
    let mut expected = out.clone();
    let (answer, size) = match write_day_file(setup, events, expected.lend()) {
        Ok(size) => (0, size),
        Err(number) => (number, 0),
    };
    let got = archive::write_file(setup.map(u32::from), events, out.lend());
    let what = "the answer to a write, and the file's size";
    same(what, (got.answer, got.size), (answer, size))?;
    out.same("the written file", &expected)?;
    if answer == 0 {
        read_again(setup, events, &out.lend()[..size])?;
    }
    Ok(answer)
}

/// A written file is read as the same setup and the same events.
fn read_again(setup: Setup, events: &[u8], file: &[u8]) -> Check {
    let got = archive::read_setup(file);
    same("the answer to the written file", got.answer, 0)?;
    same_state("the written file's setup", got.state, &fresh(setup))?;
    let part = archive::read_events(file);
    let right = Part {
        offset: EVENTS_AT,
        size: events.len(),
    };
    same("the written file's events", part, right)?;
    let read = &file[part.offset..part.offset + part.size];
    if read == events {
        return Ok(());
    }
    let at = first_difference(read, events);
    let what = format_args!("byte {at} of the written file's events");
    same(what, read[at], events[at])
}

/// An accepted file, written out from what was read of it, is that file.
fn written_back(read: archive::Setup, file: &[u8], mut out: Lent) -> Check {
    let part = archive::read_events(file);
    let events = &file[part.offset..part.offset + part.size];
    let setup = read.numbers().map(u32::from);
    let mut expected = out.clone();
    expected.lend()[..file.len()].copy_from_slice(file);
    let got = archive::write_file(setup, events, out.lend());
    let what = "the answer to writing a file back, and the file's size";
    same(what, (got.answer, got.size), (0, file.len()))?;
    out.same("the file written back", &expected)
}

impl Differ {
    /// The day file of a setup with its list, and calls that are refused.
    pub fn writes(&mut self, setup: Setup, events: &[u8]) -> Check {
        self.write(setup, events)?;
        let few = &events[..events.len().min(FEW)];
        let odd = [few, &[self.rng.byte()]].concat();
        self.write(setup, &odd)?;
        let other = any_setup(&mut self.rng);
        let list = [few, &odd][self.rng.below(2)];
        self.write(other, list)?;
        self.large_write(setup, few)?;
        self.large_write(other, list)?;
        if self.rng.chance(1, 16) {
            let length = LIMITS[self.rng.below(LIMITS.len())];
            self.long_write(setup, length)?;
        }
        Ok(())
    }

    /// Lists about the limit and far above it, by an accepted setup and any
    /// other.
    pub fn long_writes(&mut self) -> Check {
        for length in LIMITS.into_iter().chain(MEGABYTES) {
            self.long_write(ACCEPTED, length)?;
            let other = any_setup(&mut self.rng);
            self.long_write(other, length)?;
        }
        Ok(())
    }

    /// A list of as many bytes, all of them random.
    fn long_write(&mut self, setup: Setup, length: usize) -> Check {
        let events: Vec<u8> = (0..length).map(|_| self.rng.byte()).collect();
        self.write(setup, &events)
    }

    /// A day file in buffers just long enough, one byte short, with bytes to
    /// spare, of any length below and of none.
    fn write(&mut self, setup: Setup, events: &[u8]) -> Check {
        let size = EVENTS_AT + events.len();
        let spare = size + 1 + self.rng.below(40);
        let below = self.rng.below(size);
        for room in [size, size - 1, spare, below, 0] {
            let out = Lent::new(room, self.rng.byte());
            let answer = written(setup, events, out).map_err(|found| {
                found
                    .given_figures("setup", &setup)
                    .given("bytes of the list", events.len())
                    .given("bytes lent for the file", room)
                    .replay(lay_out(setup, events))
            })?;
            self.tally.add_write(answer);
        }
        Ok(())
    }

    /// The same file again, if it is accepted, in a buffer of its length or
    /// with bytes to spare.
    pub fn write_back(&mut self, file: &[u8]) -> Check {
        let read = archive::read_setup(file);
        if read.answer != 0 {
            return Ok(());
        }
        self.tally.written_back += 1;
        let spare = [0, 1, 3, 64][self.rng.below(4)];
        let out = Lent::new(file.len() + spare, self.rng.byte());
        written_back(read.state.setup, file, out)
            .map_err(|found| found.given("bytes to spare", spare))
    }
}
