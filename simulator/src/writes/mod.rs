//! Day files written into lent buffers of all lengths.
//!
//! A record of `writes.in` is N, L, g and b, one byte each; then the bytes
//! of the list, how many of them are stored and the bytes of the buffer, in
//! four bytes each, low byte first; then the stored bytes, with which the
//! list begins. The rest of the list is 0. Its line shows the answer, the
//! file's length and the digest of the whole buffer.

pub mod chance;
pub mod lists;
pub mod refusals;

use crate::calls::{Records, UNTOUCHED};
use crate::day_file::{write_day_file, EVENTS_AT};
use crate::image::digest;
use crate::random::Random;
use std::io;
use std::path::Path;

/// Most bytes of a list.
pub const MOST_BYTES: usize = 262_144;

/// Most bytes of a buffer.
pub const MOST_ROOM: usize = 65_536;

/// One call.
#[derive(Clone, PartialEq, Eq, Debug)]
pub struct Call {
    pub setup: [u8; 4],
    /// With these the list begins; the rest of it is 0.
    pub stored: Vec<u8>,
    /// Bytes of the whole list.
    pub length: usize,
    /// Bytes of the lent buffer.
    pub room: usize,
}

impl Call {
    /// A list of these bytes. The buffer is as long as the file, or as the
    /// longest buffer where the file would be longer.
    pub fn whole(setup: [u8; 4], events: &[u8]) -> Call {
        Call::padded(setup, events, events.len())
    }

    /// The same with zeros up to a length.
    pub fn padded(setup: [u8; 4], stored: &[u8], length: usize) -> Call {
        Call {
            setup,
            stored: stored.to_vec(),
            length,
            room: (EVENTS_AT + length).min(MOST_ROOM),
        }
    }

    pub fn with_room(mut self, room: usize) -> Call {
        self.room = room;
        self
    }

    /// The record of `writes.in`.
    pub fn record(&self) -> Vec<u8> {
        let mut record = self.setup.to_vec();
        for number in [self.length, self.stored.len(), self.room] {
            record.extend((number as u32).to_le_bytes());
        }
        record.extend(&self.stored);
        record
    }

    /// The line of `writes.out`, without its end.
    pub fn line(&self) -> String {
        let mut events = self.stored.clone();
        events.resize(self.length, 0);
        let mut buffer = vec![UNTOUCHED; self.room];
        let (answer, size) = match write_day_file(self.setup, &events, &mut buffer) {
            Ok(size) => (0, size),
            Err(number) => (number, 0),
        };
        format!("write {answer} {size} {}", digest(&buffer))
    }
}

/// The calls that come first, the same for every seed.
pub fn fixed() -> Vec<Call> {
    let mut calls = refusals::calls();
    calls.extend(lists::calls());
    calls
}

fn add(records: &mut Records, call: &Call) {
    if !records.full() {
        records.push(&call.record(), &call.line());
    }
}

/// The first `count` records of a seed.
pub fn all(seed: u64, count: usize) -> Records {
    let mut rng = Random::new(seed);
    let mut records = Records::new(count);
    for call in fixed() {
        add(&mut records, &call);
    }
    while !records.full() {
        add(&mut records, &chance::call(&mut rng));
    }
    records
}

/// Writes both files into the folder.
pub fn write(seed: u64, count: usize, folder: &Path) -> io::Result<()> {
    all(seed, count).write(folder, "writes")
}
