//! Hand-made states driven through the calls, partial setups, and setups that
//! close names.

pub mod broken;
pub mod chance;
pub mod closed;
pub mod closed_runs;
pub mod closed_states;
pub mod costs;
pub mod ends;
pub mod orders;
pub mod outside;
pub mod partial;
pub mod partial_runs;
pub mod reached;

use crate::answer::ACCEPTED;
use crate::image::digest;
use crate::random::Random;
use crate::reports::Status;
use crate::state::State;
use std::path::Path;
use std::{fs, io};

/// What a lent journal, roll or buffer holds beforehand.
pub(crate) const UNTOUCHED: u8 = 170;

/// The line of a setup; a refused one gives the blank state.
fn setup_line(word: &str, made: Result<State, u8>) -> String {
    let (answer, made) = match made {
        Ok(made) => (ACCEPTED, made),
        Err(number) => (number, State::BLANK),
    };
    format!("{word} {answer} {}", digest(&made.to_image()))
}

/// Both files as they grow, up to a number of records.
pub struct Records {
    pub input: Vec<u8>,
    pub output: String,
    pub count: usize,
    limit: usize,
}

impl Records {
    pub fn new(limit: usize) -> Records {
        Records {
            input: Vec::new(),
            output: String::new(),
            count: 0,
            limit,
        }
    }

    pub fn full(&self) -> bool {
        self.count >= self.limit
    }

    /// Adds one record unless the limit is reached.
    pub(crate) fn push(&mut self, record: &[u8], line: &str) {
        if self.full() {
            return;
        }
        self.input.extend(record);
        self.output.push_str(line);
        self.output.push('\n');
        self.count += 1;
    }

    /// Adds a call on a state.
    fn add(&mut self, state: &State, call: &[u8], line: &str) {
        self.push(&[&state.to_image(), call].concat(), line);
    }

    pub fn event(&mut self, state: &State, kind: u8, process: u8) {
        let mut after = state.clone();
        let answer = after.event(kind, process);
        let line = format!("event {answer} {}", digest(&after.to_image()));
        self.add(state, &[0, kind, process], &line);
    }

    /// At most 255 event bytes.
    pub fn list(&mut self, state: &State, events: &[u8], journal_len: u8) {
        let mut after = state.clone();
        let mut journal = vec![UNTOUCHED; usize::from(journal_len)];
        let answer = after.run(events, &mut journal);
        let mut line = format!("list {answer} {}", digest(&after.to_image()));
        for byte in journal {
            line.push_str(&format!(" {byte}"));
        }
        let mut call = vec![1, events.len() as u8, journal_len];
        call.extend(events);
        self.add(state, &call, &line);
    }

    pub fn report(&mut self, state: &State) {
        let report = state.gate_report();
        let line = format!("report {} {} {}", report.answer, report.open, report.queued);
        self.add(state, &[2], &line);
    }

    /// The partial setup with the four numbers that the state holds; its
    /// other bytes are not looked at.
    pub fn partial_setup(&mut self, state: &State, count: u64) {
        let made = State::partial_setup(state.n, state.l, state.g, state.b, count);
        let mut call = vec![3];
        call.extend(count.to_le_bytes());
        self.add(state, &call, &setup_line("setup", made));
    }

    /// The setup with the four numbers that the state holds, as above, and a
    /// list of at most 600 closed names.
    pub fn closed_setup(&mut self, state: &State, list: &[u8]) {
        let made = State::closed_setup(state.n, state.l, state.g, state.b, list);
        let mut call = vec![4];
        call.extend((list.len() as u16).to_le_bytes());
        call.extend(list);
        self.add(state, &call, &setup_line("closed", made));
    }

    /// The roll, with `room` lent records, of the state that the list gives
    /// back; the list has an even number of bytes, at most 254, and as much
    /// journal as it needs. The call has no number, since a file of rolls
    /// holds nothing else.
    pub fn roll(&mut self, state: &State, events: &[u8], room: u8) {
        let mut after = state.clone();
        after.run(events, &mut vec![UNTOUCHED; 2 * events.len()]);
        let untouched = Status {
            stage: UNTOUCHED,
            name: UNTOUCHED,
            cost: UNTOUCHED,
        };
        let mut lent = vec![untouched; usize::from(room)];
        let answer = after.fill_roll(&mut lent);
        let mut line = format!("roll {answer}");
        for record in lent {
            line.push_str(&format!(
                " {} {} {}",
                record.stage, record.name, record.cost
            ));
        }
        let call = [&[events.len() as u8], events, &[room]].concat();
        self.add(state, &call, &line);
    }

    /// Writes both files into the folder.
    pub(crate) fn write(&self, folder: &Path, name: &str) -> io::Result<()> {
        fs::create_dir_all(folder)?;
        fs::write(folder.join(format!("{name}.in")), &self.input)?;
        fs::write(folder.join(format!("{name}.out")), &self.output)
    }
}

/// The records that come first.
pub fn fixed(records: &mut Records, rng: &mut Random) {
    broken::add(records, rng);
    ends::add(records, rng);
    outside::add(records);
    orders::add(records, rng);
    costs::add(records, rng);
    partial::add(records, rng);
    partial_runs::add(records, rng);
    closed::add(records, rng);
    closed_runs::add(records, rng);
    closed_states::add(records, rng);
}

/// The first `count` records of a seed.
pub fn all(seed: u64, count: usize) -> Records {
    let mut rng = Random::new(seed);
    let mut records = Records::new(count);
    fixed(&mut records, &mut rng);
    while !records.full() {
        chance::add(&mut records, &mut rng);
    }
    records
}

/// Writes both files into the folder.
pub fn write(seed: u64, count: usize, folder: &Path) -> io::Result<()> {
    all(seed, count).write(folder, "calls")
}
