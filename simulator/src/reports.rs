//! The gate report and the status records.

use crate::answer::{ACCEPTED, BROKEN_STATE, SHORT};
use crate::state::State;

/// What the gate report gives; a refused one has both figures 0.
#[derive(Clone, Copy, PartialEq, Eq, Debug)]
pub struct GateReport {
    pub answer: u8,
    /// Names still open at the gate.
    pub open: u8,
    /// Processes queued, by the gate word.
    pub queued: u8,
}

/// Status record of one process (document 01: a record of the roll).
#[derive(Clone, Copy, PartialEq, Eq, Debug)]
pub struct Status {
    pub stage: u8,
    pub name: u8,
    /// Steps and returns together.
    pub cost: u8,
}

impl State {
    /// Both figures come from the gate word alone, not from the queue.
    pub fn gate_report(&self) -> GateReport {
        let (answer, gate) = if self.in_range() {
            (ACCEPTED, self.gate)
        } else {
            (BROKEN_STATE, 0)
        };
        GateReport {
            answer,
            open: gate.max(0).unsigned_abs(),
            queued: gate.min(0).unsigned_abs(),
        }
    }

    /// Fills one record for each process; records from N on are untouched.
    pub fn fill_roll(&self, records: &mut [Status]) -> u8 {
        if !self.in_range() {
            return BROKEN_STATE;
        }
        if records.len() < usize::from(self.n) {
            return SHORT;
        }
        let used = &self.processes[..usize::from(self.n)];
        for (record, p) in records.iter_mut().zip(used) {
            *record = Status {
                stage: p.stage,
                name: p.name,
                cost: p.shown_cost(),
            };
        }
        ACCEPTED
    }
}
