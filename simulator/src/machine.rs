//! Events and lists of events.

use crate::answer::{
    ACCEPTED, BROKEN_STATE, BUSY, KIND, NOT_MOVING, NO_NAME_HELD, ODD, SHORT, STRANGER,
};
use crate::operations::{bounded_decrement, clr_bit, set_first_open_zero};
use crate::state::{stage, Process, State, MAX, MOST_COST, NO_NAME};

/// Kinds of event.
pub mod kind {
    /// Document 01: ask.
    pub const REQUEST: u8 = 0;
    /// Document 01: turn.
    pub const STEP: u8 = 1;
    /// Document 01: finish.
    pub const RELEASE: u8 = 2;
}

impl State {
    /// One event; checks the state first.
    pub fn event(&mut self, kind: u8, process: u8) -> u8 {
        if !self.in_range() {
            return BROKEN_STATE;
        }
        self.apply(kind, process)
    }

    /// A list of events with its journal. The state is checked once: no
    /// event leads from a state in range to one outside.
    pub fn run(&mut self, events: &[u8], journal: &mut [u8]) -> u8 {
        if !events.len().is_multiple_of(2) {
            return ODD;
        }
        if journal.len() / 4 < events.len() / 2 {
            return SHORT;
        }
        if !self.in_range() {
            return BROKEN_STATE;
        }
        for (event, entry) in events.chunks_exact(2).zip(journal.chunks_exact_mut(4)) {
            let answer = self.apply(event[0], event[1]);
            entry.copy_from_slice(&self.journal_entry(answer, event[1]));
        }
        ACCEPTED
    }

    /// Answer, stage, name and cost; for answers 12, 6 and 15 the last three
    /// are 255.
    #[inline]
    fn journal_entry(&self, answer: u8, process: u8) -> [u8; 4] {
        if matches!(answer, KIND | STRANGER | BROKEN_STATE) {
            return [answer, 255, 255, 255];
        }
        let p = &self.processes[usize::from(process)];
        [answer, p.stage, p.name, p.shown_cost()]
    }

    /// One event on a state known to be in range.
    #[inline]
    pub(crate) fn apply(&mut self, kind: u8, process: u8) -> u8 {
        if kind > kind::RELEASE {
            return KIND;
        }
        if process >= self.n {
            return STRANGER;
        }
        match kind {
            kind::REQUEST => self.request(usize::from(process)),
            kind::STEP => self.step(process),
            _ => self.release(usize::from(process)),
        }
    }

    fn request(&mut self, p: usize) -> u8 {
        let process = &mut self.processes[p];
        if process.stage != stage::REMAINDER {
            return BUSY;
        }
        *process = Process {
            stage: stage::ENTRY,
            ..Process::FRESH
        };
        ACCEPTED
    }

    /// Only the stage decides: a process working without a name, which only
    /// a hand-made state has, may release too.
    fn release(&mut self, p: usize) -> u8 {
        let process = &mut self.processes[p];
        if process.stage != stage::WORKING {
            return NO_NAME_HELD;
        }
        process.stage = stage::PUTNAME;
        ACCEPTED
    }

    fn step(&mut self, process: u8) -> u8 {
        let p = usize::from(process);
        match self.processes[p].stage {
            stage::REMAINDER | stage::WORKING => NOT_MOVING,
            stage::ENTRY => self.step_entry(process),
            stage::WAITING => self.step_waiting(process),
            stage::GETNAME => self.step_getname(p),
            stage::PUTNAME => self.step_putname(p),
            stage::EXHAUSTED => ACCEPTED,
            _ => BROKEN_STATE,
        }
    }

    /// The queue's limit matters only to a process that would join it.
    fn step_entry(&mut self, process: u8) -> u8 {
        let len = usize::from(self.queue_len);
        if self.gate <= -64 || (self.gate <= 0 && len >= MAX) {
            return BROKEN_STATE;
        }
        if self.gate > 0 {
            self.processes[usize::from(process)].stage = stage::GETNAME;
        } else {
            self.queue[len] = process;
            self.queue_len += 1;
            self.processes[usize::from(process)].stage = stage::WAITING;
        }
        self.gate -= 1;
        ACCEPTED
    }

    fn step_waiting(&mut self, process: u8) -> u8 {
        if !self.queued(process) {
            self.processes[usize::from(process)].stage = stage::GETNAME;
        }
        ACCEPTED
    }

    /// Every getname step raises the steps, so each is refused where the
    /// cost is the highest.
    fn step_getname(&mut self, p: usize) -> u8 {
        let process = &mut self.processes[p];
        if process.cost() >= MOST_COST {
            return BROKEN_STATE;
        }
        process.steps += 1;
        if process.node < self.l {
            let counter = &mut self.counters[usize::from(process.node)];
            let right = u8::from(bounded_decrement(counter) == 0);
            process.node = 2 * process.node + right;
        } else {
            self.probe_segment(p);
        }
        ACCEPTED
    }

    /// Tries the open bits of the process's segment. A process that fails
    /// keeps the name of its record, which is 255 unless the state is
    /// hand-made.
    fn probe_segment(&mut self, p: usize) {
        let Process { node, segment, .. } = self.processes[p];
        let r = (node - self.l) * self.g + segment;
        let closed = self.closed_bits(r);
        let m = set_first_open_zero(&mut self.segments[usize::from(r)], closed, self.b);
        let process = &mut self.processes[p];
        if m < self.b {
            process.name = r * self.b + m;
            process.stage = stage::WORKING;
        } else if process.segment + 1 < self.g {
            process.segment += 1;
        } else {
            process.stage = stage::EXHAUSTED;
        }
    }

    fn step_putname(&mut self, p: usize) -> u8 {
        let process = &self.processes[p];
        if process.name != NO_NAME {
            self.clear_name(p)
        } else if process.node == 1 {
            self.leave_gate(p)
        } else if process.node.is_multiple_of(2) {
            self.climb_from_left(p)
        } else {
            self.processes[p].node /= 2;
            ACCEPTED
        }
    }

    /// Clears the name's bit, which counts as a return.
    fn clear_name(&mut self, p: usize) -> u8 {
        let process = &mut self.processes[p];
        if process.cost() >= MOST_COST {
            return BROKEN_STATE;
        }
        let word = &mut self.segments[usize::from(process.name / self.b)];
        clr_bit(word, process.name % self.b);
        process.name = NO_NAME;
        process.returns += 1;
        ACCEPTED
    }

    /// Goes up one level and gives the counter back, which counts as a
    /// return. A level left by the right gives nothing back and does not
    /// count.
    fn climb_from_left(&mut self, p: usize) -> u8 {
        let parent = usize::from(self.processes[p].node / 2);
        let highest = self.fresh_counter(parent);
        let process = &mut self.processes[p];
        if process.cost() >= MOST_COST || self.counters[parent] >= highest {
            return BROKEN_STATE;
        }
        self.counters[parent] += 1;
        process.node /= 2;
        process.returns += 1;
        ACCEPTED
    }

    /// Lets the queue's head in and goes back to the remainder. The gate
    /// rises up to the number of open names; it does not count, and the cost
    /// is kept.
    fn leave_gate(&mut self, p: usize) -> u8 {
        if self.gate >= self.open_names() as i8 {
            return BROKEN_STATE;
        }
        let len = usize::from(self.queue_len);
        if len > 0 {
            self.queue.copy_within(1..len, 0);
            self.queue[len - 1] = 0;
            self.queue_len -= 1;
        }
        self.gate += 1;
        let process = &mut self.processes[p];
        process.stage = stage::REMAINDER;
        process.segment = 0;
        ACCEPTED
    }
}
