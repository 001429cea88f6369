//! Document 01's ranges, and those that requests b and e of document 02 add.
//! Places that N, L and g leave unused are not read; the queue is checked in
//! all its places.

use crate::state::{all_names, check_setup, stage, Process, State, MAX, MOST_COST, NO_NAME};

impl State {
    /// Whether every number of the state is within its range.
    pub fn in_range(&self) -> bool {
        let Ok(k) = check_setup(self.n, self.l, self.g, self.b) else {
            return false;
        };
        self.closed_in_range(k)
            && self.gate_in_range()
            && self.queue_in_range()
            && self.counters_in_range()
            && self.segments_in_range()
            && self.processes_in_range(k)
    }

    /// As a setup's list of closed names: none from k on, and one stays open.
    fn closed_in_range(&self, k: u8) -> bool {
        let all = all_names(k);
        self.closed & !all == 0 && self.closed != all
    }

    fn gate_in_range(&self) -> bool {
        (-64..=self.open_names() as i8).contains(&self.gate)
    }

    fn queue_in_range(&self) -> bool {
        let len = usize::from(self.queue_len);
        if len > MAX {
            return false;
        }
        let (queued, past) = self.queue.split_at(len);
        queued.iter().all(|&p| p < self.n) && past.iter().all(|&p| p == 0)
    }

    fn counters_in_range(&self) -> bool {
        (0..self.l.ilog2()).all(|depth| self.level_in_range(depth))
    }

    /// The counters of one depth, each at most the number of open names below
    /// its left child. The names below a node stand side by side.
    fn level_in_range(&self, depth: u32) -> bool {
        let nodes = 1 << depth;
        let width = u32::from(self.names()) >> depth;
        let left = (1_u64 << (width / 2)) - 1;
        let mut open = !self.closed;
        self.counters[nodes..2 * nodes].iter().all(|&counter| {
            let limit = (open & left).count_ones();
            open = open.wrapping_shr(width);
            u32::from(counter) <= limit
        })
    }

    /// A word has no bit from b on and none that is closed.
    fn segments_in_range(&self) -> bool {
        let used = self.l * self.g;
        let past = !(0xFF_u8 >> (8 - self.b));
        let mut words = (0..used).zip(&self.segments);
        words.all(|(r, &word)| word & (past | self.closed_bits(r)) == 0)
    }

    fn processes_in_range(&self, k: u8) -> bool {
        let used = &self.processes[..usize::from(self.n)];
        used.iter().all(|p| self.process_in_range(p, k))
    }

    #[inline]
    fn process_in_range(&self, p: &Process, k: u8) -> bool {
        p.stage <= stage::EXHAUSTED
            && p.node >= 1
            && p.node < 2 * self.l
            && p.segment < self.g
            && self.name_in_range(p.name, k)
            && p.cost() <= MOST_COST
    }

    /// An open name or none.
    #[inline]
    fn name_in_range(&self, name: u8, k: u8) -> bool {
        name == NO_NAME || (name < k && !self.is_closed(name))
    }
}
