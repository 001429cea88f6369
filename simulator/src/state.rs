//! The machine's state and its setup.

use crate::answer;

/// Most processes, names, segments and queue places.
pub const MAX: usize = 64;
/// Places for counters; node v stands at place v, place 0 is unused.
pub const COUNTERS: usize = 16;
/// The name of a process that has none.
pub const NO_NAME: u8 = 255;
/// The highest cost of a process in range.
pub const MOST_COST: u16 = 255;

/// Stages of a process.
pub mod stage {
    /// Document 01: idle.
    pub const REMAINDER: u8 = 0;
    /// Document 01: asking.
    pub const ENTRY: u8 = 1;
    /// Document 01: waiting.
    pub const WAITING: u8 = 2;
    /// Document 01: claiming.
    pub const GETNAME: u8 = 3;
    /// Document 01: holding.
    pub const WORKING: u8 = 4;
    /// Document 01: returning.
    pub const PUTNAME: u8 = 5;
    /// Document 01: astray.
    pub const EXHAUSTED: u8 = 6;
}

/// One process (document 01: handset).
#[derive(Clone, Copy, PartialEq, Eq, Debug)]
pub struct Process {
    pub stage: u8,
    pub node: u8,
    /// Segment within the leaf (document 01: row).
    pub segment: u8,
    /// Name held, or 255 (document 01: pad).
    pub name: u8,
    /// Getname steps taken (document 01: spent; document 02: claim turns).
    pub steps: u8,
    /// Bits cleared and counters given back since the last request
    /// (document 02, request b: return operations).
    pub returns: u8,
}

impl Process {
    /// Every number 0.
    pub const BLANK: Process = Process {
        stage: 0,
        node: 0,
        segment: 0,
        name: 0,
        steps: 0,
        returns: 0,
    };
    /// As an accepted setup leaves it.
    pub const FRESH: Process = Process {
        stage: stage::REMAINDER,
        node: 1,
        segment: 0,
        name: NO_NAME,
        steps: 0,
        returns: 0,
    };

    /// Steps and returns together, which journal, roll and program show.
    #[inline]
    pub fn cost(&self) -> u16 {
        u16::from(self.steps) + u16::from(self.returns)
    }

    /// The cost as it is shown. Right for processes in range.
    #[inline]
    pub fn shown_cost(&self) -> u8 {
        self.cost() as u8
    }
}

/// The whole state, in the order of its image.
#[derive(Clone, PartialEq, Eq, Debug)]
pub struct State {
    /// Number of processes, N.
    pub n: u8,
    /// Number of leaves, L.
    pub l: u8,
    /// Segments in a leaf, g.
    pub g: u8,
    /// Bits in a segment, b.
    pub b: u8,
    /// Closed names (document 02, request e): bit p is 1 where name p is
    /// closed.
    pub closed: u64,
    /// Gate word A.
    pub gate: i8,
    pub queue_len: u8,
    pub queue: [u8; MAX],
    pub counters: [u8; COUNTERS],
    /// Segment words (document 01: row words).
    pub segments: [u8; MAX],
    pub processes: [Process; MAX],
}

/// Checks the four setup numbers in the document's order and gives k.
pub fn check_setup(n: u8, l: u8, g: u8, b: u8) -> Result<u8, u8> {
    if !(1..=64).contains(&n) {
        return Err(answer::PROCESSES);
    }
    if !matches!(l, 1 | 2 | 4 | 8 | 16) {
        return Err(answer::LEAVES);
    }
    if !(1..=8).contains(&g) {
        return Err(answer::SEGMENTS);
    }
    if !(1..=8).contains(&b) {
        return Err(answer::BITS);
    }
    let k = u16::from(l) * u16::from(g) * u16::from(b);
    if k > 64 {
        return Err(answer::NAMES);
    }
    Ok(k as u8)
}

/// The set of all names below k, which is 1 to 64.
#[inline]
pub fn all_names(k: u8) -> u64 {
    u64::MAX >> (64 - k)
}

/// The set of the names in a list, or the refusal's number. A name named
/// twice is closed once.
fn closed_set(k: u8, list: &[u8]) -> Result<u64, u8> {
    let mut closed = 0;
    for &name in list {
        if name >= k {
            return Err(answer::CLOSED);
        }
        closed |= 1 << name;
    }
    if closed == all_names(k) {
        return Err(answer::NONE_OPEN);
    }
    Ok(closed)
}

impl State {
    /// The blank state, every number 0; every other call refuses it.
    pub const BLANK: State = State {
        n: 0,
        l: 0,
        g: 0,
        b: 0,
        closed: 0,
        gate: 0,
        queue_len: 0,
        queue: [0; MAX],
        counters: [0; COUNTERS],
        segments: [0; MAX],
        processes: [Process::BLANK; MAX],
    };

    /// The fresh state of a setup that closes no name, or the refusal's
    /// number; a refused setup stands for the blank state. No count stops it.
    pub fn setup(n: u8, l: u8, g: u8, b: u8) -> Result<State, u8> {
        State::partial_setup(n, l, g, b, u64::MAX)
    }

    /// The setup's second form, which closes no name, refuses as the setup
    /// does and stops once `count` counters are filled: the others are 0, all
    /// else is fresh.
    pub fn partial_setup(n: u8, l: u8, g: u8, b: u8, count: u64) -> Result<State, u8> {
        check_setup(n, l, g, b)?;
        Ok(State::filled([n, l, g, b], 0, count))
    }

    /// The setup with a list of closed names, one byte each, of any length.
    pub fn closed_setup(n: u8, l: u8, g: u8, b: u8, closed: &[u8]) -> Result<State, u8> {
        let k = check_setup(n, l, g, b)?;
        let closed = closed_set(k, closed)?;
        Ok(State::filled([n, l, g, b], closed, u64::MAX))
    }

    /// The state of four numbers and closed names that are accepted. Segment
    /// words come first, then at most `count` counters, then the rest.
    fn filled([n, l, g, b]: [u8; 4], closed: u64, count: u64) -> State {
        let mut state = State {
            n,
            l,
            g,
            b,
            closed,
            ..State::BLANK
        };
        state.fill_segments();
        state.fill_counters(count);
        state.gate = state.open_names() as i8;
        state.processes[..usize::from(n)].fill(Process::FRESH);
        state
    }

    /// Every segment word in use gets its fresh value.
    fn fill_segments(&mut self) {
        let used = usize::from(self.l) * usize::from(self.g);
        self.segments[..used].fill(0);
    }

    /// Fills counters from node L - 1 up to node 1, at most `count` of them.
    fn fill_counters(&mut self, count: u64) {
        let mut left = count;
        for v in (1..usize::from(self.l)).rev() {
            if left == 0 {
                return;
            }
            self.counters[v] = self.fresh_counter(v);
            left -= 1;
        }
    }

    /// Number of names, k (document 01: pads). Right for accepted setups.
    #[inline]
    pub fn names(&self) -> u8 {
        self.l.wrapping_mul(self.g).wrapping_mul(self.b)
    }

    /// Number of names that are not closed. Right where none is closed from
    /// k on.
    #[inline]
    pub fn open_names(&self) -> u8 {
        self.names().wrapping_sub(self.closed.count_ones() as u8)
    }

    /// Whether the name, which is below 64, is closed.
    #[inline]
    pub fn is_closed(&self, name: u8) -> bool {
        self.closed.wrapping_shr(u32::from(name)) & 1 == 1
    }

    /// The closed bits of segment r from bit 0 on; those from b on belong to
    /// the segments after it. Right for segments in use.
    #[inline]
    pub fn closed_bits(&self, r: u8) -> u8 {
        let first = u32::from(r.wrapping_mul(self.b));
        self.closed.wrapping_shr(first) as u8
    }

    /// Fresh value of node v's counter and its upper limit: the open names
    /// below its left child. Right for nodes with a counter.
    #[inline]
    pub fn fresh_counter(&self, v: usize) -> u8 {
        let depth = v.max(1).ilog2();
        let width = u32::from(self.names()).wrapping_shr(depth);
        let first = (v as u32 ^ 1 << depth).wrapping_mul(width);
        let below = (1_u64.wrapping_shl(width / 2)).wrapping_sub(1);
        let open = !self.closed.wrapping_shr(first) & below;
        open.count_ones() as u8
    }

    /// Whether the process stands in the queue.
    #[inline]
    pub fn queued(&self, process: u8) -> bool {
        let len = usize::from(self.queue_len).min(MAX);
        self.queue[..len].contains(&process)
    }
}
