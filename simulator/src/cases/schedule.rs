//! Makes lists of events that travel deep, by looking at a simulated state.

use crate::machine::kind;
use crate::random::Random;
use crate::state::{stage, State};

/// Who moves next.
#[derive(Clone, Copy, PartialEq, Eq, Debug)]
pub enum Schedule {
    /// Anybody in the pool.
    Uniform,
    /// Mostly the one that moved last.
    Sticky,
    /// One process seldom moves.
    Starved,
    /// One process moves every second time.
    Favoured,
    /// All move in turn.
    LockStep,
}

pub const SCHEDULES: [Schedule; 5] = [
    Schedule::Uniform,
    Schedule::Sticky,
    Schedule::Starved,
    Schedule::Favoured,
    Schedule::LockStep,
];

/// How a list is made.
pub struct Plan {
    pub schedule: Schedule,
    /// Number of processes that take part.
    pub pool: u8,
    /// Arbitrary events among 64.
    pub noise: usize,
}

pub struct ListMaker<'r> {
    pub rng: &'r mut Random,
    pub state: State,
    pub events: Vec<u8>,
    plan: Plan,
    /// The pool's first process.
    first: usize,
    /// Place in the pool of the starved or favoured process.
    chosen: usize,
    /// Place in the pool of the last one picked.
    last: usize,
    /// Whether workers release soon.
    eager: bool,
}

impl<'r> ListMaker<'r> {
    /// Begins at the fresh state of a setup that must be an accepted one.
    pub fn new(rng: &'r mut Random, setup: [u8; 4], plan: Plan) -> ListMaker<'r> {
        let [n, l, g, b] = setup;
        let state = State::setup(n, l, g, b).expect("an accepted setup");
        ListMaker::from_state(rng, state, plan)
    }

    /// Begins at a state that must be in range.
    pub fn from_state(rng: &'r mut Random, state: State, plan: Plan) -> ListMaker<'r> {
        let pool = plan.pool.clamp(1, state.n);
        let first = rng.below(usize::from(state.n));
        let chosen = rng.below(usize::from(pool));
        ListMaker {
            rng,
            state,
            events: Vec::new(),
            plan: Plan { pool, ..plan },
            first,
            chosen,
            last: 0,
            eager: false,
        }
    }

    pub fn push(&mut self, kind: u8, process: u8) -> u8 {
        self.events.extend([kind, process]);
        self.state.apply(kind, process)
    }

    pub fn stage(&self, process: u8) -> u8 {
        self.state.processes[usize::from(process)].stage
    }

    /// Gives the process the event that its stage accepts.
    pub fn push_natural(&mut self, process: u8) -> u8 {
        self.push(natural_kind(self.stage(process)), process)
    }

    /// Adds `count` events by the plan.
    pub fn lively(&mut self, count: usize) {
        for _ in 0..count {
            if self.rng.chance(1, 40) {
                self.eager = !self.eager;
            }
            if self.rng.chance(self.plan.noise, 64) {
                self.push_arbitrary();
            } else {
                let process = self.choose();
                self.push_natural(process);
            }
        }
    }

    /// The whole pool requests and goes to the gate; workers release soon
    /// afterwards.
    pub fn crowd(&mut self) {
        let pool = usize::from(self.plan.pool);
        let mut order: Vec<usize> = (0..pool).chain(0..pool).collect();
        self.rng.shuffle(&mut order);
        for place in order {
            let process = (self.first + place) % usize::from(self.state.n);
            self.push_natural(process as u8);
        }
        self.eager = true;
    }

    /// An event that may be refused for any reason.
    pub fn push_arbitrary(&mut self) {
        let n = self.state.n;
        let (kind, process) = match self.rng.below(6) {
            0 | 1 => (self.rng.byte_below(3), self.rng.byte_below(n)),
            2 => (self.rng.byte_below(3), self.rng.byte()),
            3 => (self.rng.byte(), self.rng.byte_below(n)),
            4 => (
                self.rng.byte_below(4),
                n.wrapping_add(self.rng.byte_below(2)),
            ),
            _ => (self.rng.byte(), self.rng.byte()),
        };
        self.push(kind, process);
    }

    /// A process that does not rest now, if a few tries find one.
    fn choose(&mut self) -> u8 {
        let mut process = self.pick();
        for _ in 0..6 {
            if !self.rests(process) {
                break;
            }
            if self.plan.schedule == Schedule::Sticky {
                self.last = self.rng.below(usize::from(self.plan.pool));
            }
            process = self.pick();
        }
        process
    }

    fn pick(&mut self) -> u8 {
        let pool = usize::from(self.plan.pool);
        let any = self.rng.below(pool);
        self.last = match self.plan.schedule {
            Schedule::Sticky if self.rng.chance(3, 4) => self.last,
            Schedule::Starved if any == self.chosen && !self.rng.chance(1, 16) => (any + 1) % pool,
            Schedule::Favoured if self.rng.chance(1, 2) => self.chosen,
            Schedule::LockStep => (self.last + 1) % pool,
            _ => any,
        };
        ((self.first + self.last) % usize::from(self.state.n)) as u8
    }

    fn rests(&mut self, process: u8) -> bool {
        match self.stage(process) {
            stage::WORKING if self.eager => self.rng.chance(1, 8),
            stage::WORKING => self.rng.chance(15, 16),
            stage::WAITING if self.state.queued(process) => self.rng.chance(3, 4),
            _ => false,
        }
    }
}

/// The kind of event that a stage accepts.
pub fn natural_kind(stage: u8) -> u8 {
    match stage {
        stage::REMAINDER => kind::REQUEST,
        stage::WORKING => kind::RELEASE,
        _ => kind::STEP,
    }
}
