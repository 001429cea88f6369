//! Setups and lists of events, all from a seed.

use simulator::calls::reached;
use simulator::cases::schedule::{ListMaker, Plan, Schedule, SCHEDULES};
use simulator::random::Random;
use simulator::State;

pub type Setup = [u8; 4];

/// Most events of a day file.
pub const MOST_EVENTS: usize = simulator::day_file::MOST_EVENTS;

/// A kind of list that is measured.
pub struct Kind {
    /// Its word on the command line.
    pub word: &'static str,
    /// Its words in the table.
    pub title: &'static str,
    pub setup: Setup,
    /// The names that its setup closes.
    closed: &'static [u8],
    /// Arbitrary events among 64, nearly all of them refused.
    noise: usize,
}

pub const KINDS: [Kind; 6] = [
    Kind {
        word: "light",
        title: "light contention: 8 processes, 64 names",
        setup: [8, 16, 2, 2],
        closed: &[],
        noise: 0,
    },
    Kind {
        word: "heavy",
        title: "heavy contention: 64 processes, 64 names",
        setup: [64, 16, 2, 2],
        closed: &[],
        noise: 0,
    },
    Kind {
        word: "queues",
        title: "full queues: 64 processes, 2 names",
        setup: [64, 2, 1, 1],
        closed: &[],
        noise: 0,
    },
    Kind {
        word: "morning",
        title: "a club's morning: 12 processes, 8 names",
        setup: [12, 4, 2, 1],
        closed: &[],
        noise: 0,
    },
    Kind {
        word: "rows",
        title: "long rows: 64 processes, 2 leaves of 8 segments of 4 bits",
        setup: [64, 2, 8, 4],
        closed: &[],
        noise: 0,
    },
    Kind {
        word: "refusals",
        title: "refusals: heavy contention, 1 event in 4 arbitrary",
        setup: [64, 16, 2, 2],
        closed: &[],
        noise: 16,
    },
];

/// A quarter of 64 names: of 16 leaves a whole one, two other segments, and
/// names by themselves.
pub const QUARTER: [u8; 16] = [0, 2, 3, 8, 9, 10, 11, 17, 22, 31, 32, 33, 40, 45, 54, 63];

/// The same with closed names.
const CLOSED_KINDS: [Kind; 6] = [
    Kind {
        word: "light-closed",
        title: "light contention, 16 names closed",
        closed: &QUARTER,
        ..KINDS[0]
    },
    Kind {
        word: "heavy-closed",
        title: "heavy contention, 16 names closed",
        closed: &QUARTER,
        ..KINDS[1]
    },
    Kind {
        word: "queues-closed",
        title: "full queues, 1 name closed",
        closed: &[0],
        ..KINDS[2]
    },
    Kind {
        word: "morning-closed",
        title: "a club's morning, 2 names closed",
        closed: &[1, 6],
        ..KINDS[3]
    },
    Kind {
        word: "rows-closed",
        title: "long rows, 16 names closed",
        closed: &QUARTER,
        ..KINDS[4]
    },
    Kind {
        word: "refusals-closed",
        title: "refusals, 16 names closed",
        closed: &QUARTER,
        ..KINDS[5]
    },
];

/// Every kind, those with closed names last.
pub fn kinds() -> impl Iterator<Item = &'static Kind> {
    KINDS.iter().chain(&CLOSED_KINDS)
}

impl Kind {
    pub fn named(word: &str) -> Option<&'static Kind> {
        kinds().find(|kind| kind.word == word)
    }

    /// The fresh state of its setup.
    pub fn start(&self) -> State {
        reached::closed(self.setup, self.closed)
    }

    /// A list of as many events: anybody moves next, by an event that its
    /// stage accepts. Always the same list.
    pub fn list(&self, count: usize) -> Vec<u8> {
        let mut rng = Random::new(1);
        let mut maker = maker(&mut rng, self.start(), Schedule::Uniform);
        for _ in 0..count {
            if maker.rng.chance(self.noise, 64) {
                maker.push_arbitrary();
            } else {
                let process = maker.rng.byte_below(self.setup[0]);
                maker.push_natural(process);
            }
        }
        maker.events
    }
}

/// The fresh state of an accepted setup.
pub fn fresh([n, l, g, b]: Setup) -> State {
    State::setup(n, l, g, b).expect("an accepted setup")
}

fn maker(rng: &mut Random, state: State, schedule: Schedule) -> ListMaker<'_> {
    let plan = Plan {
        schedule,
        pool: state.n,
        noise: 8,
    };
    ListMaker::from_state(rng, state, plan)
}

/// An accepted setup of the shape L, g, b; N is below, at or above k.
pub fn setup(rng: &mut Random, [l, g, b]: [u8; 3]) -> Setup {
    let k = l * g * b;
    let n = match rng.below(6) {
        0 | 1 if k > 1 => rng.between(1, k - 1),
        2 => k,
        3 | 4 if k < 64 => rng.between(k + 1, 64),
        _ => rng.between(1, 64),
    };
    [n, l, g, b]
}

/// Four numbers, at the limits or anywhere.
pub fn any_setup(rng: &mut Random) -> Setup {
    if rng.chance(1, 8) {
        return std::array::from_fn(|_| rng.byte());
    }
    let mut number = |edges: &[u8], most: u8| match rng.below(8) {
        0 => rng.byte(),
        1 | 2 => edges[rng.below(edges.len())],
        _ => rng.between(1, most),
    };
    let n = number(&[0, 1, 64, 65, 128, 255], 64);
    let l = number(&[0, 3, 16, 17, 32, 64, 128, 255], 16);
    let l = if l > 2 && l < 16 && rng.chance(3, 4) {
        l.next_power_of_two()
    } else {
        l
    };
    let mut number = || match rng.below(8) {
        0 => rng.byte(),
        1 => [0, 8, 9, 255][rng.below(4)],
        _ => rng.between(1, 8),
    };
    [n, l, number(), number()]
}

/// How many events a list has: mostly few, sometimes as many as a day file
/// holds, seldom more.
pub fn count(rng: &mut Random) -> usize {
    match rng.below(64) {
        0..=7 => rng.below(5),
        8..=31 => rng.below(64),
        32..=51 => rng.below(400),
        52..=59 => rng.below(2000),
        60..=62 => rng.below(MOST_EVENTS + 1),
        _ if rng.chance(1, 8) => rng.below(4 * MOST_EVENTS),
        _ => MOST_EVENTS,
    }
}

/// A list of as many events from a fresh state. One in eight is of any bytes;
/// the others mix schedules, crowds at the gate, batches in lock-step and
/// arbitrary events.
pub fn any(rng: &mut Random, start: &State, count: usize) -> Vec<u8> {
    if rng.chance(1, 8) {
        return (0..2 * count).map(|_| rng.byte()).collect();
    }
    let schedule = SCHEDULES[rng.below(SCHEDULES.len())];
    let pool = if rng.chance(1, 2) {
        start.n
    } else {
        rng.between(1, start.n)
    };
    let plan = Plan {
        schedule,
        pool,
        noise: 8,
    };
    let mut maker = ListMaker::from_state(rng, start.clone(), plan);
    while maker.events.len() < 2 * count {
        part(&mut maker);
    }
    maker.events.truncate(2 * count);
    maker.events
}

/// A part of a mixed list.
fn part(maker: &mut ListMaker) {
    match maker.rng.below(8) {
        0 | 1 => lock_step(maker),
        2 => maker.crowd(),
        3 => narrow(maker, 40),
        _ => {
            let count = 1 + maker.rng.below(400);
            maker.lively(count);
        }
    }
}

/// Neighbours move in turn, each by the event that its stage accepts.
fn lock_step(maker: &mut ListMaker) {
    let n = maker.state.n;
    let first = maker.rng.byte_below(n);
    let together = maker.rng.between(1, n);
    for _ in 0..maker.rng.between(1, 24) {
        for place in 0..together {
            maker.push_natural((first + place) % n);
        }
    }
}

/// Any kinds and processes about their limits.
fn narrow(maker: &mut ListMaker, most: usize) {
    for _ in 0..maker.rng.below(most) {
        let kind = maker.rng.byte_below(4);
        let process = maker.rng.byte_below(maker.state.n + 2);
        maker.push(kind, process);
    }
}

/// A list for a state in range, reached or hand-made.
pub fn after(rng: &mut Random, state: &State, count: usize) -> Vec<u8> {
    let mut maker = maker(rng, state.clone(), Schedule::Uniform);
    maker.lively(count);
    maker.events
}
