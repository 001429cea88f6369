//! A race morning as an example day file: 12 processes share 8 names.

use crate::answer::{ACCEPTED, BUSY, NOT_MOVING, NO_NAME_HELD};
use crate::cases::schedule::natural_kind;
use crate::day_file::lay_out;
use crate::machine::kind::{RELEASE, REQUEST, STEP};
use crate::random::Random;
use crate::state::{stage, State};

const SETUP: [u8; 4] = [12, 4, 2, 1];
const PROCESSES: usize = SETUP[0] as usize;

/// What a recorder means to do.
#[derive(Clone, Copy)]
struct Recorder {
    /// Finishes still to record.
    rounds: usize,
    /// Does nothing of its own accord before this moment.
    rests_until: usize,
}

struct Morning<'r> {
    rng: &'r mut Random,
    state: State,
    recorders: [Recorder; PROCESSES],
    events: Vec<u8>,
    moment: usize,
    longest_queue: u8,
    /// How often the answers 7, 8 and 9 were given.
    refusals: [usize; 3],
}

impl Morning<'_> {
    fn new(rng: &mut Random) -> Morning<'_> {
        let [n, l, g, b] = SETUP;
        let recorders = std::array::from_fn(|p| Recorder {
            rounds: [1, 2, 2, 3, 3][rng.below(5)],
            rests_until: 5 * p + rng.below(6),
        });
        Morning {
            rng,
            state: State::setup(n, l, g, b).expect("an accepted setup"),
            recorders,
            events: Vec::new(),
            moment: 0,
            longest_queue: 0,
            refusals: [0; 3],
        }
    }

    fn stage(&self, p: usize) -> u8 {
        self.state.processes[p].stage
    }

    fn push(&mut self, kind: u8, p: usize) {
        let answer = self.state.event(kind, p as u8);
        self.events.extend([kind, p as u8]);
        match answer {
            BUSY => self.refusals[0] += 1,
            NOT_MOVING => self.refusals[1] += 1,
            NO_NAME_HELD => self.refusals[2] += 1,
            ACCEPTED => self.note(kind, p),
            _ => {}
        }
        self.longest_queue = self.longest_queue.max(self.state.queue_len);
    }

    /// After an accepted event: a new holder holds for a while, and one
    /// that is back rests before the next finish.
    fn note(&mut self, kind: u8, p: usize) {
        let pause = match (kind, self.stage(p)) {
            (REQUEST, _) => {
                self.recorders[p].rounds -= 1;
                0
            }
            (STEP, stage::WORKING) => 25 + self.rng.below(50),
            (STEP, stage::REMAINDER) => 5 + self.rng.below(30),
            _ => 0,
        };
        self.recorders[p].rests_until = self.moment + pause;
    }

    fn wants_to_move(&mut self, p: usize) -> bool {
        let rested = self.moment >= self.recorders[p].rests_until;
        match self.stage(p) {
            stage::REMAINDER => rested && self.recorders[p].rounds > 0,
            stage::WORKING => rested,
            stage::WAITING if self.state.queued(p as u8) => self.rng.chance(1, 12),
            _ => true,
        }
    }

    /// A press that is refused, if the process's stage allows one.
    fn mistake(&mut self) {
        let p = self.rng.below(PROCESSES);
        match self.stage(p) {
            stage::REMAINDER => {}
            stage::WORKING if self.rng.chance(1, 2) => self.push(STEP, p),
            stage::WORKING => self.push(REQUEST, p),
            _ if self.rng.chance(1, 2) => self.push(RELEASE, p),
            _ => self.push(REQUEST, p),
        }
    }

    fn over(&self) -> bool {
        (0..PROCESSES).all(|p| self.stage(p) == stage::REMAINDER && self.recorders[p].rounds == 0)
    }

    fn play(&mut self) {
        while !self.over() {
            self.moment += 1;
            let movers: Vec<usize> = (0..PROCESSES).filter(|&p| self.wants_to_move(p)).collect();
            if self.rng.chance(1, 45) {
                self.mistake();
            } else if !movers.is_empty() {
                let p = movers[self.rng.below(movers.len())];
                self.push(natural_kind(self.stage(p)), p);
            }
        }
    }

    /// Of the wanted length, with a queue and each kind of refused press.
    fn good_example(&self) -> bool {
        (300..=400).contains(&(self.events.len() / 2))
            && self.longest_queue >= 2
            && self.refusals.iter().all(|&count| count > 0)
            && self.refusals.iter().sum::<usize>() <= 12
    }
}

/// The first good example that the seed leads to.
pub fn file(seed: u64) -> Vec<u8> {
    let mut rng = Random::new(seed);
    loop {
        let mut morning = Morning::new(&mut rng);
        morning.play();
        if morning.good_example() {
            return lay_out(SETUP, &morning.events);
        }
    }
}
