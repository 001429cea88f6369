//! The last sentence of document 02's request b, over random lists.

use super::fresh;
use crate::cases::{chance, shapes, ways_back};
use crate::random::Random;
use crate::read_day_file;
use crate::state::{stage, Process};

/// Whether the lowest and the highest figure were seen.
type Ends = [bool; 2];

/// What a list from a fresh setup shows.
struct Seen {
    height: u8,
    claims: Ends,
    rounds: Ends,
}

/// Checks a figure's bounds and notes whether it is one of them.
fn note(ends: &mut Ends, figure: u8, low: u8, high: u8) {
    assert!((low..=high).contains(&figure), "{figure} {low} {high}");
    ends[0] |= figure == low;
    ends[1] |= figure == high;
}

impl Seen {
    /// A process that works, or that is back in its remainder after a round.
    fn process(&mut self, g: u8, p: &Process) {
        let h = self.height;
        if p.stage == stage::WORKING {
            note(&mut self.claims, p.steps, h + 1, h + g);
        } else {
            let figure = p.steps + p.returns;
            note(&mut self.rounds, figure, h + 2, 2 * h + g + 1);
        }
    }
}

/// The levels left by the left on the way from the leaf of a name.
fn lefts(height: u8, leaf: u8) -> u8 {
    height - leaf.count_ones() as u8
}

/// Runs a list; the fourth byte of the journal is looked at after each event
/// by which a process gets a name or comes back.
fn see(setup: [u8; 4], events: &[u8]) -> Seen {
    let [_, l, g, b] = setup;
    let mut seen = Seen {
        height: l.ilog2() as u8,
        claims: [false; 2],
        rounds: [false; 2],
    };
    let mut state = fresh(setup);
    let mut held = [None; 64];
    for event in events.chunks(2) {
        let mut entry = [0; 4];
        assert_eq!(state.run(event, &mut entry), 0);
        let at = usize::from(event[1]);
        if entry[0] != 0 {
            continue;
        }
        let p = &state.processes[at];
        if p.stage == stage::WORKING {
            seen.process(g, p);
            assert_eq!(entry[3], p.steps);
            held[at] = Some((p.name, p.steps));
        } else if p.stage == stage::REMAINDER {
            seen.process(g, p);
            let (name, claim) = held[at].take().expect("a name was held");
            let returns = 1 + lefts(seen.height, name / (g * b));
            assert_eq!([p.steps, p.returns], [claim, returns]);
            assert_eq!(entry[3], claim + returns);
        }
    }
    seen
}

/// Random lists: every figure is within its bounds, and for setups of every
/// height above 0 both ends of each are reached.
#[test]
fn bounds_of_claims_and_rounds() {
    let mut rng = Random::new(22);
    let mut both = [[0; 2]; 5];
    for turn in 0..1_500 {
        let setup = chance::setup(&mut rng);
        let events = shapes::lively_list(&mut rng, turn, setup, 900);
        let seen = see(setup, &events);
        let height = usize::from(seen.height);
        both[height][0] += usize::from(seen.claims == [true; 2]);
        both[height][1] += usize::from(seen.rounds == [true; 2]);
    }
    assert!(
        both[1..].iter().flatten().all(|&number| number > 0),
        "{both:?}"
    );
    assert!(both[0].iter().all(|&number| number > 0));
}

/// The lists that are made to show every way back do so: both ends, each
/// leaf and each figure between, and all begin again.
#[test]
fn every_way_back_is_shown() {
    for seed in 0..20 {
        let cases = ways_back::cases(&mut Random::new(seed));
        for (case, setup) in cases.iter().zip(ways_back::SETUPS) {
            let (_, events) = read_day_file(&case.file).unwrap();
            let seen = see(setup, events);
            assert_eq!((seen.claims, seen.rounds), ([true; 2], [true; 2]));
            every_leaf_is_left(setup, events);
        }
    }
}

/// Every segment of every leaf is left, and as many processes as possible
/// request again, with 0 shown after a figure above 0.
fn every_leaf_is_left(setup: [u8; 4], events: &[u8]) {
    let [n, l, g, b] = setup.map(usize::from);
    let mut state = fresh(setup);
    let mut left = vec![false; l * g];
    let mut again = vec![false; n];
    for event in events.chunks(2) {
        let at = usize::from(event[1]);
        let before = state.processes[at];
        let mut entry = [0; 4];
        state.run(event, &mut entry);
        if entry[0] == 0 && event[0] == 0 {
            assert_eq!(entry[3], 0);
            again[at] |= before.cost() > 0;
        }
        if entry[0] == 0 && event[0] == 2 {
            left[usize::from(before.name) / b] = true;
        }
    }
    assert!(left.iter().all(|&left| left));
    let second = again.iter().filter(|&&again| again).count();
    assert!(second >= (l * g * b).min(n));
}
