//! Times of the setup in its three forms.

use std::fmt;
use std::hint::black_box;

use crate::archive;
use crate::lists::{Setup, QUARTER};
use crate::speed::{best, BATCH};

/// A setup of most numbers, and one of few.
const SETUPS: [Setup; 2] = [[64, 16, 2, 2], [12, 4, 2, 1]];

/// All names of the largest setup but one.
const MOST: [u8; 63] = {
    let mut names = [0; 63];
    let mut place = 0;
    while place < names.len() {
        names[place] = place as u8;
        place += 1;
    }
    names
};

/// The names that a form closes, for each of the setups.
const CLOSED: [[&[u8]; 3]; 2] = [
    [&[], &QUARTER, &MOST],
    [&[], &[1, 6], &[0, 1, 2, 3, 4, 5, 6]],
];

/// How a setup is asked for.
#[derive(Clone, Copy)]
enum Form {
    Whole,
    Count(u64),
    Closed(&'static [u8]),
}

impl fmt::Display for Form {
    fn fmt(&self, out: &mut fmt::Formatter) -> fmt::Result {
        match self {
            Form::Whole => write!(out, "whole"),
            Form::Count(count) => write!(out, "count {count}"),
            Form::Closed(names) => write!(out, "{} closed", names.len()),
        }
    }
}

/// A setup in a form, and what both sides last gave.
struct Made {
    setup: Setup,
    form: Form,
    archive: archive::State,
    simulator: simulator::State,
}

impl Made {
    fn new(setup: Setup, form: Form) -> Made {
        Made {
            setup,
            form,
            archive: archive::State::from_image(&simulator::State::BLANK.to_image()),
            simulator: simulator::State::BLANK,
        }
    }

    fn archive(&mut self) {
        for _ in 0..BATCH {
            let setup = black_box(self.setup).map(u32::from);
            let [n, l, g, b] = setup;
            let done = match black_box(self.form) {
                Form::Whole => archive::setup(n, l, g, b),
                Form::Count(count) => archive::partial_setup(setup, count),
                Form::Closed(names) => archive::closed_setup(setup, names),
            };
            self.archive = black_box(done).state;
        }
    }

    fn simulator(&mut self) {
        for _ in 0..BATCH {
            let [n, l, g, b] = black_box(self.setup);
            let done = match black_box(self.form) {
                Form::Whole => simulator::State::setup(n, l, g, b),
                Form::Count(count) => simulator::State::partial_setup(n, l, g, b, count),
                Form::Closed(names) => simulator::State::closed_setup(n, l, g, b, names),
            };
            self.simulator = black_box(done).expect("an accepted setup");
        }
    }

    fn cells(&mut self) -> String {
        let best = best(self, Made::archive, Made::simulator);
        assert!(
            self.archive.to_image() == self.simulator.to_image(),
            "the setups differ: run `bench differ`"
        );
        best.cells(1e-9 * BATCH as f64)
    }
}

/// The table of setups.
pub fn print() {
    println!("\nSetup, nanoseconds for a call:\n");
    println!("| setup | archive | simulator | ratio |");
    println!("|---|--:|--:|--:|");
    for (setup, closed) in SETUPS.into_iter().zip(CLOSED) {
        let [n, l, g, b] = setup;
        let every = u64::from(l) - 1;
        let counts = [0, every / 2, every].map(Form::Count);
        let forms = [Form::Whole].into_iter().chain(counts);
        for form in forms.chain(closed.map(Form::Closed)) {
            let cells = Made::new(setup, form).cells();
            println!("| {n}, {l}, {g}, {b}: {form} | {cells} |");
        }
    }
}
