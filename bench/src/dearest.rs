//! Times of the dearest claim's list.

use std::hint::black_box;

use simulator::dearest::{given, list, Given, LIST_BYTES};

use crate::archive;
use crate::lists::Setup;
use crate::speed::{best, BATCH};

/// The longest list, one of many leaves, and a club's.
const SETUPS: [Setup; 3] = [[64, 1, 8, 8], [64, 16, 2, 2], [12, 4, 2, 1]];

/// A setup, and what both sides last made of it.
struct Made {
    setup: Setup,
    buffer: Vec<u8>,
    archive: archive::DearestList,
    simulator: (Given, Vec<u8>),
}

impl Made {
    fn new(setup: Setup) -> Made {
        let mut buffer = vec![0; LIST_BYTES];
        Made {
            setup,
            archive: archive::dearest_list(setup.map(u32::from), &mut buffer),
            buffer,
            simulator: (given(setup, LIST_BYTES), list(setup)),
        }
    }

    fn archive(&mut self) {
        for _ in 0..BATCH {
            let setup = black_box(self.setup).map(u32::from);
            self.archive = black_box(archive::dearest_list(setup, black_box(&mut self.buffer)));
        }
    }

    fn simulator(&mut self) {
        for _ in 0..BATCH {
            let setup = black_box(self.setup);
            self.simulator = black_box((given(setup, LIST_BYTES), list(setup)));
        }
    }

    fn cells(&mut self) -> String {
        let best = best(self, Made::archive, Made::simulator);
        assert!(
            self.archive.figure == self.simulator.0.figure,
            "the figures differ: run `bench differ`"
        );
        best.cells(1e-9 * BATCH as f64)
    }
}

/// The table of dearest lists.
pub fn print() {
    println!("\nThe dearest claim's list, nanoseconds for a call:\n");
    println!("| setup | archive | simulator | ratio |");
    println!("|---|--:|--:|--:|");
    for setup in SETUPS {
        let [n, l, g, b] = setup;
        let mut made = Made::new(setup);
        let cells = made.cells();
        let events = made.archive.size / 2;
        println!("| {n}, {l}, {g}, {b}: {events} events | {cells} |");
    }
}
