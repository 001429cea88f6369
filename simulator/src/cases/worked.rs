//! Files of the worked orders P9 to P11, and one without events.

use super::Case;
use crate::day_file::lay_out;

pub const P9_SETUP: [u8; 4] = [2, 2, 1, 1];
pub const P9_EVENTS: [u8; 16] = [0, 0, 1, 0, 1, 0, 1, 0, 0, 1, 1, 1, 1, 1, 1, 1];

pub const P10_SETUP: [u8; 4] = [2, 1, 2, 1];
pub const P10_EVENTS: [u8; 14] = [0, 0, 1, 0, 1, 0, 0, 1, 1, 1, 1, 1, 1, 1];

pub const P11_SETUP: [u8; 4] = [2, 1, 1, 1];
pub const P11_EVENTS: [u8; 22] = [
    0, 0, 1, 0, 1, 0, 0, 1, 1, 1, 1, 1, 2, 0, 1, 0, 1, 0, 1, 1, 1, 1,
];

pub fn p11_file() -> Vec<u8> {
    lay_out(P11_SETUP, &P11_EVENTS)
}

pub fn cases() -> Vec<Case> {
    vec![
        Case::new("worked", p11_file()),
        Case::new("worked", lay_out(P9_SETUP, &P9_EVENTS)),
        Case::new("worked", lay_out(P10_SETUP, &P10_EVENTS)),
        Case::new("empty", lay_out([12, 4, 2, 1], &[])),
    ]
}
