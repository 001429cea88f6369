//! Files with a wrong byte, a wrong length or wrong entries.

use super::worked::{p11_file, P11_SETUP};
use super::Case;
use crate::day_file::{lay_out, EVENTS_AT};

/// Where the four offset and length fields stand.
const FIELDS: [usize; 4] = [6, 10, 15, 19];
/// Where entry two's length stands.
const LENGTH_FIELD: usize = 19;

fn with_field(mut file: Vec<u8>, at: usize, value: u32) -> Vec<u8> {
    file[at..at + 4].copy_from_slice(&value.to_le_bytes());
    file
}

/// Each byte before the setup, off by one and with its top bit turned.
fn wrong_bytes() -> Vec<Case> {
    let mut cases = Vec::new();
    for at in 0..23 {
        let kind = if at < 5 { "magic" } else { "entry" };
        for wrong in [|x: u8| x.wrapping_add(1), |x: u8| x ^ 0x80] {
            let mut file = p11_file();
            file[at] = wrong(file[at]);
            cases.push(Case::new(kind, file));
        }
    }
    cases
}

fn wrong_lengths() -> Vec<Case> {
    let right = p11_file();
    let whole = right.len();
    let mut cases: Vec<Case> = [0, 1, 4, 5, 22, 23, 26, 27, whole - 2, whole - 1]
        .iter()
        .map(|&length| Case::new("length", right[..length].to_vec()))
        .collect();
    for more in [&[1][..], &[1, 1]] {
        let mut file = right.clone();
        file.extend(more);
        cases.push(Case::new("length", file));
    }
    cases
}

fn wrong_entry_lengths() -> Vec<Case> {
    let right = p11_file();
    let events = (right.len() - EVENTS_AT) as u32;
    let mut cases: Vec<Case> = [events - 1, events + 1, events - 2, events + 2, 0]
        .iter()
        .map(|&length| Case::new("entry", with_field(right.clone(), LENGTH_FIELD, length)))
        .collect();
    cases.push(Case::new("odd", lay_out(P11_SETUP, &[0, 0, 1])));
    cases
}

/// Files about the upper limit, whose entries agree with their length. One
/// of 32,768 bytes has an odd body, so no accepted file is that long.
fn long_files() -> Vec<Case> {
    [32_768, 32_769, 32_770, 40_000]
        .iter()
        .map(|length| Case::new("long", lay_out(P11_SETUP, &vec![0; length - EVENTS_AT])))
        .collect()
}

fn huge_fields() -> Vec<Case> {
    FIELDS
        .iter()
        .map(|&at| Case::new("huge", with_field(p11_file(), at, u32::MAX)))
        .collect()
}

/// Files with two faults, so that the order of the checks shows.
fn two_faults() -> Vec<Case> {
    let mut magic_and_entry = p11_file();
    magic_and_entry[4] = 1;
    magic_and_entry[5] = 2;
    let mut magic_and_setup = lay_out([0, 1, 1, 1], &[]);
    magic_and_setup[0] = b't';
    let entry_and_setup = with_field(lay_out([65, 1, 1, 1], &[0, 0]), 6, 24);
    let length_and_setup = with_field(lay_out([2, 3, 1, 1], &[0, 0]), LENGTH_FIELD, 4);
    let odd_and_setup = lay_out([2, 1, 9, 1], &[0, 0, 0]);
    let mut long_and_entry = lay_out(P11_SETUP, &[0; 32_742]);
    long_and_entry[14] = 1;
    let mut short_and_magic = p11_file()[..26].to_vec();
    short_and_magic[0] = 0;
    [
        magic_and_entry,
        magic_and_setup,
        entry_and_setup,
        length_and_setup,
        odd_and_setup,
        long_and_entry,
        short_and_magic,
    ]
    .into_iter()
    .map(|file| Case::new("order", file))
    .collect()
}

pub fn cases() -> Vec<Case> {
    let mut cases = wrong_bytes();
    cases.extend(wrong_lengths());
    cases.extend(wrong_entry_lengths());
    cases.extend(long_files());
    cases.extend(huge_fields());
    cases.extend(two_faults());
    cases
}
