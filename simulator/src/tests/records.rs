//! Records of `calls.in` and their lines, read back.

use crate::calls::{self, Records};
use crate::random::Random;
use crate::State;

/// A record and its line.
pub struct Call {
    pub state: State,
    /// 0 event, 1 list, 2 report, 3 partial setup, 4 setup with closed names.
    pub number: u8,
    /// Kind and process of an event, or the events of a list.
    pub events: Vec<u8>,
    /// Lent bytes of a list's journal.
    pub journal_len: u8,
    /// Count of a partial setup.
    pub count: u64,
    /// Closed names of a setup.
    pub closed: Vec<u8>,
    /// The figures of the line after its first word.
    pub line: Vec<usize>,
    pub text: String,
}

impl Call {
    pub fn answer(&self) -> usize {
        self.line[0]
    }

    /// The four numbers of the state.
    pub fn setup(&self) -> [u8; 4] {
        let State { n, l, g, b, .. } = self.state;
        [n, l, g, b]
    }

    /// The entries of a list's journal.
    pub fn journal(&self) -> Vec<&[usize]> {
        self.line[2..].chunks(4).collect()
    }
}

/// The figures of a line after its first word.
pub fn figures(line: &str) -> Vec<usize> {
    let words = line.split(' ').skip(1);
    words.map(|word| word.parse().unwrap()).collect()
}

/// Takes one record from the input.
fn take(input: &mut &[u8], line: &str) -> Call {
    let (image, rest) = input.split_first_chunk().unwrap();
    let (skipped, bytes) = match rest[0] {
        0 => (1, 2),
        1 => (3, usize::from(rest[1])),
        2 => (1, 0),
        3 => (1, 8),
        4 => (3, usize::from(u16::from_le_bytes([rest[1], rest[2]]))),
        number => panic!("{number}"),
    };
    let number = rest[0];
    let journal_len = if number == 1 { rest[2] } else { 0 };
    let (taken, rest) = rest[skipped..].split_at(bytes);
    *input = rest;
    let count = match number {
        3 => u64::from_le_bytes(taken.try_into().unwrap()),
        _ => 0,
    };
    let only = |wanted: bool| if wanted { taken.to_vec() } else { Vec::new() };
    Call {
        state: State::from_image(image),
        number,
        events: only(number < 3),
        journal_len,
        count,
        closed: only(number == 4),
        line: figures(line),
        text: line.to_string(),
    }
}

pub fn read(records: &Records) -> Vec<Call> {
    let mut input = &records.input[..];
    let lines = records.output.lines();
    let calls = lines.map(|line| take(&mut input, line)).collect();
    assert!(input.is_empty());
    calls
}

pub fn fixed_calls_of(seed: u64) -> Vec<Call> {
    let mut records = Records::new(usize::MAX);
    calls::fixed(&mut records, &mut Random::new(seed));
    read(&records)
}

pub fn fixed_calls() -> Vec<Call> {
    fixed_calls_of(1)
}
