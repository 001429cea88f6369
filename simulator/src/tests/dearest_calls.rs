//! The generated calls of the dearest list.

use super::dearest::figure;
use super::partial_setup::refusal;
use crate::cases::shapes::triples;
use crate::dearest::setups::calls;
use crate::dearest::{self, Call};
use std::collections::HashSet;
use std::{env, fs, process};

/// Calls of every shape, with other buffers, and refused by their setup.
const NUMBERS: [usize; 3] = [937, 50, 279];

/// What the paper says of a call: answer and figure.
fn paper(call: &Call) -> (u8, u8) {
    match refusal(call.setup) {
        0 if call.room < 4_096 => (18, 0),
        0 => (0, figure(call.setup)),
        number => (number, 0),
    }
}

/// The calls of a whole file of records.
fn read(input: &[u8]) -> Vec<Call> {
    let (records, rest) = input.as_chunks::<8>();
    assert!(rest.is_empty());
    let call = |&[n, l, g, b, first, second, third, fourth]: &[u8; 8]| Call {
        setup: [n, l, g, b],
        room: u32::from_le_bytes([first, second, third, fourth]) as usize,
    };
    records.iter().map(call).collect()
}

fn there(calls: &[Call], setup: [u8; 4], room: usize) -> bool {
    calls.contains(&Call { setup, room })
}

#[test]
fn record_and_line() {
    let call = |setup, room| Call { setup, room };
    let record = [3, 16, 2, 1, 1, 16, 0, 0];
    assert_eq!(call([3, 16, 2, 1], 4_097).record(), record);
    let record = [255, 0, 9, 17, 0, 0, 1, 0];
    assert_eq!(call([255, 0, 9, 17], 65_536).record(), record);
    for (setup, room, line) in [
        ([3, 16, 2, 1], 4_097, "dearest 0 6 6 0"),
        ([64, 8, 8, 1], 4_096, "dearest 0 11 11 0"),
        ([1, 1, 1, 1], 65_536, "dearest 0 1 1 0"),
        ([1, 1, 1, 1], 4_095, "dearest 18 0 0 0"),
        ([255, 0, 9, 17], 65_536, "dearest 1 0 0 0"),
        ([64, 16, 2, 3], 0, "dearest 5 0 0 0"),
    ] {
        assert_eq!(call(setup, room).line(), line);
    }
}

/// Each call stands once, and in the order of the sorts.
#[test]
fn numbers_of_calls() {
    let calls = calls();
    let unlike: HashSet<Vec<u8>> = calls.iter().map(Call::record).collect();
    assert_eq!((calls.len(), unlike.len()), (1_266, 1_266));
    let (shapes, others) = calls.split_at(NUMBERS[0]);
    let (rooms, refused) = others.split_at(NUMBERS[1]);
    assert_eq!(refused.len(), NUMBERS[2]);
    assert!(shapes.iter().all(|call| call.room == 4_096));
    assert!(shapes.iter().chain(rooms).all(|x| refusal(x.setup) == 0));
    assert!(refused.iter().all(|call| refusal(call.setup) != 0));
}

#[test]
fn every_shape_with_few_and_many_processes() {
    let calls = calls();
    let mut number = 0;
    for [l, g, b] in triples() {
        for n in 1..=64 {
            let chosen = [1, 2, b, b + 1, l * g * b, 64].contains(&n);
            let place = calls[..NUMBERS[0]]
                .iter()
                .filter(|call| call.setup == [n, l, g, b]);
            assert_eq!(place.count(), usize::from(chosen));
            number += usize::from(chosen);
        }
    }
    assert_eq!(number, NUMBERS[0]);
}

/// Each of the chosen setups has all six buffers, and they are of all sorts.
#[test]
fn buffers_of_accepted_setups() {
    let calls = calls();
    let rooms = [0, 1, 4_095, 4_096, 4_097, 65_536];
    let mut setups: Vec<[u8; 4]> = calls.iter().map(|call| call.setup).collect();
    setups.retain(|&setup| there(&calls, setup, 1));
    setups.dedup();
    let whole = |setup: &[u8; 4]| rooms.iter().all(|&room| there(&calls, *setup, room));
    assert!(setups.iter().all(whole));
    let any = |place: usize, number| setups.iter().any(|setup| setup[place] == number);
    assert!(any(0, 1) && any(0, 64) && any(1, 16) && any(2, 8) && any(3, 8));
}

/// Each refused setup has all three buffers, and every refusal is shown, for
/// each number of the setup at 0, at 255 and with its top bit set.
#[test]
fn refused_setups() {
    let calls = calls();
    for call in &calls[NUMBERS[0] + NUMBERS[1]..] {
        for room in [0, 4_095, 4_096] {
            assert!(there(&calls, call.setup, room));
        }
    }
    for number in 1..=5 {
        let shown = calls.iter().filter(|call| paper(call).0 == number);
        assert!(shown.count() >= 15, "{number}");
    }
    for setup in [[0; 4], [255; 4], [65, 17, 9, 9], [0, 3, 9, 0]] {
        assert!(there(&calls, setup, 0), "{setup:?}");
    }
    for place in 0..4 {
        for number in [0, 129, 255] {
            let refused = |call: &Call| {
                call.setup[place] == number && usize::from(paper(call).0) == place + 1
            };
            assert!(calls.iter().any(refused), "{place} {number}");
        }
    }
}

/// The command's two files, read back.
#[test]
fn files() {
    let folder = env::temp_dir().join(format!("dearest-{}", process::id()));
    dearest::write(&folder).unwrap();
    let input = fs::read(folder.join("dearest.in")).unwrap();
    let output = fs::read_to_string(folder.join("dearest.out")).unwrap();
    fs::remove_dir_all(&folder).unwrap();
    let calls = calls();
    assert_eq!(read(&input), calls);
    assert!(calls.iter().all(|call| call.room <= 65_536));
    let lines: Vec<String> = calls
        .iter()
        .map(|call| {
            let (answer, figure) = paper(call);
            format!("dearest {answer} {figure} {figure} 0\n")
        })
        .collect();
    assert!(output == lines.concat());
}
