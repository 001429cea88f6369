//! The writer of day files and its generator.

use crate::cases::worked::{P11_EVENTS, P11_SETUP};
use crate::random::Random;
use crate::writes::{chance, lists, refusals, Call};
use crate::{cases, digest, read_day_file, write_day_file, writes};

/// The file of document 01's worked list.
const WORKED: [u8; 49] = [
    84, 85, 82, 78, 2, // TURN, 2.
    1, 23, 0, 0, 0, 4, 0, 0, 0, // Entry one.
    2, 27, 0, 0, 0, 22, 0, 0, 0, // Entry two.
    2, 1, 1, 1, // The setup.
    0, 0, 1, 0, 1, 0, 0, 1, 1, 1, 1, 1, 2, 0, 1, 0, 1, 0, 1, 1, 1, 1,
];

/// Number of records that come first.
const FIXED: usize = 156;

/// The file's bytes, by the layout alone.
fn expected(setup: [u8; 4], events: &[u8]) -> Vec<u8> {
    let size = [(events.len() % 256) as u8, (events.len() / 256) as u8];
    let mut file = WORKED[..19].to_vec();
    file.extend([size[0], size[1], 0, 0]);
    file.extend(setup);
    file.extend(events);
    file
}

/// A refused call writes nothing.
fn refused(setup: [u8; 4], events: &[u8], room: usize, number: u8) {
    let mut buffer = vec![170; room];
    assert_eq!(write_day_file(setup, events, &mut buffer), Err(number));
    assert!(buffer.iter().all(|&x| x == 170));
}

/// The buffer's start is the file, the rest is untouched, and the reader
/// gives back the setup and the events.
fn accepted(setup: [u8; 4], events: &[u8], more: usize) {
    let file = expected(setup, events);
    let mut buffer = vec![170; file.len() + more];
    let answer = write_day_file(setup, events, &mut buffer);
    assert_eq!(answer, Ok(file.len()));
    let (written, rest) = buffer.split_at(file.len());
    assert!(written == file);
    assert!(rest.iter().all(|&x| x == 170));
    let (state, read) = read_day_file(written).unwrap();
    assert_eq!([state.n, state.l, state.g, state.b], setup);
    assert_eq!(state, super::fresh(setup));
    assert!(read == events);
    refused(setup, events, file.len() - 1, 17);
    refused(setup, events, 0, 17);
}

#[test]
fn worked_list() {
    let mut buffer = [170; 60];
    let answer = write_day_file([2, 1, 1, 1], &P11_EVENTS, &mut buffer);
    assert_eq!(answer, Ok(49));
    assert_eq!(buffer[..49], WORKED);
    assert_eq!(buffer[49..], [170; 11]);
    let mut exact = [0; 49];
    let answer = write_day_file(P11_SETUP, &WORKED[27..], &mut exact);
    assert_eq!((answer, exact), (Ok(49), WORKED));
}

#[test]
fn what_is_written_is_read_back() {
    let mut rng = Random::new(10);
    for length in (0..1_100).step_by(2).chain([4_660, 32_512, 32_740]) {
        let setup = cases::chance::setup(&mut rng);
        let events: Vec<u8> = (0..length).map(|_| rng.byte()).collect();
        let more = rng.below(40);
        accepted(setup, &events, more);
    }
    for [l, g, b] in cases::shapes::triples() {
        for n in [1, 33, 64] {
            accepted([n, l, g, b], &[0, 0, 255, 255], 1);
        }
    }
}

#[test]
fn accepted_files_are_given_back() {
    let mut number = 0;
    for seed in [1, 2] {
        for case in cases::all(seed, 500) {
            let Ok((state, events)) = read_day_file(&case.file) else {
                continue;
            };
            let setup = [state.n, state.l, state.g, state.b];
            let mut buffer = vec![170; case.file.len() + 3];
            let answer = write_day_file(setup, events, &mut buffer);
            assert_eq!(answer, Ok(case.file.len()));
            assert!(buffer.starts_with(&case.file));
            assert!(buffer.ends_with(&[170; 3]));
            number += 1;
        }
    }
    assert!(number > 650);
}

#[test]
fn each_refusal() {
    for (setup, number) in [
        ([0, 1, 1, 1], 1),
        ([65, 1, 1, 1], 1),
        ([1, 0, 1, 1], 2),
        ([1, 3, 1, 1], 2),
        ([1, 17, 1, 1], 2),
        ([1, 1, 0, 1], 3),
        ([1, 1, 9, 1], 3),
        ([1, 1, 1, 0], 4),
        ([1, 1, 1, 9], 4),
        ([1, 2, 5, 7], 5),
        ([1, 4, 8, 8], 5),
    ] {
        refused(setup, &P11_EVENTS, 49, number);
        refused(setup, &[0; 32_743], 0, number);
    }
    let longest = [0; 32_740];
    accepted(P11_SETUP, &longest, 0);
    accepted(P11_SETUP, &longest, 1);
    for (length, number) in [(1, 14), (3, 14), (32_741, 14), (32_742, 16), (32_743, 14)] {
        refused(P11_SETUP, &vec![0; length], 65_536, number);
        refused(P11_SETUP, &vec![0; length], 0, number);
    }
    for (length, number) in [(1_048_576, 16), (1_048_577, 14)] {
        refused(P11_SETUP, &vec![0; length], 65_536, number);
        refused(P11_SETUP, &vec![0; length], 1_048_604, number);
        refused(P11_SETUP, &vec![0; length], 0, number);
        refused([1, 4, 8, 8], &vec![0; length], 65_536, 5);
    }
    refused(P11_SETUP, &[], 26, 17);
    accepted(P11_SETUP, &[], 0);
}

/// Of any faults at once the first in the order is answered.
#[test]
fn order_of_the_refusals() {
    for choice in 0..256 {
        let faults: Vec<u8> = [1, 2, 3, 4, 5, 14, 16, 17]
            .into_iter()
            .enumerate()
            .filter(|(place, _)| choice >> place & 1 == 1)
            .map(|(_, fault)| fault)
            .collect();
        let call = refusals::faulty(&faults);
        let mut events = call.stored.clone();
        events.resize(call.length, 0);
        match faults.first() {
            Some(&number) => refused(call.setup, &events, call.room, number),
            None => accepted(call.setup, &events, 0),
        }
    }
}

#[test]
fn record_and_line() {
    let call = Call::padded([2, 1, 1, 1], &[7, 9], 258).with_room(65_536);
    let record = [2, 1, 1, 1, 2, 1, 0, 0, 2, 0, 0, 0, 0, 0, 1, 0, 7, 9];
    assert_eq!(call.record(), record);
    let whole = Call::whole([2, 1, 1, 1], &P11_EVENTS);
    assert_eq!((whole.length, whole.room), (22, 49));
    assert_eq!(whole.line(), format!("write 0 49 {}", digest(&WORKED)));
    assert_eq!(whole.clone().with_room(0).line(), "write 17 0 0");
    assert_eq!(whole.clone().with_room(2).line(), "write 17 0 5440");
    assert_eq!(
        Call::whole([0, 1, 1, 1], &[1]).with_room(1).line(),
        "write 1 0 170"
    );
}

/// Takes one number of four bytes from the input.
fn number(input: &mut &[u8]) -> usize {
    let (bytes, rest) = input.split_first_chunk().unwrap();
    *input = rest;
    u32::from_le_bytes(*bytes) as usize
}

/// The calls of a whole file of records.
fn read(mut input: &[u8]) -> Vec<Call> {
    let mut calls = Vec::new();
    while let Some((&setup, rest)) = input.split_first_chunk() {
        input = rest;
        let length = number(&mut input);
        let stored = number(&mut input);
        let room = number(&mut input);
        let (stored, rest) = input.split_at(stored);
        input = rest;
        calls.push(Call {
            setup,
            stored: stored.to_vec(),
            length,
            room,
        });
    }
    assert!(input.is_empty());
    calls
}

/// What the paper says of a call.
fn answer(call: &Call) -> u8 {
    let [n, l, g, b] = call.setup.map(usize::from);
    let checks = [
        (1, !(1..=64).contains(&n)),
        (2, ![1, 2, 4, 8, 16].contains(&l)),
        (3, !(1..=8).contains(&g)),
        (4, !(1..=8).contains(&b)),
        (5, l * g * b > 64),
        (14, call.length % 2 == 1),
        (16, 27 + call.length > 32_768),
        (17, call.room < 27 + call.length),
    ];
    let fault = checks.iter().find(|(_, fault)| *fault);
    fault.map_or(0, |(number, _)| *number)
}

/// No longer list and no longer buffer is in any record.
fn within_the_format(call: &Call) {
    assert!(call.stored.len() <= call.length, "{call:?}");
    assert!(call.length <= 262_144, "{call:?}");
    assert!(call.room <= 65_536, "{call:?}");
}

#[test]
fn limits_of_the_format() {
    let mut rng = Random::new(12);
    let random: Vec<Call> = (0..20_000).map(|_| chance::call(&mut rng)).collect();
    for calls in [writes::fixed(), random] {
        calls.iter().for_each(within_the_format);
        assert!(calls.iter().any(|call| call.length > 131_072));
        assert!(calls.iter().any(|call| call.room == 65_536));
    }
}

/// The records read back give the lines by the layout alone.
#[test]
fn records_play_back() {
    let records = writes::all(3, 600);
    let read = read(&records.input);
    assert_eq!(read.len(), 600);
    for (call, line) in read.iter().zip(records.output.lines()) {
        within_the_format(call);
        let number = answer(call);
        let mut buffer = vec![170; call.room];
        let mut size = 0;
        if number == 0 {
            let mut events = call.stored.clone();
            events.resize(call.length, 0);
            size = 27 + call.length;
            buffer[..size].copy_from_slice(&expected(call.setup, &events));
        }
        let figure = buffer
            .iter()
            .fold(0, |d, &x| (31 * d + u64::from(x)) % 65_521);
        assert_eq!(line, format!("write {number} {size} {figure}"));
    }
}

/// Every answer of the writer, among the fixed calls and the random ones.
#[test]
fn every_answer_is_shown() {
    let mut rng = Random::new(11);
    let random: Vec<Call> = (0..800).map(|_| chance::call(&mut rng)).collect();
    for calls in [writes::fixed(), random] {
        for number in [0, 1, 2, 3, 4, 5, 14, 16, 17] {
            let shown = calls.iter().filter(|call| answer(call) == number);
            assert!(shown.count() > 1, "{number}");
        }
    }
}

#[test]
fn fixed_lengths_and_buffers() {
    let calls = writes::fixed();
    for (length, room, number) in [
        (0, 27, 0),
        (0, 26, 17),
        (0, 28, 0),
        (0, 0, 17),
        (2, 29, 0),
        (22, 49, 0),
        (22, 48, 17),
        (22, 50, 0),
        (22, 65_536, 0),
        (256, 283, 0),
        (256, 282, 17),
        (258, 285, 0),
        (510, 537, 0),
        (512, 539, 0),
        (4_660, 4_687, 0),
        (32_512, 32_539, 0),
        (32_740, 32_766, 17),
        (32_740, 32_767, 0),
        (32_740, 32_768, 0),
        (32_741, 32_768, 14),
        (32_742, 32_769, 16),
        (32_743, 65_536, 14),
        (32_744, 65_536, 16),
        (65_536, 65_536, 16),
        (262_143, 65_536, 14),
        (262_144, 65_536, 16),
        (262_144, 0, 16),
    ] {
        let there = |call: &Call| (call.length, call.room, answer(call)) == (length, room, number);
        assert!(calls.iter().any(there), "{length} {room} {number}");
    }
}

#[test]
fn mixed_bytes() {
    let bytes = lists::mixed(32_740);
    for block in bytes.chunks(256) {
        let mut seen = [false; 256];
        for &byte in block {
            assert!(!std::mem::replace(&mut seen[usize::from(byte)], true));
        }
    }
    for pair in bytes.chunks_exact(256).collect::<Vec<_>>().windows(2) {
        assert_ne!(pair[0], pair[1]);
    }
}

#[test]
fn batches_of_writes() {
    let fixed = writes::fixed();
    assert_eq!(fixed.len(), FIXED);
    assert!(fixed.contains(&Call::whole(P11_SETUP, &P11_EVENTS)));
    for pair in [1, 2, 3, 4, 5, 14, 16, 17].windows(2) {
        assert!(fixed.contains(&refusals::faulty(pair)));
    }
    for seed in 0..20 {
        let records = writes::all(seed, 200);
        assert_eq!(records.count, 200);
        assert_eq!(records.output.lines().count(), 200);
        assert!(records.input.len() < 400_000);
        let read = read(&records.input);
        assert!(read.starts_with(&fixed));
        read.iter().for_each(within_the_format);
        let few = writes::all(seed, 9);
        assert_eq!(few.count, 9);
        assert!(records.input.starts_with(&few.input));
        assert!(records.output.starts_with(&few.output));
    }
    let [first, second] = [writes::all(7, 200), writes::all(7, 200)];
    assert!(first.input == second.input && first.output == second.output);
    assert!(first.input != writes::all(8, 200).input);
}
