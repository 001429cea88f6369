//! Lists and buffers of all lengths, and lists of all bytes.

use super::{Call, MOST_BYTES, MOST_ROOM};
use crate::calls::UNTOUCHED;
use crate::cases::worked::{
    p11_file, P10_EVENTS, P10_SETUP, P11_EVENTS, P11_SETUP, P9_EVENTS, P9_SETUP,
};

/// Its four numbers differ.
const SETUP: [u8; 4] = [5, 8, 2, 3];

/// More setups of four numbers that differ.
const MORE_SETUPS: [[u8; 4]; 3] = [[3, 1, 5, 7], [7, 2, 4, 6], [64, 16, 1, 3]];

/// The longest list of an accepted call.
const LONGEST_LIST: usize = 32_740;

/// Bytes of which 256 neighbours from a multiple of 256 on all differ, and
/// which go on otherwise at each such place.
pub fn mixed(length: usize) -> Vec<u8> {
    (0..length)
        .map(|place| (1 + 167 * place + 59 * (place / 256)) as u8)
        .collect()
}

/// The worked lists, in buffers about the file of the last one.
fn worked() -> Vec<Call> {
    let p11 = Call::whole(P11_SETUP, &P11_EVENTS);
    let mut calls = vec![
        p11.clone(),
        Call::whole(P9_SETUP, &P9_EVENTS),
        Call::whole(P10_SETUP, &P10_EVENTS),
    ];
    let rooms = [48, 50, 51, 100, 4_096, MOST_ROOM, 27, 26, 22, 1, 0];
    calls.extend(rooms.map(|room| p11.clone().with_room(room)));
    calls
}

/// No events, in buffers about the shortest file.
fn empty() -> Vec<Call> {
    [27, 26, 28, 64, MOST_ROOM, 1, 0]
        .map(|room| Call::whole(SETUP, &[]).with_room(room))
        .to_vec()
}

/// Some few bytes, an odd number of them too.
fn few() -> Vec<Call> {
    [2, 4, 6, 1, 3, 21]
        .map(|length| Call::whole(SETUP, &mixed(length)))
        .to_vec()
}

/// The longest file, in buffers about it.
fn longest() -> Vec<Call> {
    let padded = Call::padded(P11_SETUP, &P11_EVENTS, LONGEST_LIST);
    let mut calls = vec![Call::whole(SETUP, &mixed(LONGEST_LIST))];
    let rooms = [32_767, 32_766, 32_768, MOST_ROOM, 27, 0];
    calls.extend(rooms.map(|room| padded.clone().with_room(room)));
    calls
}

/// Lists about the limit and far above it; the low bytes of some of the
/// lengths are those of a short list.
fn about_the_limit() -> Vec<Call> {
    let lengths = [
        LONGEST_LIST - 2,
        32_741,
        32_742,
        32_743,
        32_744,
        32_768,
        65_536,
        65_538,
        65_558,
        65_559,
        131_072,
        MOST_BYTES,
        MOST_BYTES - 1,
    ];
    let mut calls = lengths
        .map(|length| Call::padded(SETUP, &P11_EVENTS, length).with_room(MOST_ROOM))
        .to_vec();
    for (length, room) in [(32_741, 32_768), (32_742, 32_769), (MOST_BYTES, 0)] {
        calls.push(Call::padded(SETUP, &P11_EVENTS, length).with_room(room));
    }
    calls
}

/// Lengths whose bytes differ: lists of mostly zeros, lists stored whole, and
/// buffers one byte short or enough for the low byte of the length alone.
fn size_bytes() -> Vec<Call> {
    let mut calls = [
        128, 254, 256, 258, 510, 512, 514, 4_660, 13_330, 16_384, 32_512,
    ]
    .map(|length| Call::padded(SETUP, &mixed(10), length))
    .to_vec();
    calls.extend(
        [200, 254, 256, 258, 510, 512, 4_660, 13_330]
            .map(|length| Call::whole(SETUP, &mixed(length))),
    );
    for (length, room) in [(256, 27), (256, 282), (258, 29), (32_512, 32_538)] {
        calls.push(Call::padded(SETUP, &mixed(10), length).with_room(room));
    }
    calls
}

/// Every byte as a kind and as a process, and lists of events that no
/// machine accepts. One holds a day file, one what the buffer holds.
fn event_bytes() -> Vec<Call> {
    let strangers: Vec<u8> = (SETUP[0]..=255).flat_map(|p| [p % 3, p]).collect();
    let mut calls = [
        (0..=255).collect(),
        (0..=255).rev().collect(),
        (0..=255).flat_map(|kind| [kind, 4]).collect(),
        (0..=255).flat_map(|process| [1, process]).collect(),
        strangers,
        vec![2, 0, 1, 0, 3, 0, 255, 255, 128, 64, 0, 200],
        [&p11_file()[..], &[0]].concat(),
        vec![UNTOUCHED; 40],
        vec![255; 40],
        vec![0; 40],
    ]
    .map(|events| Call::whole(SETUP, &events))
    .to_vec();
    calls.extend(MORE_SETUPS.map(|setup| Call::whole(setup, &mixed(30))));
    calls
}

pub fn calls() -> Vec<Call> {
    let mut calls = worked();
    calls.extend(empty());
    calls.extend(few());
    calls.extend(longest());
    calls.extend(about_the_limit());
    calls.extend(size_bytes());
    calls.extend(event_bytes());
    calls
}
