//! Setups that close names (document 02, request e): lists of every sort,
//! refusals, and every way to close the bits of a segment.

use super::closed_states::CLOSURES;
use super::partial::{holder, ONE_FAULT, TWO_FAULTS};
use super::reached::{closed, mid_run_from};
use super::Records;
use crate::cases::chance::setup;
use crate::image::IMAGE_BYTES;
use crate::random::Random;
use crate::state::State;
use crate::writes::chance::any_setup;

/// Most names in the list of a record.
pub const MOST_CLOSED: usize = 600;

/// A setup and its closed names.
pub(crate) type Closure = ([u8; 4], Vec<u8>);

/// For the ends of the lists' numbers: k is 1, 2, 16, 60 and 64.
pub(crate) const SETUPS: [[u8; 4]; 5] = [
    [1, 1, 1, 1],
    [5, 2, 1, 1],
    [12, 1, 2, 8],
    [20, 2, 5, 6],
    [64, 16, 2, 2],
];

/// For names named twice and more.
const DOUBLE_SETUPS: [[u8; 4]; 3] = [[5, 2, 1, 3], [9, 1, 1, 8], [64, 16, 2, 2]];

/// For whole segments, leaves and halves.
pub(crate) const BLOCK_SETUPS: [[u8; 4]; 5] = [
    [12, 1, 4, 3],
    [7, 2, 3, 2],
    [64, 4, 2, 2],
    [5, 8, 2, 3],
    [33, 16, 2, 2],
];

/// About the lengths that fewer bits than 16 cut.
const LENGTHS: [usize; 12] = [127, 128, 255, 256, 257, 300, 511, 512, 513, 588, 599, 600];

/// A list's length and the place of a number that is not below k.
const BAD_PLACES: [(usize, usize); 8] = [
    (256, 255),
    (257, 256),
    (300, 44),
    (513, 512),
    (600, 0),
    (600, 87),
    (600, 88),
    (600, 599),
];

/// A list of closed names for a setup with k names, at most 160 of them: none,
/// a few, many, neighbours or all but one, some named more than once, in any
/// order. One name always stays open.
pub fn random_closed(rng: &mut Random, k: u8) -> Vec<u8> {
    let mut names: Vec<u8> = (0..k.max(1)).collect();
    if rng.chance(4, 5) {
        rng.shuffle(&mut names);
    } else {
        let first = rng.below(names.len());
        names.rotate_left(first);
    }
    let most = names.len() - 1;
    names.truncate(match rng.below(6) {
        0 => 0,
        1 => most,
        2 | 3 => rng.below(most.min(4) + 1),
        _ => rng.below(most + 1),
    });
    if rng.chance(1, 2) {
        name_again(rng, &mut names);
    }
    match rng.below(4) {
        0 => names.sort_unstable(),
        1 => names.sort_unstable_by(|x, y| y.cmp(x)),
        _ => rng.shuffle(&mut names),
    }
    names
}

/// Names some of the list's names again.
fn name_again(rng: &mut Random, names: &mut Vec<u8>) {
    let unlike = names.len();
    let more = match rng.below(4) {
        _ if unlike == 0 => 0,
        0 => rng.below(97),
        1 => unlike,
        _ => 1 + rng.below(3),
    };
    for _ in 0..more {
        names.push(names[rng.below(unlike)]);
    }
}

/// Every name below the product, or as many as a byte can name.
fn every_name([_, l, g, b]: [u8; 4]) -> Vec<u8> {
    let product = usize::from(l) * usize::from(g) * usize::from(b);
    (0..product.min(256)).map(|name| name as u8).collect()
}

/// A number that no setup has, every name closed, and both.
fn faulty_lists(setup: [u8; 4]) -> [Vec<u8>; 3] {
    let all = every_name(setup);
    let both = [&all[..], &[255]].concat();
    [vec![255], all, both]
}

/// Each refusal of the four numbers with every faulty list. Of its three
/// setups the first one for which the lists are unlike has all of them.
fn refused_numbers(records: &mut Records, rng: &mut Random) {
    for (turn, setups) in ONE_FAULT.iter().chain(&TWO_FAULTS).enumerate() {
        let unlike = |&setup: &[u8; 4]| (1..255).contains(&every_name(setup).len());
        let whole = setups.iter().position(unlike);
        for (place, &setup) in setups.iter().enumerate() {
            let lists = faulty_lists(setup);
            let all = whole == Some(place);
            let chosen = if all { 0..3 } else { place..place + 1 };
            for list in &lists[chosen] {
                let state = holder(rng, setup, turn + place);
                records.closed_setup(&state, list);
            }
        }
    }
    for list in [&[][..], &[0], &[255]] {
        records.closed_setup(&State::BLANK, list);
    }
    let highest = State::from_image(&[255; IMAGE_BYTES]);
    records.closed_setup(&highest, &every_name([255; 4]));
}

/// Lists with numbers about k, 64, 128 and 255, lists of every name, of every
/// name and one too many, and of every name but one.
fn end_lists(k: u8) -> Vec<Vec<u8>> {
    let all: Vec<u8> = (0..k).collect();
    let twice: Vec<u8> = all.iter().rev().flat_map(|&name| [name, name]).collect();
    let (low, high) = all.split_at(usize::from(k) / 2);
    let mut lists = vec![
        all.clone(),
        twice,
        [&all[..], &[k]].concat(),
        [&[k], &all[..]].concat(),
        [low, &[k], high].concat(),
        all[..usize::from(k) - 1].to_vec(),
        all[1..].to_vec(),
        vec![k - 1],
        vec![k],
        vec![63],
        vec![64],
        vec![128],
        vec![255],
        vec![k - 1, k],
    ];
    lists.sort();
    lists.dedup();
    lists
}

fn ends(records: &mut Records, rng: &mut Random) {
    for (turn, setup) in SETUPS.into_iter().enumerate() {
        let [_, l, g, b] = setup;
        for (place, list) in end_lists(l * g * b).iter().enumerate() {
            let state = holder(rng, setup, turn + place);
            records.closed_setup(&state, list);
        }
    }
}

/// Names named more than once: they would be counted twice in the gate word,
/// and in counters for names below a left child.
fn doubles(records: &mut Records, rng: &mut Random) {
    for (turn, setup) in DOUBLE_SETUPS.into_iter().enumerate() {
        let [_, l, g, b] = setup;
        let k = l * g * b;
        let most: Vec<u8> = (0..k - 1).collect();
        let mut each_twice = most.repeat(2);
        rng.shuffle(&mut each_twice);
        let mut many = most.clone();
        many.resize(MOST_CLOSED, 0);
        let lists = [
            vec![0, 0],
            vec![k - 1; 3],
            vec![k / 2 - 1; usize::from(k)],
            vec![k / 2; MOST_CLOSED],
            each_twice,
            many,
        ];
        for (place, list) in lists.iter().enumerate() {
            let state = holder(rng, setup, turn + place);
            records.closed_setup(&state, list);
        }
    }
}

fn empty(records: &mut Records, rng: &mut Random) {
    for (turn, setup) in BLOCK_SETUPS.into_iter().enumerate() {
        let state = holder(rng, setup, turn);
        records.closed_setup(&state, &[]);
    }
}

/// Of one name, save that others stand at places about the powers of two and
/// at the end.
fn long_list(rng: &mut Random, k: u8, length: usize) -> Vec<u8> {
    let mut others: Vec<u8> = (0..k).collect();
    rng.shuffle(&mut others);
    let mut list = vec![others[0]; length];
    let places = [87, 88, 127, 128, 254, 255, 256, 257, 511, 512, length - 1];
    for (place, name) in places.into_iter().zip(&others[1..]) {
        if let Some(entry) = list.get_mut(place) {
            *entry = *name;
        }
    }
    list
}

/// Lists longer than k and than 255: accepted, with a number that is not
/// below k, and such that only the last name closes all.
fn lengths(records: &mut Records, rng: &mut Random) {
    let setups = [[64, 16, 2, 2], [20, 2, 5, 6], [33, 8, 1, 4]];
    let names = |[_, l, g, b]: [u8; 4]| l * g * b;
    for (turn, length) in LENGTHS.into_iter().enumerate() {
        let setup = setups[turn % 3];
        let state = holder(rng, setup, turn);
        records.closed_setup(&state, &long_list(rng, names(setup), length));
    }
    for (turn, (length, place)) in BAD_PLACES.into_iter().enumerate() {
        let setup = setups[turn % 3];
        let state = holder(rng, setup, turn);
        let mut list = long_list(rng, names(setup), length);
        list[place] = [names(setup), 64, 255][turn / 3];
        records.closed_setup(&state, &list);
    }
    for (turn, length) in [257, 300, MOST_CLOSED].into_iter().enumerate() {
        let setup = setups[turn];
        let mut list: Vec<u8> = (1..names(setup)).collect();
        list.resize(length, 1);
        for last in [0, 1] {
            list[length - 1] = last;
            let state = holder(rng, setup, turn);
            records.closed_setup(&state, &list);
        }
    }
}

/// One set of names in rising, falling and mixed order.
fn orders(records: &mut Records, rng: &mut Random) {
    for (turn, setup) in [[9, 4, 2, 2], [12, 16, 4, 1]].into_iter().enumerate() {
        let [_, l, g, b] = setup;
        let rising: Vec<u8> = (0..l * g * b).filter(|name| name % 5 < 2).collect();
        let falling: Vec<u8> = rising.iter().rev().copied().collect();
        let mut mixed = rising.clone();
        rng.shuffle(&mut mixed);
        for list in [rising, falling, mixed] {
            let state = holder(rng, setup, turn);
            records.closed_setup(&state, &list);
        }
    }
}

/// Closed names of so many segments. Their sets of closed bits come in turn,
/// from number `first` on, each beside its opposite, so that names stay open.
fn hole_list(b: u8, segments: usize, first: usize) -> Vec<u8> {
    let sets = 1_usize << b;
    let bits = 0..b;
    (0..segments)
        .flat_map(|r| {
            let number = (first + r) % sets;
            let set = [number / 2, sets - 1 - number / 2][number % 2];
            let closed = bits.clone().filter(move |bit| set >> bit & 1 == 1);
            closed.map(move |bit| r as u8 * b + bit)
        })
        .collect()
}

/// Setups of eight segments or, where b is small, of sixteen, in one to
/// sixteen leaves: for each b every set of a segment's bits is closed.
pub(crate) fn holes() -> Vec<Closure> {
    let mut closures = Vec::new();
    for b in 1..=8 {
        let segments = if b <= 4 { 16 } else { 8 };
        for first in (0..1 << b).step_by(usize::from(segments)) {
            let turn = first / usize::from(segments) + usize::from(b);
            let l = segments >> (turn % 4);
            let list = hole_list(b, usize::from(segments), first);
            closures.push(([64, l, segments / l, b], list));
        }
    }
    closures
}

fn every_hole(records: &mut Records, rng: &mut Random) {
    for (turn, (setup, mut list)) in holes().into_iter().enumerate() {
        rng.shuffle(&mut list);
        let state = holder(rng, setup, turn);
        records.closed_setup(&state, &list);
    }
}

/// The first and the last segment, leaf and half, the middle quarters, and all
/// but the first and the last segment and leaf.
pub(crate) fn blocks([_, l, g, b]: [u8; 4]) -> Vec<Vec<u8>> {
    let (k, leaf) = (l * g * b, g * b);
    let mut ranges = vec![
        (0, b),
        (k - b, k),
        (0, leaf),
        (k - leaf, k),
        (0, k / 2),
        (k / 2, k),
        (k / 4, k / 2),
        (k / 2, k - k / 4),
        (b, k),
        (0, k - b),
        (leaf, k),
        (0, k - leaf),
    ];
    ranges.sort_unstable();
    ranges.dedup();
    ranges.retain(|&(first, end)| first < end && end - first < k);
    ranges
        .into_iter()
        .map(|(first, end)| (first..end).collect())
        .collect()
}

fn every_block(records: &mut Records, rng: &mut Random) {
    for setup in BLOCK_SETUPS {
        for (turn, mut list) in blocks(setup).into_iter().enumerate() {
            rng.shuffle(&mut list);
            let state = holder(rng, setup, turn);
            records.closed_setup(&state, &list);
        }
    }
}

/// An accepted setup with so many leaves.
pub(crate) fn setup_of(rng: &mut Random, leaves: u8) -> [u8; 4] {
    let mut any = setup(rng);
    while any[1] != leaves {
        any = setup(rng);
    }
    any
}

fn random_closures(records: &mut Records, rng: &mut Random) {
    for leaves in [1, 2, 4, 8, 16] {
        for turn in 0..5 {
            let setup = setup_of(rng, leaves);
            let [_, l, g, b] = setup;
            let list = random_closed(rng, l * g * b);
            let state = holder(rng, setup, turn);
            records.closed_setup(&state, &list);
        }
    }
}

/// States of the other calls, fresh and in mid-run, that close names: what
/// they close does not matter.
fn other_states(records: &mut Records, rng: &mut Random) {
    for (setup, list) in CLOSURES {
        let fresh = closed(setup, list);
        records.closed_setup(&fresh, &[]);
        records.closed_setup(&fresh, &[2, 1]);
        let state = mid_run_from(rng, fresh);
        records.closed_setup(&state, list);
    }
}

pub fn add(records: &mut Records, rng: &mut Random) {
    refused_numbers(records, rng);
    ends(records, rng);
    doubles(records, rng);
    empty(records, rng);
    lengths(records, rng);
    orders(records, rng);
    every_hole(records, rng);
    every_block(records, rng);
    random_closures(records, rng);
    other_states(records, rng);
}

/// Mostly a list that the setup accepts.
fn any_list(rng: &mut Random, setup: [u8; 4]) -> Vec<u8> {
    let all = every_name(setup);
    let k = all.len().clamp(1, 64) as u8;
    let mut list = random_closed(rng, k);
    match rng.below(10) {
        0 => {
            let length = rng.below(MOST_CLOSED + 1);
            list = (0..length).map(|_| rng.byte()).collect();
        }
        1 => {
            list = all;
            rng.shuffle(&mut list);
        }
        2 => {
            let place = rng.below(list.len() + 1);
            list.insert(place, rng.between(k, 255));
        }
        3 if !list.is_empty() => {
            let length = list.len() + rng.below(MOST_CLOSED + 1 - list.len());
            list = list.iter().copied().cycle().take(length).collect();
        }
        _ => {}
    }
    list
}

/// A random setup that closes names.
pub(crate) fn add_any(records: &mut Records, rng: &mut Random) {
    let setup = any_setup(rng);
    let list = any_list(rng, setup);
    let turn = rng.below(4);
    let state = holder(rng, setup, turn);
    records.closed_setup(&state, &list);
}
