//! Document 02, request e: the setup with closed names.

use super::partial_setup::refusal;
use super::{closed, fresh};
use crate::calls::closed::random_closed;
use crate::cases::shapes::triples;
use crate::random::Random;
use crate::writes::refusals::setup_with;
use crate::{read_day_file, write_day_file, GateReport, State};

/// Whether name `name` lies below node v, by halving the names at each level.
fn lies_below([_, l, g, b]: [u8; 4], name: u8, v: u8) -> bool {
    let (mut node, mut first, mut width) = (1, 0, l * g * b);
    let mut way = vec![node];
    while node < l {
        width /= 2;
        let right = name >= first + width;
        first += if right { width } else { 0 };
        node = 2 * node + u8::from(right);
        way.push(node);
    }
    way.contains(&v)
}

/// The fresh state by the paper's sentences.
pub fn expected(setup: [u8; 4], list: &[u8]) -> State {
    let [n, l, g, b] = setup;
    let open: Vec<u8> = (0..l * g * b).filter(|x| !list.contains(x)).collect();
    let names = 0..l * g * b;
    let mut state = State {
        n,
        l,
        g,
        b,
        closed: names
            .filter(|x| list.contains(x))
            .map(|name| 2_u64.pow(u32::from(name)))
            .sum(),
        gate: open.len() as i8,
        ..State::BLANK
    };
    for v in 1..l {
        let left = open.iter().filter(|&&name| lies_below(setup, name, 2 * v));
        state.counters[usize::from(v)] = left.count() as u8;
    }
    for process in &mut state.processes[..usize::from(n)] {
        (process.node, process.name) = (1, 255);
    }
    state
}

/// The first refusal in the paper's order, or 0.
pub fn closed_refusal(setup: [u8; 4], list: &[u8]) -> u8 {
    let number = refusal(setup);
    if number != 0 {
        return number;
    }
    let [_, l, g, b] = setup;
    let k = l * g * b;
    if list.iter().any(|&name| name >= k) {
        19
    } else if (0..k).all(|name| list.contains(&name)) {
        20
    } else {
        0
    }
}

fn made([n, l, g, b]: [u8; 4], list: &[u8]) -> Result<State, u8> {
    State::closed_setup(n, l, g, b, list)
}

/// What the setup gives is what the paper says.
fn agrees(setup: [u8; 4], list: &[u8]) {
    let by_paper = match closed_refusal(setup, list) {
        0 => Ok(expected(setup, list)),
        number => Err(number),
    };
    assert_eq!(made(setup, list), by_paper, "{setup:?} {list:?}");
}

#[test]
fn by_hand() {
    // Leaves of two segments of two bits: names 0 to 3, 4 to 7, 8 to 11, 12
    // to 15.
    let state = closed([3, 4, 2, 2], &[15, 0, 1, 9, 9, 0]);
    assert_eq!(state.closed, 0b1000_0010_0000_0011);
    assert_eq!(state.gate, 12);
    assert_eq!(state.counters[..5], [0, 6, 2, 3, 0]);
    assert_eq!(state.segments, [0; 64]);
    assert_eq!(state.open_names(), 12);
    // The left half closed: all go right at the root.
    let state = closed([3, 2, 1, 4], &[0, 1, 2, 3]);
    assert_eq!((state.gate, state.counters[1]), (4, 0));
    // One open name, the last.
    let list: Vec<u8> = (0..63).collect();
    let state = closed([1, 16, 2, 2], &list);
    assert_eq!((state.closed, state.gate), (u64::MAX >> 1, 1));
    assert_eq!(state.counters, [0; 16]);
    let report = GateReport {
        answer: 0,
        open: 1,
        queued: 0,
    };
    assert_eq!(state.gate_report(), report);
}

/// Every set of names, up to eight of them.
#[test]
fn every_closure_of_small_setups() {
    let mut number = 0;
    for [l, g, b] in triples() {
        let k = l * g * b;
        if k > 8 {
            continue;
        }
        for set in 0..1_u16 << k {
            let list: Vec<u8> = (0..k).filter(|name| set >> name & 1 == 1).collect();
            agrees([5, l, g, b], &list);
            number += 1;
        }
    }
    assert!(number > 3_000, "{number}");
}

/// Random closures of every shape, with lists in any order and with doubles.
#[test]
fn every_shape() {
    let mut rng = Random::new(51);
    for [l, g, b] in triples() {
        for n in [1, 31, 64] {
            for _ in 0..20 {
                let list = random_closed(&mut rng, l * g * b);
                agrees([n, l, g, b], &list);
            }
        }
    }
}

/// An empty list gives the setup's state; the setup, the partial setup and
/// day files close none.
#[test]
fn none_closed() {
    for [l, g, b] in triples() {
        let setup = [7, l, g, b];
        let start = fresh(setup);
        assert_eq!(start.closed, 0);
        assert_eq!(start, expected(setup, &[]));
        assert_eq!(closed(setup, &[]), start);
        for count in [0, 1, 5, u64::MAX] {
            let partial = State::partial_setup(7, l, g, b, count).unwrap();
            assert_eq!((partial.closed, partial.gate), (0, start.gate));
        }
        let mut file = [0; 29];
        assert_eq!(write_day_file(setup, &[0, 6], &mut file), Ok(29));
        let (read, events) = read_day_file(&file).unwrap();
        assert_eq!((read, events), (start, &[0, 6][..]));
    }
}

/// The day file of a setup that closes names is the one of its four numbers,
/// which closes none.
#[test]
fn day_files_close_none() {
    let state = closed([4, 2, 1, 3], &[0, 5]);
    let mut file = [0; 27];
    let setup = [state.n, state.l, state.g, state.b];
    assert_eq!(write_day_file(setup, &[], &mut file), Ok(27));
    assert_eq!(read_day_file(&file).unwrap().0, fresh([4, 2, 1, 3]));
}

/// A name named twice, or any number of times, is closed once.
#[test]
fn doubles() {
    let mut rng = Random::new(52);
    for [l, g, b] in triples() {
        let setup = [9, l, g, b];
        let mut list = random_closed(&mut rng, l * g * b);
        let once = closed(setup, &list);
        list.extend(list.clone());
        assert_eq!(closed(setup, &list), once);
        rng.shuffle(&mut list);
        assert_eq!(closed(setup, &list), once);
        if let Some(&name) = list.first() {
            list.resize(70_000, name);
            assert_eq!(closed(setup, &list), once);
        }
        list.sort_unstable();
        list.dedup();
        assert_eq!(closed(setup, &list), once);
        assert_eq!(once.closed.count_ones() as usize, list.len());
    }
}

/// Every number alone in the list of every shape.
#[test]
fn every_number() {
    for [l, g, b] in triples() {
        let k = l * g * b;
        for name in 0..=255 {
            let answer = made([3, l, g, b], &[name]).err().unwrap_or(0);
            let by_paper = match (name < k, k) {
                (false, _) => 19,
                (true, 1) => 20,
                _ => 0,
            };
            assert_eq!(answer, by_paper);
        }
    }
}

/// All closed gets 20; one too many among them, at any place, 19.
#[test]
fn all_closed() {
    for [l, g, b] in triples() {
        let setup = [3, l, g, b];
        let k = l * g * b;
        let all: Vec<u8> = (0..k).collect();
        assert_eq!(made(setup, &all), Err(20));
        assert_eq!(made(setup, &all.repeat(5)), Err(20));
        for place in 0..=all.len() {
            for bad in [k, 64, 128, 255] {
                let mut list = all.clone();
                list.insert(place, bad);
                assert_eq!(made(setup, &list), Err(19));
            }
        }
        for left in 0..k {
            let mut list = all.clone();
            list.remove(usize::from(left));
            agrees(setup, &list);
            assert!(made(setup, &list).is_ok());
        }
    }
}

/// Of any faults at once the first is answered, the list's last.
#[test]
fn order_of_the_refusals() {
    for choice in 0..32_u8 {
        let setup = setup_with(|fault| choice >> (fault - 1) & 1 == 1);
        let [_, l, g, b] = setup.map(usize::from);
        let all: Vec<u8> = (0..l * g * b).take(256).map(|name| name as u8).collect();
        let first = (choice.trailing_zeros() + 1) as u8;
        for (list, number) in [
            (all.clone(), 20),
            (vec![255], 19),
            ([&all[..], &[255]].concat(), 19),
            ([&[255], &all[..]].concat(), 19),
        ] {
            let answer = if choice == 0 { number } else { first };
            assert_eq!(made(setup, &list), Err(answer), "{setup:?}");
        }
    }
}

/// Any four numbers with lists of any bytes.
#[test]
fn any_numbers_and_any_list() {
    let mut rng = Random::new(53);
    let numbers = [0, 1, 2, 3, 4, 7, 8, 9, 16, 17, 64, 65, 128, 255];
    let mut answers = [0; 21];
    for _ in 0..60_000 {
        let setup = std::array::from_fn(|place| {
            let usual = [[7, 64], [2, 8], [1, 2], [2, 4]][place];
            match rng.below(8) {
                0 => numbers[rng.below(numbers.len())],
                _ => usual[rng.below(2)],
            }
        });
        let most = rng.below(66);
        let limit = [3, 8, 17, 33, 65][rng.below(5)];
        let list: Vec<u8> = (0..most).map(|_| rng.byte_below(limit)).collect();
        agrees(setup, &list);
        answers[usize::from(closed_refusal(setup, &list))] += 1;
    }
    for number in [0, 1, 2, 3, 4, 5, 19, 20] {
        assert!(answers[number] > 200, "{number} {answers:?}");
    }
}

/// Every sort of list comes, and each leaves a name open.
#[test]
fn random_lists() {
    let mut rng = Random::new(54);
    let mut shown = [0; 8];
    for turn in 0..20_000 {
        let k = [1, 2, 6, 16, 60, 64][turn % 6];
        let list = random_closed(&mut rng, k);
        let mut unlike = list.clone();
        unlike.sort_unstable();
        unlike.dedup();
        assert!(list.iter().all(|&name| name < k) && unlike.len() < usize::from(k));
        assert!(list.len() <= 160);
        let sorts = [
            list.is_empty(),
            unlike.len() + 1 == usize::from(k),
            (1..=4).contains(&unlike.len()),
            unlike.len() > usize::from(k) / 2,
            list.len() > unlike.len(),
            list.len() > usize::from(k),
            list.len() > 1 && list.is_sorted(),
            list.len() > 1 && !list.is_sorted() && !list.iter().rev().is_sorted(),
        ];
        for (number, sort) in shown.iter_mut().zip(sorts) {
            *number += usize::from(sort);
        }
    }
    assert!(shown.iter().all(|&number| number > 1_000), "{shown:?}");
}

/// The image: the four numbers, eight bytes of closed names, low byte first,
/// then the gate word and the rest.
#[test]
fn image() {
    let mut state = closed([3, 16, 2, 2], &[0, 9, 18, 27, 36, 45, 54, 63]);
    state.queue_len = 5;
    state.queue[0] = 77;
    state.counters[1] = 78;
    state.segments[63] = 79;
    let image = state.to_image();
    assert_eq!(image.len(), 542);
    assert_eq!(
        image[..15],
        [3, 16, 2, 2, 1, 2, 4, 8, 16, 32, 64, 128, 56, 5, 77]
    );
    assert_eq!((image[78], image[79], image[157]), (0, 78, 79));
    assert_eq!(image[158..164], [0, 1, 0, 255, 0, 0]);
    assert_eq!(State::from_image(&image), state);
    assert_eq!(State::BLANK.closed, 0);
}
