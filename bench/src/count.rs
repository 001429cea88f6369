//! One list a fixed number of times, for counting instructions.

use std::hint::black_box;

use crate::lists::{Kind, MOST_EVENTS};
use crate::speed::Bout;

/// Runs it; none for bad usage.
pub fn command(kind: &str, which: &str, times: &str) -> Option<bool> {
    let kind = Kind::named(kind)?;
    let times: u32 = times.parse().ok()?;
    let mut bout = Bout::new(kind, MOST_EVENTS);
    let run: fn(&mut Bout) = match which {
        "archive-list" => Bout::archive_list,
        "simulator-list" => Bout::simulator_list,
        "archive-event" => Bout::archive_events,
        "simulator-event" => Bout::simulator_events,
        _ => return None,
    };
    for _ in 0..times {
        run(black_box(&mut bout));
    }
    Some(true)
}
