//! The proved archive beside the simulator: a differential test, and the
//! speed of both.

mod archive;
mod count;
mod dearest;
mod differ;
mod lists;
mod setups;
mod speed;

use std::process::ExitCode;
use std::{env, io};

const USAGE: &str = "usage: bench differ [SEED] [EVENTS]
       bench speed
       bench count KIND WHICH [TIMES]
KIND: light, heavy, queues, morning, rows or refusals, or one of them with -closed after it
WHICH: archive-list, simulator-list, archive-event or simulator-event";

/// Whether all is well; none for bad usage.
fn command(words: &[&str]) -> io::Result<Option<bool>> {
    match words {
        ["differ", rest @ ..] if rest.len() <= 2 => differ_command(rest),
        ["speed"] => speed::print().map(|()| Some(true)),
        ["count", kind, which] => Ok(count::command(kind, which, "10")),
        ["count", kind, which, times] => Ok(count::command(kind, which, times)),
        _ => Ok(None),
    }
}

fn differ_command(words: &[&str]) -> io::Result<Option<bool>> {
    let number = |place: usize, default: u64| match words.get(place) {
        Some(word) => word.parse().ok(),
        None => Some(default),
    };
    let (Some(seed), Some(events)) = (number(0, 1), number(1, 10_000_000)) else {
        return Ok(None);
    };
    differ::run(seed, events).map(Some)
}

fn main() -> ExitCode {
    let arguments: Vec<String> = env::args_os()
        .skip(1)
        .map(|word| word.to_string_lossy().into_owned())
        .collect();
    let words: Vec<&str> = arguments.iter().map(String::as_str).collect();
    match command(&words) {
        Ok(Some(true)) => ExitCode::SUCCESS,
        Ok(Some(false)) => ExitCode::from(1),
        Ok(None) => {
            eprintln!("{USAGE}");
            ExitCode::from(2)
        }
        Err(error) => {
            eprintln!("bench: {error}");
            ExitCode::from(1)
        }
    }
}
