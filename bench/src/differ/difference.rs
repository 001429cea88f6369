//! The first difference, and how it is shown.

use std::fmt::{Debug, Display};
use std::{fs, io};

use simulator::State;

use crate::archive::{
    self, CLOSED_AT, COUNTERS_AT, GATE_AT, PROCESS_AT, QUEUED_AT, QUEUE_AT, WORDS_AT,
};

/// Where the day file of a difference is written.
const REPLAY: &str = "target/difference.day";

/// What differs between the archive and the simulator.
pub struct Difference {
    what: String,
    got: String,
    expected: String,
    /// What the call was given, a line each.
    given: Vec<String>,
    /// The case as a day file.
    file: Option<Vec<u8>>,
}

pub type Check = Result<(), Difference>;

/// Both are equal, or what differs.
pub fn same<T: PartialEq + Debug>(what: impl Display, got: T, expected: T) -> Check {
    if got == expected {
        return Ok(());
    }
    Err(Difference::new(
        what,
        format!("{got:?}"),
        format!("{expected:?}"),
    ))
}

/// Both states are equal in every byte, or the first place that differs.
pub fn same_state(what: impl Display, got: archive::State, expected: &State) -> Check {
    let (got, expected) = (got.to_image(), expected.to_image());
    if got == expected {
        return Ok(());
    }
    let at = first_difference(&got, &expected);
    same(
        format_args!("{what}: {} of the state", place(at)),
        got[at],
        expected[at],
    )
}

/// The first place in which two slices of one length differ.
pub fn first_difference(got: &[u8], expected: &[u8]) -> usize {
    let pairs = got.iter().zip(expected);
    pairs.take_while(|(x, y)| x == y).count()
}

/// What stands at a place of a state's image.
fn place(at: usize) -> String {
    let fields = ["stage", "node", "segment", "name", "steps", "returns"];
    let heads = ["N", "L", "g", "b"];
    match at {
        0..CLOSED_AT => heads[at].to_string(),
        CLOSED_AT..GATE_AT => format!("byte {} of the closed names", at - CLOSED_AT),
        GATE_AT => "the gate word".to_string(),
        QUEUED_AT => "the queue's length".to_string(),
        QUEUE_AT..COUNTERS_AT => format!("queue place {}", at - QUEUE_AT),
        COUNTERS_AT..WORDS_AT => format!("counter {}", at - COUNTERS_AT),
        WORDS_AT..PROCESS_AT => format!("segment word {}", at - WORDS_AT),
        _ => {
            let (process, field) = ((at - PROCESS_AT) / 6, (at - PROCESS_AT) % 6);
            format!("{} of process {process}", fields[field])
        }
    }
}

/// Numbers parted by spaces.
fn figures(bytes: &[u8]) -> String {
    let words: Vec<String> = bytes.iter().map(u8::to_string).collect();
    words.join(" ")
}

impl Difference {
    pub fn new(what: impl Display, got: String, expected: String) -> Difference {
        Difference {
            what: what.to_string(),
            got,
            expected,
            given: Vec::new(),
            file: None,
        }
    }

    /// Says what the call was given.
    pub fn given(mut self, what: impl Display, shown: impl Display) -> Difference {
        self.given.push(format!("{what}: {shown}"));
        self
    }

    /// Says which numbers the call was given.
    pub fn given_figures(self, what: impl Display, bytes: &[u8]) -> Difference {
        self.given(what, figures(bytes))
    }

    /// Adds the day file that shows it.
    pub fn replay(mut self, file: Vec<u8>) -> Difference {
        self.file = Some(file);
        self
    }

    /// Prints it and writes its day file.
    pub fn show(&self) -> io::Result<()> {
        println!("difference: {}", self.what);
        println!("got: {}", self.got);
        println!("expected: {}", self.expected);
        for line in &self.given {
            println!("{line}");
        }
        if let Some(file) = &self.file {
            fs::create_dir_all("target")?;
            fs::write(REPLAY, file)?;
            println!("day file: {REPLAY}");
        }
        Ok(())
    }
}
