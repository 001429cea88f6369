//! Times of the archive and the simulator on the same lists.

use std::fs::File;
use std::hint::black_box;
use std::io;
use std::process::{Command, Stdio};
use std::time::{Duration, Instant};

use simulator::day_file::lay_out;

use crate::archive;
use crate::dearest;
use crate::lists::{kinds, Kind, Setup, KINDS, MOST_EVENTS};
use crate::setups;

/// Least rounds of a measurement, and least time.
const ROUNDS: u32 = 200;
const LEAST: Duration = Duration::from_secs(1);
/// Calls in one timed run of a call that takes about a microsecond.
pub const BATCH: usize = 64;
/// Rounds of whole programs.
const PROGRAM_ROUNDS: u32 = 30;
/// Events of a list call.
const LENGTHS: [usize; 3] = [16, 256, MOST_EVENTS];
/// Where the largest file is written for the programs.
const LARGEST: &str = "target/largest.day";

/// One list and what both sides make of it.
pub struct Bout {
    events: Vec<u8>,
    /// Events of one list call.
    length: usize,
    archive: Side<archive::State>,
    simulator: Side<simulator::State>,
}

/// One side's start, and what its last run gave.
struct Side<State> {
    fresh: State,
    last: State,
    journal: Vec<u8>,
    answers: u64,
}

impl<State: Clone> Side<State> {
    fn new(fresh: State) -> Side<State> {
        Side {
            last: fresh.clone(),
            fresh,
            journal: vec![0; 4 * MOST_EVENTS],
            answers: 0,
        }
    }
}

impl Bout {
    /// The list of a kind in calls of that many events.
    pub fn new(kind: &Kind, length: usize) -> Bout {
        let simulator = kind.start();
        let archive = archive::State::from_image(&simulator.to_image());
        Bout {
            events: kind.list(MOST_EVENTS),
            length,
            archive: Side::new(archive),
            simulator: Side::new(simulator),
        }
    }

    fn count(&self) -> usize {
        self.events.len() / 2
    }

    pub fn archive_list(&mut self) {
        let side = &mut self.archive;
        let mut state = side.fresh;
        let journals = side.journal.chunks_mut(4 * self.length);
        for (events, journal) in self.events.chunks(2 * self.length).zip(journals) {
            state = archive::run(state, events, journal).state;
        }
        side.last = state;
    }

    pub fn simulator_list(&mut self) {
        let side = &mut self.simulator;
        let mut state = side.fresh.clone();
        let journals = side.journal.chunks_mut(4 * self.length);
        for (events, journal) in self.events.chunks(2 * self.length).zip(journals) {
            state.run(events, journal);
        }
        side.last = state;
    }

    pub fn archive_events(&mut self) {
        let side = &mut self.archive;
        let mut state = side.fresh;
        for event in self.events.chunks_exact(2) {
            let done = archive::event(state, event[0].into(), event[1].into());
            side.answers += u64::from(done.answer);
            state = done.state;
        }
        side.last = state;
    }

    pub fn simulator_events(&mut self) {
        let side = &mut self.simulator;
        let mut state = side.fresh.clone();
        for event in self.events.chunks_exact(2) {
            side.answers += u64::from(state.event(event[0], event[1]));
        }
        side.last = state;
    }

    /// Both sides came to the same.
    fn agree(&self) -> bool {
        let (archive, simulator) = (&self.archive, &self.simulator);
        archive.last.to_image() == simulator.last.to_image()
            && archive.journal == simulator.journal
            && archive.answers == simulator.answers
    }
}

/// The best times of both sides, in seconds.
pub struct Best {
    archive: f64,
    simulator: f64,
}

impl Best {
    const NONE: Best = Best {
        archive: f64::MAX,
        simulator: f64::MAX,
    };

    /// Both times in a unit of that many seconds, and their ratio.
    pub fn cells(&self, unit: f64) -> String {
        let ratio = self.archive / self.simulator;
        let (archive, simulator) = (self.archive / unit, self.simulator / unit);
        format!("{archive:.2} | {simulator:.2} | {ratio:.2}")
    }
}

fn seconds(run: impl FnOnce()) -> f64 {
    let start = Instant::now();
    run();
    start.elapsed().as_secs_f64()
}

/// The best times of many rounds, in each of which all run.
fn best_times<On, const COUNT: usize>(on: &mut On, all: [fn(&mut On); COUNT]) -> [f64; COUNT] {
    let mut best = [f64::MAX; COUNT];
    let start = Instant::now();
    let mut rounds = 0;
    while rounds < ROUNDS || start.elapsed() < LEAST {
        for (best, run) in best.iter_mut().zip(all) {
            *best = best.min(seconds(|| run(black_box(on))));
        }
        rounds += 1;
    }
    best
}

/// The best times of both sides.
pub fn best<On>(on: &mut On, archive: fn(&mut On), simulator: fn(&mut On)) -> Best {
    let [archive, simulator] = best_times(on, [archive, simulator]);
    Best { archive, simulator }
}

/// Nanoseconds for an event of the list call and of the event call.
fn list_cells(kind: &Kind, length: usize) -> String {
    let mut bout = Bout::new(kind, length);
    let best = best(&mut bout, Bout::archive_list, Bout::simulator_list);
    assert!(bout.agree(), "the lists differ: run `bench differ`");
    best.cells(1e-9 * bout.count() as f64)
}

fn event_cells(kind: &Kind) -> String {
    let mut bout = Bout::new(kind, MOST_EVENTS);
    let best = best(&mut bout, Bout::archive_events, Bout::simulator_events);
    assert!(bout.agree(), "the events differ: run `bench differ`");
    best.cells(1e-9 * bout.count() as f64)
}

fn print_lists() {
    println!("List call, nanoseconds for an event, in calls of 16, 256 and 16,370 events:\n");
    println!("| list | 16: archive | simulator | ratio | 256: archive | simulator | ratio | 16,370: archive | simulator | ratio |");
    println!("|---|--:|--:|--:|--:|--:|--:|--:|--:|--:|");
    for kind in kinds() {
        let cells = LENGTHS.map(|length| list_cells(kind, length));
        println!("| {} | {} |", kind.title, cells.join(" | "));
    }
}

fn print_events() {
    println!(
        "\nEvent call, which checks the whole state for every event, nanoseconds for an event:\n"
    );
    println!("| list | archive | simulator | ratio |");
    println!("|---|--:|--:|--:|");
    for kind in kinds() {
        println!("| {} | {} |", kind.title, event_cells(kind));
    }
}

/// The largest day file and the texts that both sides make of it.
struct Texts {
    file: Vec<u8>,
    archive: Vec<u8>,
    size: usize,
    simulator: String,
}

impl Texts {
    fn new(file: &[u8]) -> Texts {
        Texts {
            file: file.to_vec(),
            archive: vec![0; 16 * MOST_EVENTS],
            size: 0,
            simulator: String::new(),
        }
    }

    fn archive(&mut self) {
        self.size = archive::file_text(&self.file, &mut self.archive).size;
    }

    fn simulator(&mut self) {
        self.simulator = simulator::file_text(&self.file);
    }
}

fn text_cells(file: &[u8]) -> String {
    let mut texts = Texts::new(file);
    let best = best(&mut texts, Texts::archive, Texts::simulator);
    let got = &texts.archive[..texts.size];
    assert!(
        got == texts.simulator.as_bytes(),
        "the texts differ: run `bench differ`"
    );
    best.cells(1e-6)
}

/// The largest day file, and buffers for it.
struct Files {
    setup: Setup,
    events: Vec<u8>,
    file: Vec<u8>,
    archive: Vec<u8>,
    simulator: Vec<u8>,
    copy: Vec<u8>,
}

impl Files {
    fn new(setup: Setup, events: &[u8]) -> Files {
        let file = lay_out(setup, events);
        let buffer = vec![0; file.len()];
        Files {
            setup,
            events: events.to_vec(),
            file,
            archive: buffer.clone(),
            simulator: buffer.clone(),
            copy: buffer,
        }
    }

    fn archive(&mut self) {
        let setup = self.setup.map(u32::from);
        for _ in 0..BATCH {
            let out = black_box(&mut self.archive);
            black_box(archive::write_file(setup, black_box(&self.events), out));
        }
    }

    fn simulator(&mut self) {
        for _ in 0..BATCH {
            let out = black_box(&mut self.simulator);
            let done = simulator::write_day_file(self.setup, black_box(&self.events), out);
            let _ = black_box(done);
        }
    }

    /// Two plain copies of the file for each call.
    fn copies(&mut self) {
        for _ in 0..2 * BATCH {
            black_box(&mut self.copy).copy_from_slice(black_box(&self.file));
        }
    }

    /// Every buffer holds the file.
    fn agree(&self) -> bool {
        [&self.archive, &self.simulator, &self.copy]
            .iter()
            .all(|buffer| **buffer == self.file)
    }
}

/// Both sides' times of writing the largest file, and how the archive's
/// stands to two copies of the file.
fn write_cells(kind: &Kind, events: &[u8]) -> (String, String) {
    let mut files = Files::new(kind.setup, events);
    let all = [Files::archive, Files::simulator, Files::copies];
    let [archive, simulator, copies] = best_times(&mut files, all);
    assert!(files.agree(), "the files differ: run `bench differ`");
    let unit = 1e-6 * BATCH as f64;
    let target = format!(
        "Writing it takes {:.2} µs, copying its bytes twice {:.2} µs: {:.2}.",
        archive / unit,
        copies / unit,
        archive / copies
    );
    (Best { archive, simulator }.cells(unit), target)
}

/// A program on the largest file.
fn program(path: &str, words: &[&str]) -> io::Result<()> {
    let status = Command::new(path)
        .args(words)
        .stdin(File::open(LARGEST)?)
        .stdout(Stdio::null())
        .status()?;
    if status.success() {
        return Ok(());
    }
    Err(io::Error::other(format!("{path}: {status}")))
}

/// Both programs from start to end.
fn program_cells() -> io::Result<String> {
    let mut best = Best::NONE;
    let (mut pads, mut run) = (Ok(()), Ok(()));
    for _ in 0..PROGRAM_ROUNDS {
        let time = seconds(|| pads = program("target/bin/pads", &[]));
        best.archive = best.archive.min(time);
        let time = seconds(|| run = program("simulator/target/release/simulator", &["run", "-"]));
        best.simulator = best.simulator.min(time);
    }
    pads.and(run).map(|()| best.cells(1e-6))
}

fn print_file() -> io::Result<()> {
    let kind = &KINDS[1];
    let events = kind.list(MOST_EVENTS);
    let file = lay_out(kind.setup, &events);
    std::fs::write(LARGEST, &file)?;
    println!(
        "\nThe largest day file (16,370 events, heavy contention), microseconds for the file:\n"
    );
    println!("| what | archive | simulator | ratio |");
    println!("|---|--:|--:|--:|");
    println!(
        "| its text, `zevgorim_file_text` and `simulator::file_text` | {} |",
        text_cells(&file)
    );
    let (cells, target) = write_cells(kind, &events);
    println!("| writing it, `zevgorim_write_file` and `simulator::write_day_file` | {cells} |");
    println!(
        "| the whole program, `pads` and `simulator run` | {} |",
        program_cells()?
    );
    println!("\n{target}");
    Ok(())
}

/// The whole table.
pub fn print() -> io::Result<()> {
    print_lists();
    print_events();
    setups::print();
    dearest::print();
    print_file()
}
