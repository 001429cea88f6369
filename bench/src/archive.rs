//! The archive's calls, as `c/zevgorim.h` declares them.
//!
//! Every call returns for every argument and writes only to the slice it is
//! lent, so the wrappers are safe. An empty slice of Rust is not null either.

use std::array::from_fn;
use std::mem::{offset_of, size_of};

/// Length of a state's image.
pub const IMAGE_BYTES: usize = PROCESS_AT + 6 * 64;

/// Where the image has the closed names, low byte first, and what follows.
pub const CLOSED_AT: usize = 4;
pub const GATE_AT: usize = CLOSED_AT + 8;
pub const QUEUED_AT: usize = GATE_AT + 1;
pub const QUEUE_AT: usize = QUEUED_AT + 1;
pub const COUNTERS_AT: usize = QUEUE_AT + 64;
pub const WORDS_AT: usize = COUNTERS_AT + 16;
pub const PROCESS_AT: usize = WORDS_AT + 64;

/// One process.
#[repr(C)]
#[derive(Clone, Copy, PartialEq, Eq, Debug)]
pub struct Process {
    pub stage: u8,
    pub node: u8,
    pub segment: u8,
    pub name: u8,
    pub steps: u8,
    pub returns: u8,
}

/// What a setup is given.
#[repr(C)]
#[derive(Clone, Copy, PartialEq, Eq, Debug)]
pub struct Setup {
    pub processes: u8,
    pub leaves: u8,
    pub segments: u8,
    pub bits: u8,
    /// Bit p is 1 where name p is closed.
    pub closed: u64,
}

/// The whole state.
#[repr(C)]
#[derive(Clone, Copy, PartialEq, Eq, Debug)]
pub struct State {
    pub setup: Setup,
    pub gate: i8,
    pub queued: u8,
    pub queue: [u8; 64],
    pub counters: [u8; 16],
    pub words: [u8; 64],
    pub process: [Process; 64],
}

/// The state after a call, and what it answers.
#[repr(C)]
#[derive(Clone, Copy, PartialEq, Eq, Debug)]
pub struct Done {
    pub state: State,
    pub answer: u8,
}

/// The gate report.
#[repr(C)]
#[derive(Clone, Copy, PartialEq, Eq, Debug)]
pub struct Report {
    pub answer: u8,
    pub free: u8,
    pub queued: u8,
}

/// One record of the roll: stage, name, and steps and returns together.
#[repr(C)]
#[derive(Clone, Copy, PartialEq, Eq, Debug)]
pub struct Status {
    pub stage: u8,
    pub name: u8,
    pub figure: u8,
}

/// What a call that fills a lent buffer answers, and how many bytes it wrote.
#[repr(C)]
#[derive(Clone, Copy, PartialEq, Eq, Debug)]
pub struct Written {
    pub answer: u8,
    pub size: usize,
}

/// What the call of the dearest list answers, its figure, and how many bytes
/// it wrote.
#[repr(C)]
#[derive(Clone, Copy, PartialEq, Eq, Debug)]
pub struct DearestList {
    pub answer: u8,
    pub figure: u8,
    pub size: usize,
}

/// A part of a lent file.
#[repr(C)]
#[derive(Clone, Copy, PartialEq, Eq, Debug)]
pub struct Part {
    pub offset: usize,
    pub size: usize,
}

const _: () = {
    assert!(size_of::<Process>() == 6);
    assert!(size_of::<Setup>() == 16);
    assert!(offset_of!(Setup, closed) == 8);
    assert!(size_of::<State>() == 552);
    assert!(offset_of!(State, gate) == 16);
    assert!(offset_of!(State, queued) == 17);
    assert!(offset_of!(State, queue) == 18);
    assert!(offset_of!(State, counters) == 82);
    assert!(offset_of!(State, words) == 98);
    assert!(offset_of!(State, process) == 162);
    assert!(size_of::<Done>() == 560);
    assert!(offset_of!(Done, state) == 0);
    assert!(offset_of!(Done, answer) == 552);
    assert!(IMAGE_BYTES == simulator::IMAGE_BYTES);
    assert!(size_of::<Report>() == 3);
    assert!(size_of::<Written>() == 16);
    assert!(offset_of!(Written, size) == 8);
    assert!(size_of::<DearestList>() == 16);
    assert!(offset_of!(DearestList, size) == 8);
    assert!(size_of::<Part>() == 16);
};

const _: () = assert!(size_of::<Status>() == 3);

mod calls {
    use super::{DearestList, Done, Part, Report, State, Written};

    extern "C" {
        pub fn zevgorim_setup(n: u32, l: u32, g: u32, b: u32) -> Done;
        pub fn zevgorim_partial_setup(n: u32, l: u32, g: u32, b: u32, count: u64) -> Done;
        pub fn zevgorim_closed_setup(
            n: u32,
            l: u32,
            g: u32,
            b: u32,
            closed: *const u8,
            closed_len: usize,
        ) -> Done;
        pub fn zevgorim_event(state: State, kind: u32, process: u32) -> Done;
        pub fn zevgorim_request(state: State, process: u32) -> Done;
        pub fn zevgorim_step(state: State, process: u32) -> Done;
        pub fn zevgorim_release(state: State, process: u32) -> Done;
        pub fn zevgorim_run(
            state: State,
            events: *const u8,
            events_len: usize,
            journal: *mut u8,
            journal_len: usize,
        ) -> Done;
        pub fn zevgorim_gate_report(state: State) -> Report;
        pub fn zevgorim_fill_status(
            state: State,
            records: *mut super::Status,
            records_len: usize,
        ) -> u8;
        pub fn zevgorim_dearest_list(
            n: u32,
            l: u32,
            g: u32,
            b: u32,
            out: *mut u8,
            out_len: usize,
        ) -> DearestList;
        pub fn zevgorim_file_answer(file: *const u8, file_len: usize) -> u8;
        pub fn zevgorim_read_setup(file: *const u8, file_len: usize) -> Done;
        pub fn zevgorim_read_events(file: *const u8, file_len: usize) -> Part;
        pub fn zevgorim_write_file(
            n: u32,
            l: u32,
            g: u32,
            b: u32,
            events: *const u8,
            events_len: usize,
            out: *mut u8,
            out_len: usize,
        ) -> Written;
        pub fn zevgorim_journal_text(
            journal: *const u8,
            journal_len: usize,
            out: *mut u8,
            out_len: usize,
        ) -> Written;
        pub fn zevgorim_file_text(
            file: *const u8,
            file_len: usize,
            out: *mut u8,
            out_len: usize,
        ) -> Written;
    }
}

/// The bytes of an image from a place on.
#[inline]
fn part<const SIZE: usize>(image: &[u8; IMAGE_BYTES], at: usize) -> [u8; SIZE] {
    from_fn(|place| image[at + place])
}

impl State {
    /// The state that an image describes, in range or not.
    pub fn from_image(image: &[u8; IMAGE_BYTES]) -> State {
        let [processes, leaves, segments, bits] = part(image, 0);
        State {
            setup: Setup {
                processes,
                leaves,
                segments,
                bits,
                closed: u64::from_le_bytes(part(image, CLOSED_AT)),
            },
            gate: image[GATE_AT] as i8,
            queued: image[QUEUED_AT],
            queue: part(image, QUEUE_AT),
            counters: part(image, COUNTERS_AT),
            words: part(image, WORDS_AT),
            process: from_fn(|p| Process::from_image(part(image, PROCESS_AT + 6 * p))),
        }
    }

    /// The image of the state.
    pub fn to_image(self) -> [u8; IMAGE_BYTES] {
        let mut image = [0; IMAGE_BYTES];
        let mut put = |at: usize, bytes: &[u8]| image[at..at + bytes.len()].copy_from_slice(bytes);
        put(0, &self.setup.numbers());
        put(CLOSED_AT, &self.setup.closed.to_le_bytes());
        put(GATE_AT, &[self.gate as u8, self.queued]);
        put(QUEUE_AT, &self.queue);
        put(COUNTERS_AT, &self.counters);
        put(WORDS_AT, &self.words);
        put(
            PROCESS_AT,
            self.process.map(Process::to_image).as_flattened(),
        );
        image
    }
}

impl Setup {
    /// N, L, g and b.
    pub fn numbers(&self) -> [u8; 4] {
        [self.processes, self.leaves, self.segments, self.bits]
    }
}

impl Process {
    #[inline]
    fn from_image([stage, node, segment, name, steps, returns]: [u8; 6]) -> Process {
        Process {
            stage,
            node,
            segment,
            name,
            steps,
            returns,
        }
    }

    #[inline]
    fn to_image(self) -> [u8; 6] {
        let Process {
            stage,
            node,
            segment,
            name,
            steps,
            returns,
        } = self;
        [stage, node, segment, name, steps, returns]
    }
}

#[inline]
pub fn setup(n: u32, l: u32, g: u32, b: u32) -> Done {
    unsafe { calls::zevgorim_setup(n, l, g, b) }
}

#[inline]
pub fn partial_setup([n, l, g, b]: [u32; 4], count: u64) -> Done {
    unsafe { calls::zevgorim_partial_setup(n, l, g, b, count) }
}

#[inline]
pub fn closed_setup([n, l, g, b]: [u32; 4], closed: &[u8]) -> Done {
    unsafe { calls::zevgorim_closed_setup(n, l, g, b, closed.as_ptr(), closed.len()) }
}

#[inline]
pub fn event(state: State, kind: u32, process: u32) -> Done {
    unsafe { calls::zevgorim_event(state, kind, process) }
}

#[inline]
pub fn request(state: State, process: u32) -> Done {
    unsafe { calls::zevgorim_request(state, process) }
}

#[inline]
pub fn step(state: State, process: u32) -> Done {
    unsafe { calls::zevgorim_step(state, process) }
}

#[inline]
pub fn release(state: State, process: u32) -> Done {
    unsafe { calls::zevgorim_release(state, process) }
}

#[inline]
pub fn run(state: State, events: &[u8], journal: &mut [u8]) -> Done {
    let (out, out_len) = (journal.as_mut_ptr(), journal.len());
    unsafe { calls::zevgorim_run(state, events.as_ptr(), events.len(), out, out_len) }
}

#[inline]
pub fn gate_report(state: State) -> Report {
    unsafe { calls::zevgorim_gate_report(state) }
}

#[inline]
pub fn fill_status(state: State, records: &mut [Status]) -> u8 {
    unsafe { calls::zevgorim_fill_status(state, records.as_mut_ptr(), records.len()) }
}

#[inline]
pub fn dearest_list([n, l, g, b]: [u32; 4], out: &mut [u8]) -> DearestList {
    let (to, to_len) = (out.as_mut_ptr(), out.len());
    unsafe { calls::zevgorim_dearest_list(n, l, g, b, to, to_len) }
}

#[inline]
pub fn file_answer(file: &[u8]) -> u8 {
    unsafe { calls::zevgorim_file_answer(file.as_ptr(), file.len()) }
}

#[inline]
pub fn read_setup(file: &[u8]) -> Done {
    unsafe { calls::zevgorim_read_setup(file.as_ptr(), file.len()) }
}

#[inline]
pub fn read_events(file: &[u8]) -> Part {
    unsafe { calls::zevgorim_read_events(file.as_ptr(), file.len()) }
}

#[inline]
pub fn write_file([n, l, g, b]: [u32; 4], events: &[u8], out: &mut [u8]) -> Written {
    let (from, from_len) = (events.as_ptr(), events.len());
    let (to, to_len) = (out.as_mut_ptr(), out.len());
    unsafe { calls::zevgorim_write_file(n, l, g, b, from, from_len, to, to_len) }
}

#[inline]
pub fn journal_text(journal: &[u8], out: &mut [u8]) -> Written {
    let (to, to_len) = (out.as_mut_ptr(), out.len());
    unsafe { calls::zevgorim_journal_text(journal.as_ptr(), journal.len(), to, to_len) }
}

#[inline]
pub fn file_text(file: &[u8], out: &mut [u8]) -> Written {
    let (to, to_len) = (out.as_mut_ptr(), out.len());
    unsafe { calls::zevgorim_file_text(file.as_ptr(), file.len(), to, to_len) }
}
