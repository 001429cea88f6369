//! The state image, one byte for each number but eight for the closed names,
//! and its digest.

use crate::state::{Process, State, COUNTERS, MAX};

/// Length of a process in a state image.
const PROCESS_BYTES: usize = 6;

/// Length of a state image.
pub const IMAGE_BYTES: usize = QUEUE + MAX + COUNTERS + MAX + PROCESS_BYTES * MAX;

const CLOSED: usize = 4;
const GATE: usize = CLOSED + 8;
const QUEUE: usize = GATE + 2;
const COUNTER: usize = QUEUE + MAX;
const SEGMENT: usize = COUNTER + COUNTERS;
const PROCESS: usize = SEGMENT + MAX;

impl State {
    /// The state that an image describes, in range or not.
    pub fn from_image(image: &[u8; IMAGE_BYTES]) -> State {
        let closed = std::array::from_fn(|place| image[CLOSED + place]);
        let mut state = State {
            n: image[0],
            l: image[1],
            g: image[2],
            b: image[3],
            closed: u64::from_le_bytes(closed),
            gate: image[GATE] as i8,
            queue_len: image[GATE + 1],
            ..State::BLANK
        };
        state.queue.copy_from_slice(&image[QUEUE..COUNTER]);
        state.counters.copy_from_slice(&image[COUNTER..SEGMENT]);
        state.segments.copy_from_slice(&image[SEGMENT..PROCESS]);
        for (process, bytes) in state
            .processes
            .iter_mut()
            .zip(image[PROCESS..].chunks_exact(PROCESS_BYTES))
        {
            *process = Process {
                stage: bytes[0],
                node: bytes[1],
                segment: bytes[2],
                name: bytes[3],
                steps: bytes[4],
                returns: bytes[5],
            };
        }
        state
    }

    /// The image of the state.
    pub fn to_image(&self) -> [u8; IMAGE_BYTES] {
        let mut image = [0; IMAGE_BYTES];
        image[..CLOSED].copy_from_slice(&[self.n, self.l, self.g, self.b]);
        image[CLOSED..GATE].copy_from_slice(&self.closed.to_le_bytes());
        image[GATE..QUEUE].copy_from_slice(&[self.gate as u8, self.queue_len]);
        image[QUEUE..COUNTER].copy_from_slice(&self.queue);
        image[COUNTER..SEGMENT].copy_from_slice(&self.counters);
        image[SEGMENT..PROCESS].copy_from_slice(&self.segments);
        for (bytes, p) in image[PROCESS..]
            .chunks_exact_mut(PROCESS_BYTES)
            .zip(&self.processes)
        {
            bytes.copy_from_slice(&[p.stage, p.node, p.segment, p.name, p.steps, p.returns]);
        }
        image
    }
}

/// d = 0, then d = (d * 31 + x) mod 65521 for each byte x.
pub fn digest(bytes: &[u8]) -> u32 {
    bytes
        .iter()
        .fold(0, |d, &x| (d * 31 + u32::from(x)) % 65521)
}
