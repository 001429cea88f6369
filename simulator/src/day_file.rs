//! The day file (the field's word: trace file).

use crate::answer::{CONTENTS, NO_DAY_FILE, NO_ROOM, ODD, TOO_LONG};
use crate::state::{check_setup, State};

/// Bytes 0 to 4.
pub const HEAD: [u8; 5] = *b"TURN\x02";
/// Where the setup's four bytes stand.
pub const SETUP_AT: usize = 23;
/// Where the events begin; also the shortest file.
pub const EVENTS_AT: usize = 27;
/// The longest file.
pub const LONGEST: usize = 32_768;
/// Most events in an accepted file.
pub const MOST_EVENTS: usize = (LONGEST - EVENTS_AT) / 2;

/// One of the two entries of the contents.
#[derive(Clone, Copy, PartialEq, Eq, Debug)]
pub struct Entry {
    pub kind: u8,
    pub offset: u32,
    pub length: u32,
}

impl Entry {
    fn read(bytes: &[u8]) -> Entry {
        Entry {
            kind: bytes[0],
            offset: u32::from_le_bytes([bytes[1], bytes[2], bytes[3], bytes[4]]),
            length: u32::from_le_bytes([bytes[5], bytes[6], bytes[7], bytes[8]]),
        }
    }

    fn write(&self, file: &mut Vec<u8>) {
        file.push(self.kind);
        file.extend(self.offset.to_le_bytes());
        file.extend(self.length.to_le_bytes());
    }
}

const ENTRY_ONE: Entry = Entry {
    kind: 1,
    offset: SETUP_AT as u32,
    length: 4,
};

fn entry_two(length: usize) -> Entry {
    Entry {
        kind: 2,
        offset: EVENTS_AT as u32,
        length: length as u32,
    }
}

/// The fresh state and the events of a day file, or the refusal's number.
/// A refused file stands for the blank state and an empty part.
pub fn read_day_file(file: &[u8]) -> Result<(State, &[u8]), u8> {
    if !(EVENTS_AT..=LONGEST).contains(&file.len()) || file[..5] != HEAD {
        return Err(NO_DAY_FILE);
    }
    let events = &file[EVENTS_AT..];
    if Entry::read(&file[5..14]) != ENTRY_ONE
        || Entry::read(&file[14..23]) != entry_two(events.len())
        || !events.len().is_multiple_of(2)
    {
        return Err(CONTENTS);
    }
    let state = State::setup(file[23], file[24], file[25], file[26])?;
    Ok((state, events))
}

/// Writes the day file of a setup and its events to the start of the buffer
/// and gives the file's length, or the refusal's number. A refused call
/// writes nothing. The events are not run.
pub fn write_day_file(setup: [u8; 4], events: &[u8], buffer: &mut [u8]) -> Result<usize, u8> {
    let [n, l, g, b] = setup;
    check_setup(n, l, g, b)?;
    if !events.len().is_multiple_of(2) {
        return Err(ODD);
    }
    if events.len() > LONGEST - EVENTS_AT {
        return Err(TOO_LONG);
    }
    let file = lay_out(setup, events);
    let room = buffer.get_mut(..file.len()).ok_or(NO_ROOM)?;
    room.copy_from_slice(&file);
    Ok(file.len())
}

/// Lays a file out without any check, so that faulty ones can be made too.
pub fn lay_out(setup: [u8; 4], events: &[u8]) -> Vec<u8> {
    let mut file = HEAD.to_vec();
    ENTRY_ONE.write(&mut file);
    entry_two(events.len()).write(&mut file);
    file.extend(setup);
    file.extend(events);
    file
}
