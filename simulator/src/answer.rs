//! Answers of the calls: 0 when accepted, otherwise the refusal's number.

pub const ACCEPTED: u8 = 0;
/// Document 01: handsets.
pub const PROCESSES: u8 = 1;
/// Document 01: leaves.
pub const LEAVES: u8 = 2;
/// Document 01: rows.
pub const SEGMENTS: u8 = 3;
/// Document 01: bits.
pub const BITS: u8 = 4;
/// Document 01: pads.
pub const NAMES: u8 = 5;
/// Document 01: stranger.
pub const STRANGER: u8 = 6;
/// Document 01: busy.
pub const BUSY: u8 = 7;
/// Document 01: not moving.
pub const NOT_MOVING: u8 = 8;
/// Document 01: no pad held.
pub const NO_NAME_HELD: u8 = 9;
/// Document 01: no day file.
pub const NO_DAY_FILE: u8 = 10;
/// Document 01: contents.
pub const CONTENTS: u8 = 11;
/// Document 01: kind.
pub const KIND: u8 = 12;
/// Document 01: short.
pub const SHORT: u8 = 13;
/// Document 01: odd.
pub const ODD: u8 = 14;
/// Document 01: broken state.
pub const BROKEN_STATE: u8 = 15;
/// Document 02, request a: the file would be too long.
pub const TOO_LONG: u8 = 16;
/// Document 02, request a: the buffer is shorter than the file.
pub const NO_ROOM: u8 = 17;
/// Document 02, request d: the buffer is under 4,096 bytes.
pub const SMALL_BUFFER: u8 = 18;
/// Document 02, request e: a closed number is not below k.
pub const CLOSED: u8 = 19;
/// Document 02, request e: no name stays open.
pub const NONE_OPEN: u8 = 20;
