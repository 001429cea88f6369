//! An independent simulator of document 01's machine, written from documents
//! 01 and 02 alone. Of document 02's requests, a to e are built here.
//!
//! The code uses the field's terms: process (handset), name (pad), segment
//! (row of a leaf), steps (spent, or claim turns), returns (return
//! operations), cost (the sum of both), request, step and release (ask, turn
//! and finish), getname and putname (claim and return). The partial setup is
//! the setup's second form, which takes a count; the dearest list is the one of
//! the dearest claim; a closed name is a closed pad, and the open names are the
//! others. Formats, commands and output keep the document's words.

pub mod answer;
pub mod calls;
pub mod cases;
pub mod day_file;
pub mod dearest;
pub mod image;
mod machine;
pub mod morning;
pub mod operations;
pub mod random;
mod range;
pub mod reports;
pub mod rolls;
pub mod state;
pub mod text;
pub mod writes;

#[cfg(test)]
mod tests;

pub use day_file::{read_day_file, write_day_file};
pub use image::{digest, IMAGE_BYTES};
pub use reports::{GateReport, Status};
pub use state::{Process, State};
pub use text::{file_text, journal_text};
