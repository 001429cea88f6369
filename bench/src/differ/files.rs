//! Day files, right and damaged, and texts in lent buffers.

use simulator::day_file::{lay_out, LONGEST};
use simulator::random::Random;
use simulator::{file_text, journal_text, read_day_file, State};

use super::difference::{same, same_state, Check};
use super::lent::Lent;
use super::Differ;
use crate::archive::{self, Part, Written};
use crate::lists::{any_setup, Setup};

const SHORT: u8 = 13;

/// A call that writes a text for a file or a journal.
type Writer = fn(&[u8], &mut [u8]) -> Written;

/// A file with a fault at a random place.
fn damaged(rng: &mut Random, mut file: Vec<u8>) -> Vec<u8> {
    match rng.below(8) {
        0 => file.truncate(rng.below(file.len())),
        1 => file.push(rng.byte()),
        2 => file.extend([rng.byte(), rng.byte()]),
        3 => file[23..27].copy_from_slice(&any_setup(rng)),
        4 => file[rng.below(23)] = rng.byte(),
        5 => {
            let at = [6, 10, 15, 19][rng.below(4)];
            let value = [0, 4, 23, 27, u32::MAX, rng.draw() as u32][rng.below(6)];
            file[at..at + 4].copy_from_slice(&value.to_le_bytes());
        }
        6 => {
            let length = LONGEST - 4 + rng.below(9);
            file = lay_out([2, 1, 1, 1], &vec![0; length - 27]);
        }
        _ => {
            let at = rng.below(27);
            file[at] ^= 1 << rng.below(8);
        }
    }
    file
}

/// Every line is the same; line n of an accepted file is event n's.
fn same_lines(got: &[u8], expected: &str) -> Check {
    if got == expected.as_bytes() {
        return Ok(());
    }
    let lines = got.split(|&byte| byte == b'\n').zip(expected.split('\n'));
    for (number, (got, expected)) in lines.enumerate() {
        let what = format_args!("line {number} of the text (the first is 0)");
        same(what, String::from_utf8_lossy(got), expected.into())?;
    }
    Ok(())
}

/// The text in a lent buffer: answer, size and every byte.
fn text(write: Writer, from: &[u8], expected: &str, mut out: Lent) -> Check {
    let mut lent = out.clone();
    let size = expected.len();
    let fits = size <= lent.room();
    if fits {
        lent.lend()[..size].copy_from_slice(expected.as_bytes());
    }
    let right = if fits { (0, size) } else { (SHORT, 0) };
    let room = out.room();
    let got = write(from, out.lend());
    if got.answer == 0 && fits {
        same_lines(&out.lend()[..got.size.min(room)], expected)?;
    }
    same("the text's answer and size", (got.answer, got.size), right)
        .and_then(|()| out.same("the text", &lent))
        .map_err(|found| found.given("bytes lent for the text", room))
}

impl Differ {
    /// The day file of a setup with its list, and faulty ones.
    pub fn files(&mut self, setup: Setup, events: &[u8]) -> Check {
        let file = lay_out(setup, events);
        self.file(&file)?;
        self.journal_of(events)?;
        let file = damaged(&mut self.rng, file);
        self.file(&file)?;
        let other = lay_out(any_setup(&mut self.rng), &events[..events.len().min(40)]);
        self.file(&other)?;
        let length = self.rng.below(80);
        let mut bytes: Vec<u8> = (0..length).map(|_| self.rng.byte()).collect();
        self.journal_of(&bytes)?;
        if length >= 5 && self.rng.chance(1, 2) {
            bytes[..5].copy_from_slice(b"TURN\x02");
        }
        self.file(&bytes)
    }

    /// Setup, events and text of any file, which is written back if accepted.
    pub fn file(&mut self, file: &[u8]) -> Check {
        self.tally.files += 1;
        self.reader(file)
            .and_then(|()| self.texts(archive::file_text, file, &file_text(file)))
            .and_then(|()| self.write_back(file))
            .map_err(|found| found.replay(file.to_vec()))
    }

    fn reader(&mut self, file: &[u8]) -> Check {
        let (answer, state, events) = match read_day_file(file) {
            Ok((state, events)) => (0, state, events),
            Err(number) => (number, State::BLANK, &file[..0]),
        };
        self.tally.refused_files += u64::from(answer != 0);
        same(
            "the day file's answer alone",
            archive::file_answer(file),
            answer,
        )?;
        self.tally.file_answers += 1;
        let got = archive::read_setup(file);
        same("the day file's answer", got.answer, answer)?;
        same_state("the day file's setup", got.state, &state)?;
        let part = Part {
            offset: events.as_ptr() as usize - file.as_ptr() as usize,
            size: events.len(),
        };
        same("the day file's events", archive::read_events(file), part)
    }

    /// The text of any bytes as a journal.
    fn journal_of(&mut self, bytes: &[u8]) -> Check {
        let expected = journal_text(bytes);
        self.texts(archive::journal_text, bytes, &expected)
            .map_err(|found| found.given_figures("journal", bytes))
    }

    /// The text in buffers just long enough, one byte short, with bytes to
    /// spare and of any length below.
    fn texts(&mut self, write: Writer, from: &[u8], expected: &str) -> Check {
        let size = expected.len();
        let spare = size + 1 + self.rng.below(40);
        let below = self.rng.below(size);
        for room in [size, size.saturating_sub(1), spare, below] {
            let out = Lent::new(room, self.rng.byte());
            text(write, from, expected, out)?;
            self.tally.texts += 1;
        }
        Ok(())
    }
}
