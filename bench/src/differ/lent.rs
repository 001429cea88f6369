//! Lent buffers that show every byte written to them or beside them.

use super::difference::{first_difference, Check, Difference};

/// Bytes on either side that are not lent.
const GUARD: usize = 32;

/// A buffer between two guards, every byte filled beforehand.
#[derive(Clone)]
pub struct Lent {
    bytes: Vec<u8>,
}

impl Lent {
    /// As many bytes to lend, filled by their place and a salt.
    pub fn new(length: usize, salt: u8) -> Lent {
        let fill = |at: usize| (at as u8).wrapping_mul(37).wrapping_add(salt);
        Lent {
            bytes: (0..length + 2 * GUARD).map(fill).collect(),
        }
    }

    /// How many bytes are lent.
    pub fn room(&self) -> usize {
        self.bytes.len() - 2 * GUARD
    }

    pub fn lend(&mut self) -> &mut [u8] {
        let end = self.bytes.len() - GUARD;
        &mut self.bytes[GUARD..end]
    }

    /// Every byte is as expected, the guards too.
    pub fn same(&self, what: &str, expected: &Lent) -> Check {
        if self.bytes == expected.bytes {
            return Ok(());
        }
        let at = first_difference(&self.bytes, &expected.bytes);
        let what = format!(
            "{what}, byte {} of the lent buffer",
            at as isize - GUARD as isize
        );
        let [got, expected] = [&self.bytes, &expected.bytes].map(|bytes| bytes[at].to_string());
        Err(Difference::new(what, got, expected))
    }
}
