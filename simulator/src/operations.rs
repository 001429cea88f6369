//! The three atomic operations.

/// Sets the lowest clear bit among the word's low `b` bits and answers its
/// index, or answers `b` and leaves the word (document 01: first clear).
#[inline]
pub fn set_first_zero(word: &mut u8, b: u8) -> u8 {
    set_first_open_zero(word, 0, b)
}

/// The same among the bits that are not closed (document 02, request e). Bits
/// of `closed` from `b` on do not matter.
#[inline]
pub fn set_first_open_zero(word: &mut u8, closed: u8, b: u8) -> u8 {
    let index = (*word | closed).trailing_ones() as u8;
    if index >= b {
        return b;
    }
    *word |= 1 << index;
    index
}

/// Bit `i` becomes 0 (document 01: clear bit).
#[inline]
pub fn clr_bit(word: &mut u8, i: u8) {
    *word &= !(1 << (i & 7));
}

/// Answers the old value and subtracts 1 unless it was 0 (document 01:
/// bounded decrement).
#[inline]
pub fn bounded_decrement(counter: &mut u8) -> u8 {
    let old = *counter;
    *counter = old.saturating_sub(1);
    old
}
