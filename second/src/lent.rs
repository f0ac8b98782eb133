//! The buffer that is lent to a call: how it is filled before the call, and what it has to hold
//! after it.

use crate::refusal::Refusal;

/// The byte at place p is (7p + 5) mod 256.
pub fn filled_buffer(length: usize) -> Vec<u8> {
    (0..length).map(|p| (7 * p + 5) as u8).collect()
}

/// The buffer of that length after a call, by what the call gave to write. "A refusal returns its
/// number only, and no lent byte changes. A success returns the length written, or yes or no; bytes
/// past that length stay."
pub fn buffer_after(length: usize, given: &Result<Vec<u8>, Refusal>) -> Vec<u8> {
    let mut lent = filled_buffer(length);
    if let Ok(bytes) = given {
        lent[..bytes.len()].copy_from_slice(bytes);
    }
    lent
}
