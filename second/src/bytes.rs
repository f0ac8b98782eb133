//! Numbers as they stand in files: unsigned, two or four bytes, most significant byte first.
//! Two-byte numbers are handed on wide, so that nothing is narrowed before it is judged.

/// The two-byte number at a place that is known to lie within the bytes.
pub fn two_at(bytes: &[u8], at: usize) -> usize {
    usize::from(u16::from_be_bytes([bytes[at], bytes[at + 1]]))
}

/// The four-byte number at a place that is known to lie within the bytes.
pub fn four_at(bytes: &[u8], at: usize) -> u32 {
    u32::from_be_bytes([bytes[at], bytes[at + 1], bytes[at + 2], bytes[at + 3]])
}

/// A number below 65,536 as its two bytes.
pub fn two_bytes(number: usize) -> [u8; 2] {
    (number as u16).to_be_bytes()
}

/// Each number of a list as its two bytes, one after the other.
pub fn two_bytes_each(numbers: &[usize]) -> Vec<u8> {
    numbers.iter().copied().flat_map(two_bytes).collect()
}

/// The file with the two-byte number at a place replaced.
pub fn with_number(file: &[u8], at: usize, number: usize) -> Vec<u8> {
    let mut changed = file.to_vec();
    changed[at..at + 2].copy_from_slice(&two_bytes(number));
    changed
}
