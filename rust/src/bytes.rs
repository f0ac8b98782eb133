//! Two- and four-byte numbers of a file: unsigned, most significant byte first.

/// The two-byte number at that place.
pub fn two(bytes: &[u8], at: usize) -> u16 {
    u16::from_be_bytes([bytes[at], bytes[at + 1]])
}

/// The four-byte number at that place.
pub fn four(bytes: &[u8], at: usize) -> u32 {
    u32::from_be_bytes([bytes[at], bytes[at + 1], bytes[at + 2], bytes[at + 3]])
}

/// The number as two bytes behind the others.
///
/// # Panics
///
/// Where it does not fit: the limits of a register see to it that it does.
pub fn put_two(bytes: &mut Vec<u8>, number: usize) {
    let number = u16::try_from(number).expect("within the limits every number has two bytes");
    bytes.extend(number.to_be_bytes());
}
