//! What is printed of what a call gives: a verdict, a letter, an answer, a tally of letters.

use crate::lent::buffer_after;
use crate::refusal::Refusal;
use crate::register::Register;

/// `accepted`, item count and link count, or `refused` and the number.
pub fn verdict(judged: &Result<Register, Refusal>) -> String {
    match judged {
        Ok(register) => format!("accepted {} {}", register.marks.len(), register.links.len()),
        Err(refusal) => format!("refused {}", refusal.number()),
    }
}

/// Yes, no, or the digit of the refusal.
pub fn letter(answer: Result<bool, Refusal>) -> char {
    match answer {
        Ok(true) => 'y',
        Ok(false) => 'n',
        Err(refusal) => char::from(b'0' + refusal.number()),
    }
}

/// Of a call that was lent a buffer of that length, by what it gave to write: `wrote` and the
/// length, or `refused` and the number; then the hash of the buffer after the call.
pub fn answer(room: usize, given: &Result<Vec<u8>, Refusal>) -> String {
    let hash = hash(&buffer_after(room, given));
    match given {
        Ok(bytes) => format!("wrote {} {hash}", bytes.len()),
        Err(refusal) => format!("refused {} {hash}", refusal.number()),
    }
}

/// Of letters that stand by twos: how many twos there are; how many of the first are `y`, `n` and
/// `6`; how many of the second are; and the hash of all letters.
pub fn tally(letters: &str) -> String {
    let count = |which: usize, wanted: u8| {
        let of_these = letters.bytes().skip(which).step_by(2);
        of_these.filter(|letter| *letter == wanted).count()
    };
    let counts = [0, 1].map(|which| {
        let [yes, no, refused] = [b'y', b'n', b'6'].map(|wanted| count(which, wanted));
        format!("{yes} {no} {refused}")
    });
    let twos = letters.len() / 2;
    format!("{twos} {} {}", counts.join(" "), hash(letters.as_bytes()))
}

/// It starts at 0, and for each byte in turn it becomes (hash * 65599 + byte + 1) mod 2^32; numbers
/// of 32 bits wrap around there.
pub fn hash(bytes: &[u8]) -> u32 {
    bytes.iter().fold(0, |hash: u32, byte| {
        hash.wrapping_mul(65_599).wrapping_add(u32::from(*byte) + 1)
    })
}
