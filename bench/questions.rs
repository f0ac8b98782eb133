//! The questions that are timed. At-leasts lead along a shape's steps, again and again; at the end stands "lacks the mark
//! failed", which most items do, or "is failed".

pub type Entry = [u8; 4];

const TRUE: Entry = [0, 0, 0, 0];
const NOT: Entry = [2, 0, 0, 0];
const AND: Entry = [3, 0, 0, 0];
const OR: Entry = [4, 0, 0, 0];
const FAILED: Entry = [1, 4, 0, 0];
const NOT_FAILED: Entry = [1, 252, 0, 0];

/// At least so many outgoing neighbours by the label.
pub fn leads_out(label: u8, threshold: u8) -> Entry {
    [16 + label, threshold, 0, 0]
}

/// At least so many incoming neighbours by the label.
pub fn leads_in(label: u8, threshold: u8) -> Entry {
    [32 + label, threshold, 0, 0]
}

/// Two questions of that depth, 1, 3 or 63.
pub fn questions(steps: &[Entry], depth: usize) -> [Vec<u8>; 2] {
    let mut led = steps.iter().cycle().take(depth).copied();
    if depth == 3 {
        let [first, second, third] = [led.next(), led.next(), led.next()].map(Option::unwrap);
        let nested = [first, AND, NOT_FAILED, NOT, second, OR, FAILED, third, TRUE];
        let straight = [AND, NOT_FAILED, first, second, third, NOT_FAILED];
        return [nested.concat(), straight.concat()];
    }
    let led: Vec<Entry> = led.collect();
    [NOT_FAILED, FAILED].map(|end| [led.as_slice(), &[end]].concat().concat())
}
