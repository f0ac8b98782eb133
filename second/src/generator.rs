//! The generator of damaged registers: one seed gives one file, byte for byte.
//!
//! Dice. The state is a number below 2^31 and starts as the seed. To throw below k, k from 1 to
//! 32,768, first put (1103515245 * state + 12345) mod 2^31 in the state's place; the throw is the
//! whole part of state / 65536, mod k. One seed's throws all come from one pair of dice, in the
//! order told here.
//!
//! Marks. One throw below 4 for each item in turn: 0 is 1, 1 is 6, 2 is 10, 3 is 2147483649.
//!
//! Small register, for seeds that 100 does not divide. Throw below 9 for n; then the marks; then
//! throw below 12, and p is one more than that. Go through the sources 0 to n − 1, within each
//! the labels 0, 1 and 15, within each the targets 0 to n − 1: throw below p for every one, and
//! the link is there when the throw is 0.
//!
//! Large register, for seeds that 100 divides. n is 1,024 and m is 2,048. After the marks, for k
//! from 0 to 2,047, throw below 8 and then below 1,024: link k goes from item k / 2 (whole part)
//! by label 8 * (k mod 2) + first throw to the item of the second throw.
//!
//! Either register is written as a file with an exact header, and the file is damaged once. Then
//! throw below 4: at 0 it is damaged a second time, and that is the last. For a damage, throw
//! below 12 for its kind, with n and m always those of the register as made:
//!   0, 1  nothing.
//!   2     unless the file is empty: throw below its length for a place, then below 256 for the
//!         byte put there.
//!   3     throw below 6 for a header field, then below 64 for its new number.
//!   4     throw below the length plus one; the file is cut to that length.
//!   5     throw below 256; that byte is added at the end.
//!   6     if m > 0: throw below m for a link; its source becomes n.
//!   7     the same, but then throw below 4; its label becomes 16 plus that.
//!   8     as 6, but its target becomes n.
//!   9     if m > 1: throw below m − 1, and j is one more; link j becomes a copy of link j − 1.
//!   10    if m > 1: j as in 9; links j − 1 and j change places.
//!   11    throw below 6 for a header field; its number grows by one, 65,535 becoming 0.
//! Header field f is the two-byte number at 2f, link j the six bytes at 12 + 4n + 6j. In a file
//! that was cut, bytes beyond the end read as 0, and what would be written there is dropped, byte
//! by byte. Both links of 9 and 10 are read before either is written.
//!
//! Level and caps, for a register that is condensed: one more than a throw below 4, one more than a
//! throw below 7, one more than a throw below 15.

use crate::bytes::two_bytes;
use crate::caps::LevelAndCaps;
use crate::link::Link;
use crate::numbers::Item;
use crate::register::Register;

pub struct Dice {
    state: u64,
}

impl Dice {
    pub fn of_seed(seed: u64) -> Dice {
        Dice { state: seed }
    }

    pub fn below(&mut self, k: usize) -> usize {
        self.state = (self.state * 1_103_515_245 + 12_345) % (1 << 31);
        (self.state / 65_536) as usize % k
    }
}

/// The register that the seed calls for, small or large, from the seed's own dice.
pub fn seeded_register(seed: u64, dice: &mut Dice) -> Register {
    if seed.is_multiple_of(100) {
        large_register(dice)
    } else {
        small_register(dice)
    }
}

pub fn small_register(dice: &mut Dice) -> Register {
    let n = dice.below(9);
    let marks = thrown_marks(n, dice);
    let p = 1 + dice.below(12);
    let links = thrown_links(n, &[0, 1, 15], p, dice);
    Register { marks, links }
}

/// A throw below p for every source, label and target, in the order of links.
pub fn thrown_links(n: usize, labels: &[usize], p: usize, dice: &mut Dice) -> Vec<Link<Item>> {
    let mut links = Vec::new();
    for source in (0..n).map(Item) {
        for &label in labels {
            for target in (0..n).map(Item) {
                if dice.below(p) == 0 {
                    links.push(Link {
                        source,
                        label,
                        target,
                    });
                }
            }
        }
    }
    links
}

pub fn large_register(dice: &mut Dice) -> Register {
    let marks = thrown_marks(1_024, dice);
    let thrown_link = |k: usize| {
        let source = Item(k / 2);
        let label = (k % 2) * 8 + dice.below(8);
        let target = Item(dice.below(1_024));
        Link {
            source,
            label,
            target,
        }
    };
    let links = (0..2_048).map(thrown_link).collect();
    Register { marks, links }
}

pub fn thrown_marks(n: usize, dice: &mut Dice) -> Vec<u32> {
    let choice = [1, 6, 10, 2_147_483_649];
    (0..n).map(|_| choice[dice.below(4)]).collect()
}

pub fn thrown_level_and_caps(dice: &mut Dice) -> LevelAndCaps {
    let level = 1 + dice.below(4);
    let neighbour_cap = 1 + dice.below(7);
    let class_cap = 1 + dice.below(15);
    (level, neighbour_cap, class_cap)
}

pub fn damage(file: &mut Vec<u8>, register: &Register, dice: &mut Dice) {
    let m = register.links.len();
    match dice.below(12) {
        2 if !file.is_empty() => {
            let place = dice.below(file.len());
            file[place] = dice.below(256) as u8;
        }
        3 => {
            let field = 2 * dice.below(6);
            put(file, field, &two_bytes(dice.below(64)));
        }
        4 => {
            let length = dice.below(file.len() + 1);
            file.truncate(length);
        }
        5 => file.push(dice.below(256) as u8),
        kind @ 6..=8 if m > 0 => spoil_a_link(file, kind, register, dice),
        9 if m > 1 => {
            let (before, at) = two_links(register, dice);
            let copy: [u8; 6] = get(file, before);
            put(file, at, &copy);
        }
        10 if m > 1 => {
            let (before, at) = two_links(register, dice);
            let (one, other): ([u8; 6], [u8; 6]) = (get(file, before), get(file, at));
            put(file, before, &other);
            put(file, at, &one);
        }
        11 => {
            let field = 2 * dice.below(6);
            let number = u16::from_be_bytes(get(file, field)).wrapping_add(1);
            put(file, field, &number.to_be_bytes());
        }
        _ => {}
    }
}

/// Kinds 6, 7 and 8: a source, a label or a target out of range.
fn spoil_a_link(file: &mut [u8], kind: usize, register: &Register, dice: &mut Dice) {
    let n = register.marks.len();
    let link = link_offset(register, dice.below(register.links.len()));
    match kind {
        6 => put(file, link, &two_bytes(n)),
        7 => put(file, link + 2, &two_bytes(16 + dice.below(4))),
        _ => put(file, link + 4, &two_bytes(n)),
    }
}

/// Where two links stand, one right after the other.
fn two_links(register: &Register, dice: &mut Dice) -> (usize, usize) {
    let j = 1 + dice.below(register.links.len() - 1);
    (link_offset(register, j - 1), link_offset(register, j))
}

/// Where link j stands in the file of the register as made.
pub fn link_offset(register: &Register, j: usize) -> usize {
    12 + 4 * register.marks.len() + 6 * j
}

/// What would be written beyond the end is dropped.
pub fn put(file: &mut [u8], at: usize, bytes: &[u8]) {
    for (place, byte) in file.iter_mut().skip(at).zip(bytes) {
        *place = *byte;
    }
}

fn get<const LENGTH: usize>(file: &[u8], at: usize) -> [u8; LENGTH] {
    std::array::from_fn(|k| file.get(at + k).copied().unwrap_or(0))
}
