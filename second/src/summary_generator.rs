//! The generator of spoilt summaries: the dice, wherever they stand, tell what is done to a
//! summary.
//!
//! With L the length of its file, and n and c the item count and the class count in its header,
//! throw below 9:
//!   0, 1  nothing.
//!   2     throw below L for a place, then below 256 for the byte put there.
//!   3     throw below L / 2 for a field, then below 8 for its new number.
//!   4     throw below L / 2 for a field; its number grows by one, 65,535 becoming 0.
//!   5     throw below L + 1; the file is cut to that length.
//!   6     throw below 8, then below 256: the file grows longer by one more than the first throw;
//!         the byte right behind its old end is the second throw, the others behind it are zero.
//!   7     throw below L / 2 twice; these two fields change places.
//!   8     if n > 0: throw below n for an item, then below c + 1 for its number in the map.
//! L may be more than 32,768; a throw below such a number is the whole part of state / 65536 as it
//! is.

use crate::bytes::{two_at, with_number};
use crate::generator::Dice;
use crate::summary::MAPPED;

pub fn spoil(file: &mut Vec<u8>, dice: &mut Dice) {
    let length = file.len();
    match dice.below(9) {
        2 => {
            let place = dice.below(length);
            file[place] = dice.below(256) as u8;
        }
        3 => {
            let at = thrown_field(length, dice);
            *file = with_number(file, at, dice.below(8));
        }
        4 => {
            let at = thrown_field(length, dice);
            *file = with_number(file, at, (two_at(file, at) + 1) % 65_536);
        }
        5 => file.truncate(dice.below(length + 1)),
        6 => {
            let longer = length + 1 + dice.below(8);
            file.push(dice.below(256) as u8);
            file.resize(longer, 0);
        }
        7 => {
            let one = thrown_field(length, dice);
            let other = thrown_field(length, dice);
            file.swap(one, other);
            file.swap(one + 1, other + 1);
        }
        8 => map_an_item_anew(file, dice),
        _ => {}
    }
}

/// Where a thrown field stands in a file of that length.
fn thrown_field(length: usize, dice: &mut Dice) -> usize {
    2 * dice.below(length / 2)
}

/// The map is the last of the file.
fn map_an_item_anew(file: &mut Vec<u8>, dice: &mut Dice) {
    let (c, n) = (two_at(file, 6), two_at(file, 14));
    if n > 0 {
        let item = dice.below(n);
        let map = file.len() - MAPPED * n;
        *file = with_number(file, map + MAPPED * item, dice.below(c + 1));
    }
}
