//! Registers and questions thrown by chance, and bytes spoilt by chance.

use crate::dice::Dice;
use crate::shapes::file;

/// Up to 12 items of few kinds, so that some are alike.
pub fn thrown_register(dice: &mut Dice) -> Vec<u8> {
    let n = dice.throw(13);
    let (labels, chance) = (1 + dice.throw(16), 1 + dice.throw(3 * n * n + 1));
    thrown_links(dice, n, labels, chance * labels)
}

/// Up to 40 items, most of them with more neighbours by a label than are counted.
pub fn thrown_crowd(dice: &mut Dice) -> Vec<u8> {
    let n = 1 + dice.throw(40);
    thrown_links(dice, n, 2, 3)
}

/// Each link that there may be is there by a chance of one in so many.
fn thrown_links(dice: &mut Dice, n: usize, labels: usize, chance: usize) -> Vec<u8> {
    let marks: Vec<u32> = (0..n).map(|_| dice.one_of(&[0, 1, 6, 10])).collect();
    let links = (0..n * labels * n).filter(|_| dice.throw(chance) == 0);
    let links: Vec<_> = links
        .map(|k| (k / (labels * n), k / n % labels, k % n))
        .collect();
    file(&marks, &links)
}

/// A question of at most so many entries.
pub fn thrown_question(dice: &mut Dice, most: usize) -> Vec<u8> {
    let mut question = thrown_entry(dice, most);
    match question[0] {
        0 | 1 => (),
        3 | 4 => {
            let first = thrown_question(dice, most - 2);
            let left = most - 1 - first.len() / 4;
            question.extend(first);
            question.extend(thrown_question(dice, left));
        }
        _ => question.extend(thrown_question(dice, most - 1)),
    }
    question
}

/// An entry, where so many are left for it and its operands.
fn thrown_entry(dice: &mut Dice, left: usize) -> Vec<u8> {
    let kinds = [1, 6, 9][left.min(3) - 1];
    match dice.throw(kinds) {
        0 => vec![1, dice.one_of(&[1, 2, 3, 4, 252, 255, 32, 224]), 0, 0],
        1 => vec![0, 0, 0, 0],
        2 => vec![2, 0, 0, 0],
        3..=5 => {
            let ways = dice.one_of(&[1, 2, 32]);
            vec![
                16 + dice.throw(ways) as u8,
                dice.one_of(&[1, 1, 1, 2, 2, 3, 4, 8]),
                0,
                0,
            ]
        }
        6 => vec![4, 0, 0, 0],
        _ => vec![3, 0, 0, 0],
    }
}

/// At-leasts by few labels, so many nested.
pub fn thrown_nest(dice: &mut Dice, depth: usize) -> Vec<u8> {
    let mut question = vec![];
    for _ in 0..depth {
        question.extend([
            dice.one_of(&[16, 17, 32, 33]),
            dice.one_of(&[1, 2, 4, 8]),
            0,
            0,
        ]);
    }
    question.extend([1, dice.one_of(&[1, 252]), 0, 0]);
    question
}

/// Where a header says where its links start, how many there are and where they end.
pub const REGISTER_LINKS: [usize; 3] = [6, 2, 8];
pub const CLASS_LINKS: [usize; 3] = [20, 12, 22];

/// A register or a summary without one of its links.
pub fn without_link(bytes: &[u8], places: [usize; 3], dice: &mut Dice) -> Vec<u8> {
    let [start, count] = [places[0], places[1]].map(|at| two(bytes, at));
    let mut fewer = bytes.to_vec();
    if count > 0 {
        let at = start + 6 * dice.throw(count);
        fewer.drain(at..at + 6);
        add(&mut fewer, places[1], u16::MAX);
        add(&mut fewer, places[2], u16::MAX - 5);
    }
    fewer
}

/// The number of two bytes at a place.
pub fn two(bytes: &[u8], at: usize) -> usize {
    usize::from(u16::from_be_bytes([bytes[at], bytes[at + 1]]))
}

/// The bytes with one thing changed, or now and then as they were.
pub fn damaged(bytes: &[u8], dice: &mut Dice) -> Vec<u8> {
    let mut spoilt = bytes.to_vec();
    let at = dice.throw(bytes.len().max(1));
    match dice.throw(9) {
        0 => spoilt.truncate(at),
        1 => spoilt.extend(vec![0; 1 + dice.throw(8)]),
        2 => add(&mut spoilt, at / 2 * 2, dice.one_of(&[1, u16::MAX])),
        3 => add(&mut spoilt, dice.throw(12) * 2, dice.one_of(&[1, u16::MAX])),
        4 => add(&mut spoilt, dice.throw(12) * 2, dice.throw(65_536) as u16),
        5 => swap(&mut spoilt, at / 2 * 2, 6),
        6 => swap(&mut spoilt, at / 2 * 2, 8),
        7 => spoilt
            .iter_mut()
            .skip(at)
            .take(1)
            .for_each(|byte| *byte = dice.throw(256) as u8),
        _ => (),
    }
    spoilt
}

/// A number of two bytes with something added, round and round.
fn add(bytes: &mut [u8], at: usize, more: u16) {
    if let Some([high, low]) = bytes.get_mut(at..at + 2) {
        let number = u16::from_be_bytes([*high, *low]).wrapping_add(more);
        [*high, *low] = number.to_be_bytes();
    }
}

/// Two records of so many bytes, one behind the other, in turned order.
fn swap(bytes: &mut [u8], at: usize, size: usize) {
    if let Some(two) = bytes.get_mut(at..at + 2 * size) {
        two.rotate_left(size);
    }
}
