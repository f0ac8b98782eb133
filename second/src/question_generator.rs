//! The generator of damaged questions: the dice, wherever they stand, give one question.
//!
//! Entries are thrown until no operand is still open. `open` is how many questions are yet to
//! come, 1 at first; `count` is how many entries stand already, 0 at first. For each entry throw
//! below 10 for its kind; where count + open is 60 or more, the kind is that throw mod 3. An entry
//! is four bytes, of which the last two are 0; the first two are, by kind:
//!   0     0 0, true.
//!   1, 2  1 and a literal: throw below 5 for a mark among 1, 2, 3, 4, 32, then throw below 2: at
//!         0 the literal is the mark, at 1 it is 256 − mark, the mark's absence.
//!   3     2 0, not.
//!   4     3 0, and.
//!   5     4 0, or.
//!   6, 7  at least, outgoing: throw below 3 for a label among 0, 1, 15, then throw below 3 for a
//!         threshold one higher: 16 + label and the threshold.
//!   8, 9  at least, incoming: the same throws, 32 + label and the threshold.
//! With each entry count grows by one; with it open falls by one for kinds 0, 1 and 2, grows by
//! one for kinds 4 and 5, and stays for the others. As count + open never falls and from 60 on
//! stays, a question has 61 entries at most.
//!
//! Then the entries' bytes, one after the other, are damaged once. Throw below 8 for the kind:
//!   0        throw below the length for a place, then below 256 for the byte put there.
//!   1        throw below the length plus one; the question is cut to that length.
//!   2        an entry 0 0 0 0 is added at the end.
//!   3        one byte 0 is added at the end.
//!   4        throw below count for an entry, the first being 0; its third byte becomes 1.
//!   5, 6, 7  nothing.

use crate::generator::Dice;
use crate::question::{entry, ENTRY};

const CROWDED: usize = 60;

pub fn damaged_question(dice: &mut Dice) -> Vec<u8> {
    let mut question = sound_question(dice);
    damage(&mut question, dice);
    question
}

pub fn sound_question(dice: &mut Dice) -> Vec<u8> {
    let mut entries = Vec::new();
    let mut open = 1;
    while open > 0 {
        let thrown = dice.below(10);
        let crowded = entries.len() + open >= CROWDED;
        let kind = if crowded { thrown % 3 } else { thrown };
        entries.push(thrown_entry(kind, dice));
        match kind {
            0..=2 => open -= 1,
            4 | 5 => open += 1,
            _ => {}
        }
    }
    entries.concat()
}

fn thrown_entry(kind: usize, dice: &mut Dice) -> [u8; ENTRY] {
    match kind {
        0 => entry(0, 0),
        1 | 2 => thrown_literal(dice),
        3 => entry(2, 0),
        4 => entry(3, 0),
        5 => entry(4, 0),
        6 | 7 => thrown_at_least(16, dice),
        _ => thrown_at_least(32, dice),
    }
}

/// As bytes wrap around at 256, 256 − mark is 0 − mark.
fn thrown_literal(dice: &mut Dice) -> [u8; ENTRY] {
    let mark = [1_u8, 2, 3, 4, 32][dice.below(5)];
    let absence = mark.wrapping_neg();
    entry(1, [mark, absence][dice.below(2)])
}

/// `label_0` is the first byte for label 0 in the direction wanted.
fn thrown_at_least(label_0: u8, dice: &mut Dice) -> [u8; ENTRY] {
    let label = [0, 1, 15][dice.below(3)];
    let threshold = [1, 2, 3][dice.below(3)];
    entry(label_0 + label, threshold)
}

fn damage(question: &mut Vec<u8>, dice: &mut Dice) {
    match dice.below(8) {
        0 => {
            let place = dice.below(question.len());
            question[place] = dice.below(256) as u8;
        }
        1 => {
            let length = dice.below(question.len() + 1);
            question.truncate(length);
        }
        2 => question.extend(entry(0, 0)),
        3 => question.push(0),
        4 => {
            let count = question.len() / ENTRY;
            question[ENTRY * dice.below(count) + 2] = 1;
        }
        _ => {}
    }
}
