//! The generator of inputs for all five calls: one seed gives one set of them, byte for byte.
//!
//! All throws come from the dice of the seed, in this order.
//!
//! Register. R is the small register, or, where 100 divides the seed, the large one; n and m are
//! its item count and its link count. REG is its file, changed twice. Throw below 6:
//!   0     its item count field (place 0) becomes 1025.
//!   1     its link count field (place 2) becomes 2049.
//!   2     its zero field (place 10) becomes 1.
//!   3     it is damaged once, as the generator of damaged registers tells.
//!   4, 5  nothing.
//! Then throw below 8:
//!   0     if m > 0: the label of the last link, at 12 + 4n + 6(m − 1) + 2, becomes 16; what would
//!         be written beyond the end is dropped, byte by byte.
//!   1     it is cut to its first 11 bytes, and left as it is if it is shorter.
//!   2 on  nothing.
//!
//! Summary. Then level and caps, as for condensing. SUM5 is the file of the summary of R, as R was
//! made, at these, and L is its length. Throw below 2: at 0 nothing; at 1 SUM5 is spoilt, as the
//! generator of spoilt summaries tells, and L stays.
//!
//! Level and caps of the call. Throw below 12; they are as thrown for SUM5, but for:
//!   0  level 0.
//!   1  level 5.
//!   2  neighbour cap 0.
//!   3  neighbour cap 8.
//!   4  class cap 0.
//!   5  class cap 16.
//!   6  the level grows by 256.
//!
//! Question and item. Then a question, as the generator of damaged questions tells; then a throw
//! below 10 for the item.
//!
//! Rooms. Throw below 4 for that of the summary: at 0 it has L bytes, at 1 L − 1, at 2 L + 3; at 3
//! throw below 64, and it has so many. Throw below 4 for that of the list: at 0 and 1 it has 2n + 3
//! bytes; at 2 throw below 2n + 1, and it has so many; at 3 it has none.

use crate::answers::{ask_register, ask_summary, list_from_summary};
use crate::bytes::two_bytes;
use crate::caps::LevelAndCaps;
use crate::check::check;
use crate::condense::{condense, summary_of};
use crate::generator::{damage, link_offset, put, seeded_register, thrown_level_and_caps, Dice};
use crate::numbers::Item;
use crate::question_generator::damaged_question;
use crate::refusal::Refusal;
use crate::register::Register;
use crate::summary_generator::spoil;

pub struct Inputs {
    /// REG.
    pub register: Vec<u8>,
    /// SUM5.
    pub summary: Vec<u8>,
    /// Those of the call of condensing.
    pub level_and_caps: LevelAndCaps,
    pub question: Vec<u8>,
    pub item: Item,
    pub summary_room: usize,
    pub list_room: usize,
}

impl Inputs {
    pub fn of_seed(seed: u64) -> Inputs {
        let (inputs, ..) = Inputs::with_made(seed);
        inputs
    }

    /// The inputs, and what SUM5 was made of before it was spoilt: R, and level and caps.
    pub fn with_made(seed: u64) -> (Inputs, Register, LevelAndCaps) {
        let dice = &mut Dice::of_seed(seed);
        let made = seeded_register(seed, dice);
        let register = changed_register(&made, dice);
        let made_at @ (level, neighbour_cap, class_cap) = thrown_level_and_caps(dice);
        let mut summary = summary_of(&made, level, neighbour_cap, class_cap).write();
        let length = summary.len();
        if dice.below(2) == 1 {
            spoil(&mut summary, dice);
        }
        let inputs = Inputs {
            register,
            summary,
            level_and_caps: changed_numbers(made_at, dice),
            question: damaged_question(dice),
            item: Item(dice.below(10)),
            summary_room: thrown_summary_room(length, dice),
            list_room: thrown_list_room(made.marks.len(), dice),
        };
        (inputs, made, made_at)
    }

    pub fn condense(&self) -> Result<Vec<u8>, Refusal> {
        let (level, neighbour_cap, class_cap) = self.level_and_caps;
        let room = self.summary_room;
        condense(level, neighbour_cap, class_cap, &self.register, room)
    }

    pub fn check(&self) -> Result<bool, Refusal> {
        check(&self.register, &self.summary)
    }

    pub fn ask_register(&self) -> Result<bool, Refusal> {
        ask_register(&self.register, &self.question, self.item)
    }

    pub fn ask_summary(&self) -> Result<bool, Refusal> {
        ask_summary(&self.summary, &self.question, self.item)
    }

    pub fn list(&self) -> Result<Vec<u8>, Refusal> {
        list_from_summary(&self.summary, &self.question, self.list_room)
    }
}

fn changed_register(made: &Register, dice: &mut Dice) -> Vec<u8> {
    let mut file = made.write();
    match dice.below(6) {
        0 => put(&mut file, 0, &two_bytes(1_025)),
        1 => put(&mut file, 2, &two_bytes(2_049)),
        2 => put(&mut file, 10, &two_bytes(1)),
        3 => damage(&mut file, made, dice),
        _ => {}
    }
    let m = made.links.len();
    match dice.below(8) {
        0 if m > 0 => put(&mut file, link_offset(made, m - 1) + 2, &two_bytes(16)),
        1 => file.truncate(11),
        _ => {}
    }
    file
}

fn changed_numbers(
    (level, neighbour_cap, class_cap): LevelAndCaps,
    dice: &mut Dice,
) -> LevelAndCaps {
    match dice.below(12) {
        0 => (0, neighbour_cap, class_cap),
        1 => (5, neighbour_cap, class_cap),
        2 => (level, 0, class_cap),
        3 => (level, 8, class_cap),
        4 => (level, neighbour_cap, 0),
        5 => (level, neighbour_cap, 16),
        6 => (level + 256, neighbour_cap, class_cap),
        _ => (level, neighbour_cap, class_cap),
    }
}

/// `length` is that of the summary as made.
fn thrown_summary_room(length: usize, dice: &mut Dice) -> usize {
    match dice.below(4) {
        0 => length,
        1 => length - 1,
        2 => length + 3,
        _ => dice.below(64),
    }
}

/// `n` is the item count of the register as made.
fn thrown_list_room(n: usize, dice: &mut Dice) -> usize {
    match dice.below(4) {
        0 | 1 => 2 * n + 3,
        2 => dice.below(2 * n + 1),
        _ => 0,
    }
}
