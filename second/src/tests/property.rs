//! The law: within level and caps, a summary lists exactly the items where the register says yes;
//! and the check says yes to what condensing wrote. Thrown with the generator's dice.

use super::*;
use crate::check::check;
use crate::generator::{small_register, Dice};

const SEEDS: std::ops::RangeInclusive<u64> = 1..=600;
const QUESTIONS: usize = 12;
const TALLEST: usize = 5;

#[test]
fn summaries_answer_as_their_registers_do() {
    for seed in SEEDS {
        let dice = &mut Dice::of_seed(seed);
        let file = small_register(dice).write();
        let (level, neighbour_cap) = (1 + dice.below(4), 1 + dice.below(7));
        let summary = summary(level, neighbour_cap, 1 + dice.below(15), &file);
        assert_eq!(check(&file, &summary), Ok(true), "seed {seed}");
        for _ in 0..QUESTIONS {
            let question = thrown_question(dice, level, neighbour_cap, TALLEST);
            assert_lists(&file, &summary, &question, &yes_items(&file, &question));
        }
    }
}

/// The items where the register itself says yes.
fn yes_items(register: &[u8], question: &[u8]) -> Vec<usize> {
    let mut items = Vec::new();
    for item in 0.. {
        match ask_register(register, question, Item(item)) {
            Ok(true) => items.push(item),
            Ok(false) => {}
            Err(refusal) => {
                assert_eq!(refusal, Refusal::ItemNumber);
                break;
            }
        }
    }
    items
}

/// A question of that depth at most, with thresholds up to µ + 1, and no more than 63 entries:
/// `height` is how many entries may still stand one inside another.
fn thrown_question(dice: &mut Dice, depth: usize, neighbour_cap: usize, height: usize) -> Vec<u8> {
    let operand = |dice: &mut Dice, depth| {
        thrown_question(dice, depth, neighbour_cap, height.saturating_sub(1))
    };
    match dice.below(8) {
        _ if height == 0 => thrown_literal(dice).to_vec(),
        0 => TRUE.to_vec(),
        1 => thrown_literal(dice).to_vec(),
        2 => [NOT.to_vec(), operand(dice, depth)].concat(),
        3 => [AND.to_vec(), operand(dice, depth), operand(dice, depth)].concat(),
        4 => [OR.to_vec(), operand(dice, depth), operand(dice, depth)].concat(),
        _ if depth == 0 => thrown_literal(dice).to_vec(),
        _ => {
            let entry = thrown_at_least(dice, neighbour_cap);
            [entry.to_vec(), operand(dice, depth - 1)].concat()
        }
    }
}

fn thrown_literal(dice: &mut Dice) -> [u8; 4] {
    let mark = [1, 2, 3, 4, 5, 32][dice.below(6)];
    literal([mark, -mark][dice.below(2)])
}

fn thrown_at_least(dice: &mut Dice, neighbour_cap: usize) -> [u8; 4] {
    let label = [0, 1, 15, 7][dice.below(4)];
    let threshold = 1 + dice.below(neighbour_cap + 1) as u8;
    if dice.below(2) == 0 {
        out_by(label, threshold)
    } else {
        in_by(label, threshold)
    }
}
