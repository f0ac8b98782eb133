//! The limits, each at its last accepted value and one past it: items, links, entries, levels,
//! caps, and the room for an answer.

use super::*;
use crate::check::check;
use crate::generator::{large_register, Dice};
use crate::judging::paired_register;
use crate::program;

#[test]
fn items_1024_and_1025() {
    let most = register(&[5; 1_024], &[]);
    let file = summary(1, 1, 15, &most);
    assert_eq!(read_summary(&file).classes[0].count, 16);
    assert_eq!(listed(&file, &literal(1)).map(|list| list.len()), Ok(2_048));
    assert_eq!(check(&most, &file), Ok(true));
    let over = register(&[5; 1_025], &[]);
    let refused = Refusal::RegisterLimits;
    assert_eq!(condense(1, 1, 15, &over, MOST_LENGTH), Err(refused));
    assert_eq!(check(&over, &file), Err(refused));
    assert_eq!(ask_register(&over, &TRUE, Item(0)), Err(refused));
}

#[test]
fn links_2048_and_2049() {
    let most = paired_register(1_024, 2_048).write();
    let file = summary(4, 7, 15, &most);
    assert_eq!(check(&most, &file), Ok(true));
    let over = paired_register(1_024, 2_049).write();
    let refused = Refusal::RegisterLimits;
    assert_eq!(condense(4, 7, 15, &over, MOST_LENGTH), Err(refused));
    assert_eq!(check(&over, &file), Err(refused));
    assert_eq!(ask_register(&over, &TRUE, Item(0)), Err(refused));
}

#[test]
fn the_longest_summary_and_its_room() {
    let marks: Vec<u32> = (0..1_024).collect();
    let links: Vec<_> = (0..2_048)
        .map(|k| (k / 2, 8 * (k % 2), (k / 2 + 1) % 1_024))
        .collect();
    let most = register(&marks, &links);
    let longest = summary(1, 1, 1, &most);
    assert_eq!(longest.len(), MOST_LENGTH);
    assert_eq!(check(&most, &longest), Ok(true));
    let short = condense(1, 1, 1, &most, MOST_LENGTH - 1);
    assert_eq!(short, Err(Refusal::Room));
}

/// Entries before the last, each with one operand, and the last.
fn question_of(count: usize, entry: [u8; 4]) -> Vec<u8> {
    [entry.repeat(count - 1), TRUE.to_vec()].concat()
}

#[test]
fn entries_64_and_65() {
    let a = register_a();
    let file = summary(1, 1, 1, &a);
    let (most, over) = (question_of(64, NOT), question_of(65, NOT));
    assert_lists(&a, &file, &most, &[]);
    let refused = Refusal::QuestionForm;
    assert_eq!(ask_register(&a, &over, Item(0)), Err(refused));
    assert_eq!(ask_summary(&file, &over, Item(0)), Err(refused));
    assert_eq!(listed(&file, &over), Err(refused));
}

#[test]
fn sixty_three_at_leasts_on_a_register() {
    let links: Vec<_> = (0..2_025).map(|k| (k / 45, 0, k % 45)).collect();
    let dense = register(&[0; 45], &links);
    let deep = question_of(64, out_by(0, 8));
    assert_eq!(ask_register(&dense, &deep, Item(44)), Ok(true));
    let chain = question_of(4, out_by(0, 1));
    for item in 0..4 {
        let answer = ask_register(&chain_of_four(), &chain, Item(item));
        assert_eq!(answer, Ok(item == 0));
    }
}

#[test]
fn levels_0_4_5_and_caps() {
    let a = register_a();
    let numbers = |i, mu, nu| condense(i, mu, nu, &a, MOST_LENGTH).map(|_| ());
    for (i, mu, nu) in [(1, 1, 1), (4, 1, 1), (1, 7, 1), (1, 1, 15), (4, 7, 15)] {
        assert_eq!(numbers(i, mu, nu), Ok(()));
    }
    for low_or_high in [0, 5, 257, 65_535] {
        assert_eq!(numbers(low_or_high, 1, 1), Err(Refusal::LevelOrCaps));
    }
    for low_or_high in [0, 8, 257, 65_535] {
        assert_eq!(numbers(1, low_or_high, 1), Err(Refusal::LevelOrCaps));
    }
    for low_or_high in [0, 16, 257, 65_535] {
        assert_eq!(numbers(1, 1, low_or_high), Err(Refusal::LevelOrCaps));
    }
}

#[test]
fn the_level_is_the_depth_that_is_answered() {
    let chain = chain_of_four();
    for level in 1..=4 {
        let file = summary(level, 1, 1, &chain);
        let items: Vec<usize> = (0..4 - level).collect();
        let deepest = question_of(level + 1, out_by(0, 1));
        assert_lists(&chain, &file, &deepest, &items);
        let deeper = question_of(level + 2, out_by(0, 1));
        assert_eq!(listed(&file, &deeper), Err(Refusal::QuestionReach));
    }
}

#[test]
fn room_is_what_the_answer_takes() {
    let a = register_a();
    assert_eq!(condense(1, 1, 1, &a, 111), Err(Refusal::Room));
    assert_eq!(condense(1, 1, 1, &a, 112), Ok(summary(1, 1, 1, &a)));
    let file = summary(1, 1, 1, &a);
    assert_eq!(list_from_summary(&file, &literal(3), 3), Err(Refusal::Room));
    let exact = list_from_summary(&file, &literal(3), 4);
    assert_eq!(exact, Ok(two_bytes_each(&[3, 4])));
    assert_eq!(list_from_summary(&file, &literal(32), 0), Ok(vec![]));
}

#[test]
fn large_registers_answer_alike() {
    let large = large_register(&mut Dice::of_seed(100)).write();
    let file = summary(4, 1, 15, &large);
    assert_eq!(check(&large, &file), Ok(true));
    let question = [&out_by(3, 1)[..], &OR, &literal(4), &in_by(9, 1), &TRUE].concat();
    let list = listed(&file, &question).expect("within reach");
    for item in (0..1_024).step_by(64).map(Item) {
        let pairs: Vec<&[u8]> = list.chunks(2).collect();
        let here = pairs.contains(&&two_bytes_each(&[item.0])[..]);
        assert_eq!(ask_register(&large, &question, item), Ok(here));
    }
}

/// "At most 16,403 bytes are read", so that what stands behind them stays to be read.
#[test]
fn the_program_reads_16403_bytes_and_no_more() {
    let most = paired_register(1_024, 2_048).write();
    let input = [two_bytes_each(&[1, 1, 1]), most, vec![0; 100]].concat();
    let (mut unread, mut out) = (&input[..], Vec::new());
    program::run(&mut unread, &mut out).expect("a vector takes every byte");
    assert_eq!(input.len() - unread.len(), 16_403);
    assert_eq!(out, b"refused 1\n");
}
