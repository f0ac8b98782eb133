//! P1 to P11, each by its number, and the traps that the document tells of where no example
//! already shows them.

use super::*;
use crate::program;

const A_PRINTED: &str = "\
summary 1 1 1 4 3 6
class 0 1 0 2
class 1 1 0 1
class 2 6 1 2
class 3 10 2 1
row 0 0 1 1
row 1 0 2 1
row 2 16 0 1
row 3 16 0 1
edge 0 0 2
edge 1 0 3
item 0 0
item 1 0
item 2 1
item 3 2
item 4 2
item 5 3
";

pub fn printed(input: &[u8]) -> String {
    let mut out = Vec::new();
    program::run(input, &mut out).expect("a vector takes every byte");
    String::from_utf8(out).expect("only digits, words and blanks")
}

#[test]
fn p1_the_summary_of_a() {
    assert_eq!(summary(1, 1, 1, &register_a()).len(), 112);
    let input = [two_bytes_each(&[1, 1, 1]), register_a()].concat();
    assert_eq!(printed(&input), A_PRINTED);
}

#[test]
fn p1_byte_for_byte() {
    let expected = two_bytes_each(
        &[
            vec![1, 1, 1, 4, 3, 4, 2, 6, 24, 56, 88, 100],
            vec![0, 1, 0, 2, 0, 1, 0, 1, 0, 6, 1, 2, 0, 10, 2, 1],
            vec![0, 0, 1, 1, 1, 0, 2, 1, 2, 16, 0, 1, 3, 16, 0, 1],
            vec![0, 0, 2, 1, 0, 3],
            vec![0, 0, 1, 2, 2, 3],
        ]
        .concat(),
    );
    assert_eq!(summary(1, 1, 1, &register_a()), expected);
}

fn assert_a_lists(question: &[u8], items: &[usize]) {
    let a = register_a();
    assert_lists(&a, &summary(1, 1, 1, &a), question, items);
}

#[test]
fn p2_at_least_one_failed() {
    assert_a_lists(&[16, 1, 0, 0, 1, 4, 0, 0], &[2]);
}

#[test]
fn p3_lacking_failed_is_not_having_passed() {
    assert_a_lists(&literal(-4), &[0, 1, 2, 3, 4]);
    assert_a_lists(&literal(3), &[3, 4]);
}

#[test]
fn p4_incoming_from_a_hoist() {
    assert_a_lists(&[in_by(0, 1), literal(1)].concat(), &[3, 4, 5]);
}

#[test]
fn p5_two_out_and_a_threshold_too_high() {
    let a = register_a();
    assert_a_lists(&[out_by(0, 2), TRUE].concat(), &[]);
    let three = [out_by(0, 3), TRUE].concat();
    let file = summary(1, 1, 1, &a);
    assert_eq!(listed(&file, &three), Err(Refusal::QuestionReach));
    let asked = ask_summary(&file, &three, Item(0));
    assert_eq!(asked, Err(Refusal::QuestionReach));
    assert_eq!(ask_register(&a, &three, Item(0)), Ok(false));
}

#[test]
fn p6_one_at_least_inside_another() {
    let a = register_a();
    let file = summary(1, 1, 1, &a);
    let question = [out_by(0, 1), in_by(0, 1), literal(1)].concat();
    assert_eq!(listed(&file, &question), Err(Refusal::QuestionReach));
    for item in 0..6 {
        let asked = ask_summary(&file, &question, Item(item));
        assert_eq!(asked, Err(Refusal::QuestionReach));
        assert_eq!(ask_register(&a, &question, Item(item)), Ok(item < 3));
    }
}

#[test]
fn p7_literals() {
    let a = register_a();
    let file = summary(1, 1, 1, &a);
    for k in [0, 33, -33, -128] {
        let refused = Err(Refusal::QuestionForm);
        assert_eq!(ask_register(&a, &literal(k), Item(0)), refused);
        assert_eq!(ask_summary(&file, &literal(k), Item(0)), refused);
    }
    assert_eq!(literal(-128)[1], 128);
    assert_a_lists(&literal(32), &[]);
    assert_a_lists(&literal(-32), &[0, 1, 2, 3, 4, 5]);
}

#[test]
fn p7_mark_32_is_the_highest_bit() {
    let high = register(&[0x8000_0000, 0x7fff_ffff], &[]);
    let file = summary(1, 1, 1, &high);
    assert_lists(&high, &file, &literal(32), &[0]);
    assert_lists(&high, &file, &literal(-32), &[1]);
}

#[test]
fn p8_a_chain_needs_a_second_level() {
    let chain = chain_of_four();
    let one = read_summary(&summary(1, 1, 1, &chain));
    assert_eq!((one.classes.len(), one.group_count), (3, 1));
    let two = read_summary(&summary(2, 1, 1, &chain));
    assert_eq!((two.classes.len(), two.group_count), (4, 3));
}

fn hoist_row(file: &[u8]) -> usize {
    let read = read_summary(file);
    let rows: Vec<_> = read.rows_of(read.map[0]).into_values().collect();
    assert_eq!(rows.len(), 1);
    rows[0]
}

#[test]
fn p9_three_hooks_under_a_cap() {
    let three = hoist_with(&[PASSED; 3]);
    let file = summary(1, 1, 1, &three);
    assert_eq!(hoist_row(&file), 2);
    assert_lists(&three, &file, &[out_by(0, 2), TRUE].concat(), &[0]);
    assert_eq!(hoist_row(&summary(1, 2, 1, &three)), 3);
}

#[test]
fn p10_one_and_one_are_two() {
    let two = hoist_with(&[PASSED, FAILED]);
    let file = summary(1, 1, 1, &two);
    assert_lists(&two, &file, &[out_by(0, 2), TRUE].concat(), &[0]);
}

#[test]
fn p11_the_empty_register() {
    let empty = register(&[], &[]);
    let expected = two_bytes_each(&[1, 1, 1, 0, 0, 0, 0, 0, 24, 24, 24, 24]);
    for level in 1..=4 {
        let file = summary(level, 1, 1, &empty);
        assert_eq!(file, with_number(&expected, 0, level));
        assert_eq!(file.len(), 24);
        assert_eq!(listed(&file, &TRUE), Ok(vec![]));
    }
}

#[test]
fn not_and_or() {
    let (hoist, passed) = (literal(1), literal(3));
    assert_a_lists(&TRUE, &[0, 1, 2, 3, 4, 5]);
    assert_a_lists(&[NOT, TRUE].concat(), &[]);
    assert_a_lists(&[NOT, hoist].concat(), &[3, 4, 5]);
    assert_a_lists(&[OR, hoist, passed].concat(), &[0, 1, 2, 3, 4]);
    assert_a_lists(&[AND, hoist, passed].concat(), &[]);
    assert_a_lists(&[AND, literal(2), passed].concat(), &[3, 4]);
    assert_a_lists(&[NOT, OR, hoist, passed].concat(), &[5]);
    assert_a_lists(&[AND, NOT, hoist, NOT, passed].concat(), &[5]);
}

#[test]
fn a_missing_row_is_zero() {
    assert_a_lists(&[out_by(15, 1), TRUE].concat(), &[]);
    assert_a_lists(
        &[&NOT[..], &in_by(7, 1), &TRUE].concat(),
        &[0, 1, 2, 3, 4, 5],
    );
}

#[test]
fn marks_keep_a_hook_and_a_shackle_apart() {
    let two = register(&[2, 4], &[]);
    assert_eq!(read_summary(&summary(1, 1, 1, &two)).classes.len(), 2);
}

#[test]
fn a_link_to_itself_counts_once_each_way() {
    let alone = register(&[0], &[(0, 3, 0)]);
    let file = summary(1, 7, 15, &alone);
    for entry in [out_by(3, 1), in_by(3, 1)] {
        assert_lists(&alone, &file, &[entry, TRUE].concat(), &[0]);
    }
    for entry in [out_by(3, 2), in_by(3, 2)] {
        assert_lists(&alone, &file, &[entry, TRUE].concat(), &[]);
    }
}
