//! The reader of a summary: what it hands out, what it does with damaged files, and with a class of
//! another summary.

use crate::samples::*;
use hestovane::{check, Class, Count, Direction, Item, Label, Refusal, Row, Summary};
use std::collections::BTreeSet;

fn read_a() -> Summary {
    Summary::read(&summary_a()).unwrap()
}

fn class_of(summary: &Summary, item: u16) -> Class {
    summary.class_of(Item::new(item)).unwrap()
}

#[test]
fn classes_and_their_items() {
    let summary = read_a();
    let hooks = summary.class(class_of(&summary, 3));
    assert!(hooks.marks.has(PASSED) && !hooks.marks.has(FAILED));
    assert_eq!(hooks.marks.iter().collect::<Vec<_>>(), [HOOK, PASSED]);
    assert_eq!(hooks.count, Count::MoreThan(1));
    assert_eq!(
        summary.items_of(hooks.class).collect::<Vec<_>>(),
        items(&[3, 4])
    );
    assert_eq!(
        summary.class(class_of(&summary, 5)).count,
        Count::Exactly(1)
    );
    assert_eq!(summary.class_of(Item::new(6)), Err(Refusal::Item));
}

/// For every class, direction, label and group: the count of the row, and exactly 0 where none
/// stands.
#[test]
fn no_row_means_count_zero() {
    let summary = read_a();
    let groups = BTreeSet::from_iter(summary.classes().iter().map(|record| record.group));
    let mut found = Vec::new();
    for class in summary.classes().iter().map(|record| record.class) {
        for (direction, label) in ways() {
            for group in groups.iter().copied() {
                match summary.count(class, direction, label, group) {
                    Count::Exactly(0) => {}
                    count => found.push(Row {
                        class,
                        direction,
                        label,
                        group,
                        count,
                    }),
                }
            }
        }
    }
    assert_eq!(found, summary.rows());
}

fn ways() -> impl Iterator<Item = (Direction, Label)> {
    let directions = [Direction::Out, Direction::In].into_iter();
    directions.flat_map(|direction| (0..16).map(move |label| (direction, Label::of(label))))
}

#[test]
fn rows_of_a_class_are_its_own() {
    let summary = read_a();
    let rows = summary.classes().iter().flat_map(|record| {
        let rows = summary.rows_of(record.class);
        assert!(rows.iter().all(|row| row.class == record.class));
        rows
    });
    assert_eq!(rows.copied().collect::<Vec<_>>(), summary.rows());
}

/// Every byte changed to every other: the file is read, or refused as the check refuses it.
#[test]
fn damaged_files() {
    let whole = summary_a();
    for at in 0..whole.len() {
        for byte in 0..=255 {
            let mut damaged = whole.clone();
            damaged[at] = byte;
            let judged = check(&register_a(), &damaged).map(|_| ());
            assert_eq!(Summary::read(&damaged).map(|_| ()), judged);
        }
        assert_eq!(Summary::read(&whole[..at]), Err(Refusal::Summary));
    }
}

/// The summary of the register of no items, which has no class.
fn read_empty() -> Summary {
    Summary::read(&condensed(&register(&[], &[]), 1, 1, 1)).unwrap()
}

#[test]
#[should_panic(expected = "this summary has no class 3")]
fn a_class_of_another_summary() {
    read_empty().class(class_of(&read_a(), 5));
}

#[test]
#[should_panic(expected = "this summary has no class 3")]
fn rows_of_a_class_of_another_summary() {
    read_empty().rows_of(class_of(&read_a(), 5));
}

#[test]
#[should_panic(expected = "this summary has no class 3")]
fn items_of_a_class_of_another_summary() {
    let _ = read_empty().items_of(class_of(&read_a(), 5));
}

/// Hoists alone: one class, one group.
#[test]
#[should_panic(expected = "this summary has no group 2")]
fn a_count_in_a_group_of_another_summary() {
    let hoists = Summary::read(&condensed(&register(&[1, 1], &[]), 1, 1, 1)).unwrap();
    let a = read_a();
    let group = a.class(class_of(&a, 5)).group;
    hoists.count(class_of(&hoists, 0), Direction::Out, CARRIES, group);
}
