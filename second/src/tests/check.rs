//! Proposed summaries: what is well formed, what the check says yes to, and what it denies.
//! Most are the summary of register A at 1, 1, 1 with some numbers changed.

use super::*;
use crate::check::check;
use crate::numbers::{Class, Group};
use crate::summary::{ClassEntry, Row};
use std::collections::BTreeSet;

fn summary_a() -> Vec<u8> {
    summary(1, 1, 1, &register_a())
}

/// The file with several numbers replaced, each at its place.
fn with_numbers(file: &[u8], numbers: &[(usize, usize)]) -> Vec<u8> {
    let change = |file: Vec<u8>, (at, number): &(usize, usize)| with_number(&file, *at, *number);
    numbers.iter().fold(file.to_vec(), change)
}

fn checked(numbers: &[(usize, usize)]) -> Result<bool, Refusal> {
    check(&register_a(), &with_numbers(&summary_a(), numbers))
}

fn assert_each_not_well_formed(changes: &[(usize, usize)]) {
    for change in changes {
        assert_eq!(checked(&[*change]), Err(Refusal::SummaryForm), "{change:?}");
    }
}

#[test]
fn header_not_well_formed() {
    assert_each_not_well_formed(&[(0, 0), (0, 5), (0, 257)]);
    assert_each_not_well_formed(&[(2, 0), (2, 8), (4, 0), (4, 16)]);
    assert_each_not_well_formed(&[(6, 3), (6, 5), (8, 2), (8, 4), (8, 65_535)]);
    assert_each_not_well_formed(&[(10, 3), (10, 5), (12, 1), (12, 3), (14, 5), (14, 7)]);
    assert_each_not_well_formed(&[(16, 23), (18, 55), (20, 87), (22, 99)]);
}

#[test]
fn classes_not_well_formed() {
    assert_each_not_well_formed(&[(28, 1), (28, 3), (30, 0), (30, 3), (46, 0)]);
}

#[test]
fn rows_not_well_formed() {
    assert_each_not_well_formed(&[(56, 1), (56, 4), (58, 1), (58, 16), (58, 32)]);
    assert_each_not_well_formed(&[(60, 0), (60, 3), (62, 0), (62, 3)]);
}

#[test]
fn class_links_not_well_formed() {
    assert_each_not_well_formed(&[(88, 1), (88, 4), (90, 1), (90, 16), (92, 3), (92, 4)]);
}

#[test]
fn map_not_well_formed() {
    assert_each_not_well_formed(&[(100, 4), (110, 65_535)]);
}

/// The file with two stretches of that length in each other's place.
fn with_swapped(file: &[u8], one: usize, other: usize, length: usize) -> Vec<u8> {
    let mut swapped = file.to_vec();
    swapped[one..one + length].copy_from_slice(&file[other..other + length]);
    swapped[other..other + length].copy_from_slice(&file[one..one + length]);
    swapped
}

#[test]
fn order_is_part_of_well_formed() {
    for (one, other, length) in [(56, 64, 8), (72, 80, 8), (88, 94, 6)] {
        let swapped = with_swapped(&summary_a(), one, other, length);
        let answer = check(&register_a(), &swapped);
        assert_eq!(answer, Err(Refusal::SummaryForm));
    }
}

fn assert_not_well_formed(summary: &Summary) {
    let refused = Err(Refusal::SummaryForm);
    assert_eq!(check(&register_a(), &summary.write()), refused);
}

#[test]
fn rows_and_class_links_call_for_each_other() {
    for row in 0..4 {
        let mut summary = read_summary(&summary_a());
        summary.rows.remove(row);
        assert_not_well_formed(&summary);
    }
    for link in 0..2 {
        let mut summary = read_summary(&summary_a());
        summary.class_links.remove(link);
        assert_not_well_formed(&summary);
    }
}

#[test]
fn nothing_stands_twice() {
    let mut again = read_summary(&summary_a());
    let mut twice_a_row = read_summary(&summary_a());
    twice_a_row.rows.insert(1, again.rows.swap_remove(0));
    assert_not_well_formed(&twice_a_row);
    let mut twice_a_link = read_summary(&summary_a());
    twice_a_link.class_links.insert(1, again.class_links[0]);
    assert_not_well_formed(&twice_a_link);
}

#[test]
fn a_class_needs_a_group() {
    let mut groupless = read_summary(&wide(1, 0, 1));
    groupless.group_count = 0;
    assert_not_well_formed(&groupless);
}

/// Classes of one group, the k-th class link from class k / 4 to class k mod 4, and items all of
/// the first class.
fn wide(classes: usize, links: usize, items: usize) -> Vec<u8> {
    let class_links: Vec<_> = (0..links)
        .map(|k| Link {
            source: Class(k / 4),
            label: 0,
            target: Class(k % 4),
        })
        .collect();
    let class = |_| ClassEntry {
        marks: 0,
        group: Group(0),
        count: 1,
    };
    Summary {
        level: 1,
        neighbour_cap: 1,
        class_cap: 1,
        group_count: 1,
        classes: (0..classes).map(class).collect(),
        rows: rows_of_one(&class_links),
        class_links,
        map: vec![Class(0); items],
    }
    .write()
}

/// The rows that class links ask for where there is but one group.
fn rows_of_one(class_links: &[Link<Class>]) -> Vec<Row> {
    let ways = class_links.iter().flat_map(|link| link.both_ways());
    let places: BTreeSet<_> = ways.map(|(way, class, _)| (class, way)).collect();
    let row = |(class, way)| Row {
        class,
        way,
        group: Group(0),
        count: 1,
    };
    places.into_iter().map(row).collect()
}

#[test]
fn limits_are_part_of_well_formed() {
    for (classes, links, items) in [(1_024, 2_048, 1_024), (1, 0, 1_024), (1_024, 0, 0)] {
        let list = listed(&wide(classes, links, items), &TRUE);
        assert_eq!(list.map(|list| list.len()), Ok(2 * items));
    }
    for (classes, links, items) in [(1_025, 0, 1), (1, 0, 1_025), (1_024, 2_049, 1)] {
        let list = listed(&wide(classes, links, items), &TRUE);
        assert_eq!(list, Err(Refusal::SummaryForm));
    }
}

#[test]
fn every_length_but_one_is_wrong() {
    let file = summary_a();
    for length in 0..file.len() {
        let short = check(&register_a(), &file[..length]);
        assert_eq!(short, Err(Refusal::SummaryForm));
    }
    let long = [file, vec![0]].concat();
    assert_eq!(check(&register_a(), &long), Err(Refusal::SummaryForm));
}

#[test]
fn the_level_is_not_judged() {
    for level in 1..=4 {
        assert_eq!(checked(&[(0, level)]), Ok(true));
    }
}

#[test]
fn stated_counts_marks_and_map_are_judged() {
    let class_count = [(30, 1)];
    let marks = [(26, 3)];
    let row_count = [(62, 2)];
    let mapped = [(100, 1)];
    let wider_neighbour_cap = [(2, 2)];
    let wider_class_cap = [(4, 2)];
    for change in [class_count, marks, row_count, mapped] {
        assert_eq!(checked(&change), Ok(false), "{change:?}");
    }
    for change in [wider_neighbour_cap, wider_class_cap] {
        assert_eq!(checked(&change), Ok(true), "{change:?}");
    }
}

#[test]
fn a_class_link_without_a_link_is_denied() {
    let b = register(&[HOIST, PASSED], &[]);
    let a = register(&[HOIST, PASSED], &[(0, 0, 1)]);
    assert_eq!(check(&b, &summary(1, 1, 1, &a)), Ok(false));
    assert_eq!(check(&a, &summary(1, 1, 1, &b)), Ok(false));
    assert_eq!(check(&a, &summary(1, 1, 1, &a)), Ok(true));
}

#[test]
fn other_item_counts_are_denied() {
    let more = register(&[HOIST; 2], &[]);
    let fewer = register(&[HOIST], &[]);
    assert_eq!(check(&more, &summary(1, 1, 1, &fewer)), Ok(false));
    assert_eq!(check(&fewer, &summary(1, 1, 1, &more)), Ok(false));
}

/// Two hoists with a passed hook each, classes and groups in an order of their own.
#[test]
fn any_grouping_and_numbering_may_be_proposed() {
    let two = register(&[HOIST, HOIST, PASSED, PASSED], &[(0, 0, 2), (1, 0, 3)]);
    let other_way_round = two_bytes_each(
        &[
            vec![3, 1, 1, 2, 2, 2, 1, 4, 24, 40, 56, 62],
            vec![0, 6, 1, 2, 0, 1, 0, 2],
            vec![0, 16, 0, 1, 1, 0, 1, 1],
            vec![1, 0, 0],
            vec![1, 1, 0, 0],
        ]
        .concat(),
    );
    assert_eq!(check(&two, &other_way_round), Ok(true));
    let one_group = with_numbers(&other_way_round, &[(8, 1), (28, 0), (52, 0)]);
    assert_eq!(check(&two, &one_group), Ok(true));
}

/// Two hoists, two hooks and a link to each: with hoists and hooks one group each, the rows cannot
/// tell which hoist has which hook, but the class links can.
#[test]
fn class_links_are_judged_beyond_the_rows() {
    let two = register(&[1, 2, 4, 8], &[(0, 0, 2), (1, 0, 3)]);
    let proposed = |links: &[usize]| {
        let e = links.len() / 3;
        let parts = [
            &[1, 1, 1, 4, 2, 4, e, 4, 24, 56, 88, 88 + 6 * e][..],
            &[0, 1, 0, 1, 0, 2, 0, 1, 0, 4, 1, 1, 0, 8, 1, 1],
            &[0, 0, 1, 1, 1, 0, 1, 1, 2, 16, 0, 1, 3, 16, 0, 1],
            links,
            &[0, 1, 2, 3],
        ];
        check(&two, &two_bytes_each(&parts.concat()))
    };
    assert_eq!(proposed(&[0, 0, 2, 1, 0, 3]), Ok(true));
    assert_eq!(proposed(&[0, 0, 3, 1, 0, 2]), Ok(false));
    assert_eq!(proposed(&[0, 0, 2, 0, 0, 3, 1, 0, 3]), Ok(false));
}

/// Every item in a class and a group of its own is as fine as any.
#[test]
fn every_item_for_itself() {
    let two = register(&[0; 2], &[]);
    let apart = two_bytes_each(
        &[
            vec![1, 1, 1, 2, 2, 0, 0, 2, 24, 40, 40, 40],
            vec![0, 0, 0, 1, 0, 0, 1, 1],
            vec![0, 1],
        ]
        .concat(),
    );
    assert_eq!(check(&two, &apart), Ok(true));
}

#[test]
fn a_class_without_items_is_well_formed_and_denied() {
    let lonely = two_bytes_each(
        &[
            vec![1, 1, 1, 1, 1, 0, 0, 0, 24, 32, 32, 32],
            vec![0, 1, 0, 1],
        ]
        .concat(),
    );
    assert_eq!(listed(&lonely, &TRUE), Ok(vec![]));
    assert_eq!(
        ask_summary(&lonely, &TRUE, Item(0)),
        Err(Refusal::ItemNumber)
    );
    assert_eq!(check(&register(&[], &[]), &lonely), Ok(false));
}

#[test]
fn items_without_a_class_are_not_well_formed() {
    let header = two_bytes_each(&[1, 1, 1, 0, 0, 0, 0, 1, 24, 24, 24, 24]);
    let classless = [header, vec![0, 0]].concat();
    assert_eq!(listed(&classless, &TRUE), Err(Refusal::SummaryForm));
}

/// A group speaks by its lowest-numbered class, also where its classes differ.
#[test]
fn an_operand_is_asked_at_the_lowest_class_of_a_group() {
    let file = two_bytes_each(
        &[
            vec![1, 1, 1, 3, 2, 3, 2, 3, 24, 48, 72, 84],
            vec![0, 1, 0, 1, 0, 2, 1, 1, 0, 4, 1, 1],
            vec![0, 0, 1, 2, 1, 16, 0, 1, 2, 16, 0, 1],
            vec![0, 0, 1, 0, 0, 2],
            vec![0, 1, 2],
        ]
        .concat(),
    );
    let two_of_mark = |k| [out_by(0, 2), literal(k)].concat();
    assert_eq!(listed(&file, &two_of_mark(2)), Ok(two_bytes_each(&[0])));
    assert_eq!(listed(&file, &two_of_mark(3)), Ok(vec![]));
}
