//! Document 01's P1 to P11, each found by its number.

use crate::samples::*;
use hestovane::{
    ask_register, ask_summary, check, list, list_into, Count, Item, Mark, Question, Refusal,
    Summary,
};

/// The question lists these items of A's summary; and A itself, and its summary, say so item by
/// item.
fn lists(question: &Question, expected: &[u16]) {
    let (register, summary, question) = (register_a(), summary_a(), question.as_bytes());
    assert_eq!(list(&summary, question).unwrap(), items(expected));
    for number in 0..6 {
        let (item, holds) = (Item::new(number), expected.contains(&number));
        assert_eq!(ask_register(&register, question, item), Ok(holds));
        assert_eq!(ask_summary(&summary, question, item), Ok(holds));
    }
}

/// A count as document 01's listing prints it: one above the cap for "more".
fn printed(count: Count) -> u8 {
    match count {
        Count::Exactly(n) => n,
        Count::MoreThan(cap) => cap + 1,
    }
}

/// Document 01's listing of a summary, written from what the reader hands out.
fn listing(summary: &Summary) -> String {
    let mut lines = vec![format!(
        "summary {} {} {} {} {} {}",
        summary.level(),
        summary.neighbour_cap(),
        summary.class_cap(),
        summary.classes().len(),
        summary.group_count(),
        summary.item_count()
    )];
    for class in summary.classes() {
        let (marks, count) = (class.marks.bits(), printed(class.count));
        lines.push(format!(
            "class {} {marks} {} {count}",
            class.class, class.group
        ));
    }
    for row in summary.rows() {
        let way = 16 * row.direction as u8 + row.label.number();
        let count = printed(row.count);
        lines.push(format!("row {} {way} {} {count}", row.class, row.group));
    }
    for link in summary.class_links() {
        lines.push(format!(
            "edge {} {} {}",
            link.source, link.label, link.target
        ));
    }
    for (item, class) in summary.map() {
        lines.push(format!("item {item} {class}"));
    }
    lines.join("\n")
}

#[test]
fn p1_the_summary_of_a() {
    let bytes = summary_a();
    assert_eq!(bytes.len(), 112);
    assert_eq!(check(&register_a(), &bytes), Ok(true));
    let expected = "summary 1 1 1 4 3 6
class 0 1 0 2
class 1 1 0 1
class 2 6 1 2
class 3 10 2 1
row 0 0 1 1
row 1 0 2 1
row 2 16 0 1
row 3 16 0 1
edge 0 0 2
edge 1 0 3
item 0 0
item 1 0
item 2 1
item 3 2
item 4 2
item 5 3";
    assert_eq!(listing(&Summary::read(&bytes).unwrap()), expected);
}

#[test]
fn p2_out_to_a_failed_one() {
    let question = out(1, Question::has(FAILED));
    assert_eq!(question.as_bytes(), [16, 1, 0, 0, 1, 4, 0, 0]);
    lists(&question, &[2]);
}

#[test]
fn p3_lacking_failed_is_not_having_passed() {
    lists(&Question::lacks(FAILED), &[0, 1, 2, 3, 4]);
    lists(&Question::has(PASSED), &[3, 4]);
}

#[test]
fn p4_in_from_a_hoist() {
    lists(&into(1, Question::has(HOIST)), &[3, 4, 5]);
}

#[test]
fn p5_two_out_and_three_out() {
    let two = out(2, Question::always());
    lists(&two, &[]);
    let in_no_room = list_into(&summary_a(), two.as_bytes(), &mut []).map(|items| items.len());
    assert_eq!(in_no_room, Ok(0));
    let three = out(3, Question::always());
    assert_eq!(list(&summary_a(), three.as_bytes()), Err(Refusal::Beyond));
}

#[test]
fn p6_one_at_least_inside_another() {
    let question = out(1, into(1, Question::has(HOIST)));
    assert_eq!(
        list(&summary_a(), question.as_bytes()),
        Err(Refusal::Beyond)
    );
    let asked = ask_summary(&summary_a(), question.as_bytes(), Item::new(0));
    assert_eq!(asked, Err(Refusal::Beyond));
    for (item, holds) in [(0, true), (2, true), (3, false)] {
        let asked = ask_register(&register_a(), question.as_bytes(), Item::new(item));
        assert_eq!(asked, Ok(holds));
    }
}

#[test]
fn p7_literals() {
    for second in [0, 33, 33_u8.wrapping_neg(), 128] {
        let question = [1, second, 0, 0];
        assert_eq!(list(&summary_a(), &question), Err(Refusal::Question));
        let asked = ask_register(&register_a(), &question, Item::new(0));
        assert_eq!(asked, Err(Refusal::Question));
    }
    lists(&Question::has(Mark::of(32)), &[]);
    lists(&Question::lacks(Mark::of(32)), &[0, 1, 2, 3, 4, 5]);
}

#[test]
fn p8_a_chain_of_four() {
    let chain = register(&[0; 4], &[(0, 1), (1, 2), (2, 3)]);
    for (level, classes, groups) in [(1, 3, 1), (2, 4, 3)] {
        let summary = Summary::read(&condensed(&chain, level, 1, 1)).unwrap();
        let counts = (summary.classes().len(), summary.group_count());
        assert_eq!(counts, (classes, groups));
    }
}

#[test]
fn p9_a_hoist_with_three_hooks() {
    let hoist = register(&[1, 6, 6, 6], &[(0, 1), (0, 2), (0, 3)]);
    for (neighbour_cap, expected) in [(1, 2), (2, 3)] {
        let bytes = condensed(&hoist, 1, neighbour_cap, 1);
        let summary = Summary::read(&bytes).unwrap();
        let row = summary.rows()[0];
        assert_eq!(row.count, Count::MoreThan(neighbour_cap as u8));
        assert_eq!(printed(row.count), expected);
        let two = out(2, Question::always());
        assert_eq!(list(&bytes, two.as_bytes()).unwrap(), items(&[0]));
    }
}

#[test]
fn p10_a_passed_and_a_failed_hook() {
    let hoist = register(&[1, 6, 10], &[(0, 1), (0, 2)]);
    let bytes = condensed(&hoist, 1, 1, 1);
    let summary = Summary::read(&bytes).unwrap();
    let hoists = summary.class_of(Item::new(0)).unwrap();
    let counts: Vec<Count> = summary
        .rows_of(hoists)
        .iter()
        .map(|row| row.count)
        .collect();
    assert_eq!(counts, [Count::Exactly(1), Count::Exactly(1)]);
    let two = out(2, Question::always());
    assert_eq!(ask_summary(&bytes, two.as_bytes(), Item::new(0)), Ok(true));
}

#[test]
fn p11_the_empty_register() {
    let bytes = condensed(&register(&[], &[]), 1, 1, 1);
    assert_eq!(bytes.len(), 24);
    assert_eq!(bytes[16..], [0, 24, 0, 24, 0, 24, 0, 24]);
    let summary = Summary::read(&bytes).unwrap();
    assert!(summary.classes().is_empty() && summary.map().next().is_none());
}
