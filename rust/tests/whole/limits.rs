//! The limits: what the builders take and the library accepts, and that one more is refused by
//! both.

use crate::samples::*;
use hestovane::{
    ask_register, check, list, BuildError, ClassCap, Direction, Item, Label, Level, Mark,
    NeighbourCap, Question, Refusal, Register, Threshold, QUESTION_MOST, REGISTER_MOST,
    SUMMARY_MOST,
};

const ALWAYS: [u8; 4] = [0; 4];

/// 1,024 items and no link.
fn full_of_items() -> Register {
    let mut register = Register::new();
    for number in 0..1_024 {
        assert_eq!(register.add_item([HOIST]), Ok(Item::new(number)));
    }
    register
}

/// And 2,048 links, added from the last to the first: two for each item.
fn full_of_links() -> Register {
    let mut register = full_of_items();
    for source in (0..1_024).rev().map(Item::new) {
        for label in [9, 3] {
            let target = Item::new((source.number() * 7 + label) % 1_024);
            let added = register.add_link(source, Label::of(label.into()), target);
            assert_eq!(added, Ok(()));
        }
    }
    register
}

/// A two-byte number of a file, put in the place of another.
fn put(bytes: &mut [u8], at: usize, number: u16) {
    bytes[at..at + 2].copy_from_slice(&number.to_be_bytes());
}

#[test]
fn items_1024_and_1025() {
    let mut register = full_of_items();
    assert_eq!(register.item_count(), 1_024);
    let bytes = register.to_bytes();
    assert_eq!(
        list(&condensed(&bytes, 4, 7, 15), &ALWAYS).map(|items| items.len()),
        Ok(1_024)
    );

    let before = register.clone();
    assert_eq!(register.add_item([HOIST]), Err(BuildError::TooManyItems));
    assert_eq!(register, before);

    let mut more = [bytes, vec![0, 0, 0, 1]].concat();
    for (at, number) in [(0, 1_025), (6, 4_112), (8, 4_112)] {
        put(&mut more, at, number);
    }
    assert_eq!(
        ask_register(&more, &ALWAYS, Item::new(0)),
        Err(Refusal::Size)
    );
}

#[test]
fn links_2048_and_2049() {
    let mut register = full_of_links();
    assert_eq!(register.link_count(), 2_048);
    let bytes = register.to_bytes();
    assert_eq!(bytes.len(), REGISTER_MOST);
    let summary = condensed(&bytes, 4, 7, 15);
    assert!(summary.len() <= SUMMARY_MOST);
    assert_eq!(check(&bytes, &summary), Ok(true));

    let before = register.clone();
    let (first, last) = (Item::new(0), Item::new(1_023));
    let added = register.add_link(first, Label::of(15), last);
    assert_eq!(added, Err(BuildError::TooManyLinks));
    assert_eq!(register, before);

    let mut more = [bytes, vec![3, 255, 0, 15, 3, 255]].concat();
    for (at, number) in [(2, 2_049), (8, 16_402)] {
        put(&mut more, at, number);
    }
    assert_eq!(ask_register(&more, &ALWAYS, first), Err(Refusal::Size));
}

#[test]
fn a_link_has_both_ends_and_stands_once() {
    let mut register = Register::new();
    let [one, two] = [(); 2].map(|()| register.add_item([]).unwrap());
    let none = Item::new(2);
    assert_eq!(
        register.add_link(one, CARRIES, none),
        Err(BuildError::NoSuchItem(none))
    );
    assert_eq!(
        register.add_link(none, CARRIES, one),
        Err(BuildError::NoSuchItem(none))
    );

    for (source, label, target) in [(two, 1, one), (one, 1, two), (one, 0, two), (one, 0, one)] {
        assert_eq!(register.add_link(source, Label::of(label), target), Ok(()));
    }
    let (source, label, target) = (one, CARRIES, two);
    let twice = register.add_link(source, label, target);
    assert_eq!(
        twice,
        Err(BuildError::LinkTwice {
            source,
            label,
            target
        })
    );
    assert_eq!(register.link_count(), 4);
    assert_eq!(ask_register(&register.to_bytes(), &ALWAYS, two), Ok(true));
}

/// "Not" before the question, as often as that.
fn nots(count: usize, question: Question) -> Result<Question, BuildError> {
    (0..count).try_fold(question, |question, _| Question::not(question))
}

#[test]
fn entries_64_and_65() {
    let longest = nots(63, Question::has(HOIST)).unwrap();
    assert_eq!(longest.as_bytes().len(), QUESTION_MOST);
    let hoist = Item::new(0);
    assert_eq!(
        ask_register(&register_a(), longest.as_bytes(), hoist),
        Ok(false)
    );
    assert_eq!(
        list(&summary_a(), longest.as_bytes()).unwrap(),
        items(&[3, 4, 5])
    );

    let more = [&[2, 0, 0, 0], longest.as_bytes()].concat();
    assert_eq!(
        ask_register(&register_a(), &more, hoist),
        Err(Refusal::Question)
    );
    let too_many = Err(BuildError::TooManyEntries { entries: 65 });
    assert_eq!(Question::not(longest.clone()), too_many);
    let over = Question::at_least(Threshold::of(1), Direction::In, CARRIES, longest);
    assert_eq!(over, too_many);
    let half = || nots(31, Question::always()).unwrap();
    assert_eq!(half().and(half()), too_many);
    assert_eq!(half().or(half()), too_many);
    let fitting = nots(30, Question::always()).unwrap();
    assert!(half().and(fitting).is_ok());
}

#[test]
fn every_operator_says_what_it_is_called() {
    let asked = |question: Question| list(&summary_a(), question.as_bytes()).unwrap();
    let (hook, failed) = (Question::has(HOOK), Question::has(FAILED));
    assert_eq!(
        asked(hook.clone().and(failed.clone()).unwrap()),
        items(&[5])
    );
    assert_eq!(asked(hook.clone().or(failed).unwrap()), items(&[3, 4, 5]));
    assert_eq!(asked(Question::not(hook).unwrap()), items(&[0, 1, 2]));
}

#[test]
fn numbers_in_range_and_out_of_it() {
    let numbers = |within: fn(u32) -> bool| -> Vec<u32> {
        (0..300)
            .chain([65_537, u32::MAX])
            .filter(|n| within(*n))
            .collect()
    };
    assert_eq!(numbers(|n| Level::new(n).is_ok()), Vec::from_iter(1..=4));
    assert_eq!(
        numbers(|n| NeighbourCap::new(n).is_ok()),
        Vec::from_iter(1..=7)
    );
    assert_eq!(
        numbers(|n| ClassCap::new(n).is_ok()),
        Vec::from_iter(1..=15)
    );
    assert_eq!(numbers(|n| Label::new(n).is_ok()), Vec::from_iter(0..=15));
    assert_eq!(numbers(|n| Mark::new(n).is_ok()), Vec::from_iter(1..=32));
    assert_eq!(
        numbers(|n| Threshold::new(n).is_ok()),
        Vec::from_iter(1..=8)
    );
    let message = Threshold::new(9).unwrap_err().to_string();
    assert_eq!(message, "threshold 9 is outside 1 to 8");
}

#[test]
#[should_panic(expected = "this label is outside 0 to 15")]
fn a_number_of_the_text_out_of_range() {
    Label::of(16);
}
