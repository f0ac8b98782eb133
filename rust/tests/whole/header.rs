//! The crate and include/hestovane.h name the same refusals and the same greatest lengths.

use hestovane::{Refusal, LIST_MOST, QUESTION_MOST, REGISTER_MOST, SUMMARY_MOST};

const HEADER: &str = include_str!("../../../include/hestovane.h");

/// The number that the header defines for a name.
fn defined(name: &str) -> usize {
    let define = format!("#define HESTOVANE_{name} ");
    let number = HEADER.lines().find_map(|line| line.strip_prefix(&define));
    let number = number.and_then(|rest| rest.split_whitespace().next());
    number.unwrap().parse().unwrap()
}

#[test]
fn greatest_lengths() {
    assert_eq!(defined("REGISTER_MOST"), REGISTER_MOST);
    assert_eq!(defined("SUMMARY_MOST"), SUMMARY_MOST);
    assert_eq!(defined("QUESTION_MOST"), QUESTION_MOST);
    assert_eq!(defined("LIST_MOST"), LIST_MOST);
}

#[test]
fn refusals() {
    let named = [
        ("REFUSED_HEADER", Refusal::Header),
        ("REFUSED_SIZE", Refusal::Size),
        ("REFUSED_LINK", Refusal::Link),
        ("REFUSED_RANGE", Refusal::Range),
        ("REFUSED_QUESTION", Refusal::Question),
        ("REFUSED_SUMMARY", Refusal::Summary),
        ("REFUSED_BEYOND", Refusal::Beyond),
        ("REFUSED_ITEM", Refusal::Item),
        ("REFUSED_ROOM", Refusal::Room),
    ];
    for (name, refusal) in named {
        assert_eq!(defined(name), usize::from(refusal.number()), "{name}");
    }
    assert_eq!(HEADER.matches("#define HESTOVANE_REFUSED_").count(), 9);
}
