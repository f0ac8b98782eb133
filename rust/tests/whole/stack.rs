//! Every call, on the largest files, in a thread with as little stack as the documentation asks
//! for.

use crate::samples::*;
use hestovane::{
    ask_register, ask_summary, check, list, Direction, Item, Label, Question, Register, Summary,
    Threshold, REGISTER_MOST, SUMMARY_MOST,
};

const STACK: usize = 256 * 1024;

/// 1,024 items and 2,048 links, so scattered that no two items are alike at level 4.
fn largest() -> Vec<u8> {
    let mut register = Register::new();
    for _ in 0..1_024 {
        register.add_item([]).unwrap();
    }
    for number in 0..1_024_u16 {
        let scattered = (u32::from(number) * 619 + 77) % 1_024;
        for (label, target) in [(number % 8, scattered), (8 + number / 8 % 8, scattered / 2)] {
            let ends = (Item::new(number), Item::new(target as u16));
            let label = Label::of(label.into());
            register.add_link(ends.0, label, ends.1).unwrap();
        }
    }
    register.to_bytes()
}

/// 63 entries over one another: at-leasts of a depth that the summary answers, and nots.
fn deepest(at_leasts: u32) -> Question {
    let mut question = Question::always();
    for entry in 0..63 {
        question = if entry < at_leasts {
            let label = Label::of(entry % 16);
            Question::at_least(Threshold::of(1), Direction::Out, label, question).unwrap()
        } else {
            Question::not(question).unwrap()
        };
    }
    question
}

fn every_call() {
    let register = largest();
    assert_eq!(register.len(), REGISTER_MOST);
    let summary = condensed(&register, 4, 7, 15);
    assert_eq!(summary.len(), SUMMARY_MOST);
    assert_eq!(check(&register, &summary), Ok(true));
    assert!(Summary::read(&summary).is_ok());
    let item = Item::new(0);
    assert!(ask_register(&register, deepest(63).as_bytes(), item).is_ok());
    let question = deepest(4);
    let on_register = ask_register(&register, question.as_bytes(), item);
    assert_eq!(
        ask_summary(&summary, question.as_bytes(), item),
        on_register
    );
    let listed = list(&summary, question.as_bytes()).unwrap();
    assert_eq!(Ok(listed.contains(&item)), on_register);
}

#[test]
fn in_a_small_stack() {
    let thread = std::thread::Builder::new().stack_size(STACK);
    let run = thread.spawn(every_call).unwrap();
    assert!(run.join().is_ok());
}
