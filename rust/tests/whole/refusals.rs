//! What each call refuses: every number that it can give, the order of the numbers, and that a
//! refusal writes nothing. 4 cannot come through the crate's types; src/native.rs has its test.

use crate::samples::*;
use hestovane::{
    ask_register, ask_summary, check, condense, condense_into, list, list_into, ClassCap, Item,
    Level, NeighbourCap, Question, Refusal,
};

const LEVEL: Level = Level::of(1);
const NEAR: NeighbourCap = NeighbourCap::of(1);
const CLASS: ClassCap = ClassCap::of(1);

/// No item of A has this number.
const NO_ITEM: Item = Item::new(6);

fn changed(mut bytes: Vec<u8>, changes: &[(usize, u8)]) -> Vec<u8> {
    for (at, byte) in changes {
        bytes[*at] = *byte;
    }
    bytes
}

/// A with some bytes changed. Its header has 12 bytes, its links start at 36.
fn a_with(changes: &[(usize, u8)]) -> Vec<u8> {
    changed(register_a(), changes)
}

/// Registers with one fault, and with two of which the first decides.
fn refused_registers() -> Vec<(Vec<u8>, Refusal)> {
    let too_many_items: &[(usize, u8)] = &[(0, 4), (1, 1)];
    vec![
        (vec![], Refusal::Header),
        (a_with(too_many_items)[..11].to_vec(), Refusal::Header),
        (a_with(too_many_items)[..12].to_vec(), Refusal::Size),
        (a_with(&[(2, 9), (11, 1)]), Refusal::Size),
        (a_with(&[(11, 1), (39, 16)]), Refusal::Header),
        ([register_a(), vec![0]].concat(), Refusal::Header),
        (a_with(&[(39, 16)]), Refusal::Link),
        (a_with(&[(41, 6)]), Refusal::Link),
        (a_with(&[(37, 2)]), Refusal::Link),
        (a_with(&[(43, 0), (47, 3)]), Refusal::Link),
    ]
}

/// Files that are no question: nothing, no whole entry, an unknown first byte, a threshold of 0 and
/// of 9, an operand missing, an entry left over, a third byte that is not 0.
fn refused_questions() -> [&'static [u8]; 8] {
    [
        &[],
        &[0, 0, 0],
        &[5, 0, 0, 0],
        &[16, 0, 0, 0, 0, 0, 0, 0],
        &[16, 9, 0, 0, 0, 0, 0, 0],
        &[3, 0, 0, 0, 0, 0, 0, 0],
        &[0, 0, 0, 0, 0, 0, 0, 0],
        &[0, 0, 1, 0],
    ]
}

/// Files that are no summary: nothing, level 0, a byte too few, a row of count 0, a map to class 4.
fn refused_summaries() -> Vec<Vec<u8>> {
    let a = summary_a();
    vec![
        vec![],
        changed(a.clone(), &[(1, 0)]),
        a[..111].to_vec(),
        changed(a.clone(), &[(63, 0)]),
        changed(a, &[(101, 4)]),
    ]
}

#[test]
fn condensing() {
    let mut room = vec![7; 200];
    for (register, refusal) in refused_registers() {
        assert_eq!(condense(&register, LEVEL, NEAR, CLASS), Err(refusal));
        let written = condense_into(&register, LEVEL, NEAR, CLASS, &mut room[..5]);
        assert_eq!(written, Err(refusal));
    }
    let short = condense_into(&register_a(), LEVEL, NEAR, CLASS, &mut room[..111]);
    assert_eq!(short, Err(Refusal::Room));
    assert_eq!(room, vec![7; 200]);

    let written = condense_into(&register_a(), LEVEL, NEAR, CLASS, &mut room).unwrap();
    assert_eq!(written, summary_a());
    assert_eq!(room[112..], [7; 88]);
}

#[test]
fn checking() {
    for (register, refusal) in refused_registers() {
        assert_eq!(check(&register, &[]), Err(refusal));
    }
    for summary in refused_summaries() {
        assert_eq!(check(&register_a(), &summary), Err(Refusal::Summary));
    }
    let another = register(&[1; 6], &[]);
    assert_eq!(check(&another, &summary_a()), Ok(false));
}

#[test]
fn asking_a_register() {
    for (register, refusal) in refused_registers() {
        assert_eq!(ask_register(&register, &[], NO_ITEM), Err(refusal));
    }
    for question in refused_questions() {
        let asked = ask_register(&register_a(), question, NO_ITEM);
        assert_eq!(asked, Err(Refusal::Question));
    }
    let asked = ask_register(&register_a(), Question::always().as_bytes(), NO_ITEM);
    assert_eq!(asked, Err(Refusal::Item));
}

#[test]
fn asking_a_summary() {
    for summary in refused_summaries() {
        assert_eq!(ask_summary(&summary, &[], NO_ITEM), Err(Refusal::Summary));
    }
    for question in refused_questions() {
        let asked = ask_summary(&summary_a(), question, NO_ITEM);
        assert_eq!(asked, Err(Refusal::Question));
    }
    let beyond = out(3, Question::always());
    let asked = ask_summary(&summary_a(), beyond.as_bytes(), NO_ITEM);
    assert_eq!(asked, Err(Refusal::Beyond));
    let asked = ask_summary(&summary_a(), Question::always().as_bytes(), NO_ITEM);
    assert_eq!(asked, Err(Refusal::Item));
}

#[test]
fn listing() {
    let mut room = [7; 20];
    for summary in refused_summaries() {
        assert_eq!(list(&summary, &[]), Err(Refusal::Summary));
    }
    for question in refused_questions() {
        assert_eq!(list(&summary_a(), question), Err(Refusal::Question));
    }
    let beyond = out(3, Question::always());
    let refused = list_into(&summary_a(), beyond.as_bytes(), &mut []).err();
    assert_eq!(refused, Some(Refusal::Beyond));
    let all = Question::always();
    let refused = list_into(&summary_a(), all.as_bytes(), &mut room[..11]).err();
    assert_eq!(refused, Some(Refusal::Room));
    assert_eq!(room, [7; 20]);

    let listed = list_into(&summary_a(), all.as_bytes(), &mut room).unwrap();
    assert_eq!(listed.collect::<Vec<Item>>(), items(&[0, 1, 2, 3, 4, 5]));
    assert_eq!(
        room,
        [0, 0, 0, 1, 0, 2, 0, 3, 0, 4, 0, 5, 7, 7, 7, 7, 7, 7, 7, 7]
    );
}

/// Handed over in the wrong order, files are refused, and never answered.
#[test]
fn one_file_for_another() {
    let (register, summary) = (register_a(), summary_a());
    assert!(check(&summary, &register).is_err());
    assert_eq!(check(&register, &register), Err(Refusal::Summary));
    assert!(condense(&summary, LEVEL, NEAR, CLASS).is_err());
    let question = Question::has(FAILED);
    assert_eq!(list(question.as_bytes(), &summary), Err(Refusal::Summary));
    assert_eq!(list(&register, question.as_bytes()), Err(Refusal::Summary));
}
