//! Refusals: what is malformed and what is not well formed, and the order of the numbers in each
//! of the five calls and in the condensing program.

use super::examples::printed;
use super::*;
use crate::check::check;

#[test]
fn register_numbers_in_order() {
    let a = register_a();
    let refused = |bytes: &[u8], refusal| assert_eq!(Register::read(bytes).err(), Some(refusal));
    refused(&with_number(&a, 0, 1_025)[..11], Refusal::RegisterForm);
    refused(&with_number(&a, 0, 1_025)[..12], Refusal::RegisterLimits);
    refused(&with_number(&a, 2, 2_049), Refusal::RegisterLimits);
    for (at, number) in [(0, 5), (2, 2), (4, 13), (6, 35), (8, 53), (10, 1)] {
        refused(&with_number(&a, at, number), Refusal::RegisterForm);
    }
    refused(&[a.clone(), vec![0]].concat(), Refusal::RegisterForm);
    refused(&a[..a.len() - 1], Refusal::RegisterForm);
    for (at, number) in [(48, 6), (50, 16), (50, 256), (52, 6)] {
        refused(&with_number(&a, at, number), Refusal::RegisterLinks);
    }
    let twice = [(0, 0, 1), (0, 0, 1)];
    let descending = [(1, 0, 0), (0, 0, 1)];
    refused(&register(&[0; 2], &twice), Refusal::RegisterLinks);
    refused(&register(&[0; 2], &descending), Refusal::RegisterLinks);
    refused(&register(&[], &[(0, 0, 0)]), Refusal::RegisterLinks);
}

#[test]
fn questions_malformed() {
    let a = register_a();
    let malformed = |question: &[u8]| {
        let asked = ask_register(&a, question, Item(0));
        assert_eq!(asked, Err(Refusal::QuestionForm), "{question:?}");
    };
    malformed(&[]);
    for cut in 1..4 {
        malformed(&TRUE[..cut]);
        malformed(&[&TRUE[..], &TRUE[..cut]].concat());
    }
    malformed(&[TRUE, TRUE].concat());
    malformed(&NOT);
    malformed(&[AND, TRUE].concat());
    malformed(&[OR, TRUE].concat());
    malformed(&[OR, TRUE, TRUE, TRUE].concat());
    malformed(&out_by(0, 1));
    for first in [0, 2, 3, 4] {
        malformed(&[[first, 1, 0, 0], TRUE, TRUE].concat());
    }
    for first in (5..16).chain(48..=255) {
        malformed(&[[first, 1, 0, 0], TRUE].concat());
        malformed(&[first, 0, 0, 0]);
    }
    for threshold in [0, 9, 128, 255] {
        malformed(&[out_by(15, threshold), TRUE].concat());
        malformed(&[in_by(15, threshold), TRUE].concat());
    }
    for entry in [[0, 0, 1, 0], [0, 0, 0, 1], [1, 1, 1, 0], [1, 1, 0, 1]] {
        malformed(&entry);
    }
}

#[test]
fn reach_is_judged_in_every_branch() {
    let file = summary(2, 1, 1, &register_a());
    let high = [&OR[..], &TRUE, &out_by(0, 3), &TRUE].concat();
    let high_inside = [out_by(0, 1), out_by(0, 3), TRUE].concat();
    let three = [out_by(0, 1), out_by(0, 1), out_by(0, 1), TRUE].concat();
    let deep = [&OR[..], &TRUE, &three].concat();
    for question in [high, high_inside, deep] {
        assert_eq!(listed(&file, &question), Err(Refusal::QuestionReach));
    }
}

#[test]
fn orders_of_refusals() {
    let a = register_a();
    let file = summary(1, 1, 1, &a);
    let bad_links = with_number(&a, 38, 16);
    let deep = [out_by(0, 1), out_by(0, 1), TRUE].concat();
    let (links, level) = (Refusal::RegisterLinks, Refusal::LevelOrCaps);
    assert_eq!(condense(0, 0, 0, &bad_links, 0), Err(links));
    assert_eq!(condense(0, 0, 0, &a, 0), Err(level));
    assert_eq!(condense(1, 1, 1, &a, 0), Err(Refusal::Room));
    assert_eq!(check(&bad_links, &[]), Err(links));
    assert_eq!(check(&a, &[]), Err(Refusal::SummaryForm));
    assert_eq!(ask_register(&bad_links, &[], Item(6)), Err(links));
    let (form, item) = (Refusal::QuestionForm, Refusal::ItemNumber);
    assert_eq!(ask_register(&a, &[], Item(6)), Err(form));
    assert_eq!(ask_register(&a, &TRUE, Item(6)), Err(item));
    let unread = Refusal::SummaryForm;
    assert_eq!(ask_summary(&[], &[], Item(6)), Err(unread));
    assert_eq!(ask_summary(&file, &[], Item(6)), Err(form));
    let reach = Refusal::QuestionReach;
    assert_eq!(ask_summary(&file, &deep, Item(6)), Err(reach));
    assert_eq!(ask_summary(&file, &TRUE, Item(6)), Err(item));
    assert_eq!(list_from_summary(&[], &[], 0), Err(unread));
    assert_eq!(list_from_summary(&file, &[], 0), Err(form));
    assert_eq!(list_from_summary(&file, &deep, 0), Err(reach));
    assert_eq!(list_from_summary(&file, &TRUE, 11), Err(Refusal::Room));
}

#[test]
fn numbers_are_those_of_the_document() {
    let in_order = [
        Refusal::RegisterForm,
        Refusal::RegisterLimits,
        Refusal::RegisterLinks,
        Refusal::LevelOrCaps,
        Refusal::QuestionForm,
        Refusal::SummaryForm,
        Refusal::QuestionReach,
        Refusal::ItemNumber,
        Refusal::Room,
    ];
    assert!(in_order.into_iter().map(Refusal::number).eq(1..=9));
}

#[test]
fn the_program_refuses() {
    let a = register_a();
    let input = |i, register: &[u8]| [&two_bytes_each(&[i, 1, 1]), register].concat();
    for length in 0..6 {
        assert_eq!(printed(&input(1, &a)[..length]), "refused 1\n");
    }
    assert_eq!(printed(&input(1, &[])), "refused 1\n");
    assert_eq!(
        printed(&input(0, &with_number(&a, 0, 1_025))),
        "refused 2\n"
    );
    assert_eq!(printed(&input(0, &with_number(&a, 38, 16))), "refused 3\n");
    assert_eq!(printed(&input(257, &a)), "refused 4\n");
    let most = crate::judging::paired_register(1_024, 2_048).write();
    assert!(printed(&input(1, &most)).starts_with("summary 1 1 1 "));
    let one_more = [most, vec![0]].concat();
    assert_eq!(printed(&input(1, &one_more)), "refused 1\n");
}
