//! The counts of five: that every answer and every two faults come up, and that the first of the
//! faults in a call's order is the number that the call gives.

use crate::counts::{cases, Case, Fault, CALLS, COLUMNS};
use std::sync::LazyLock;

static CASES: LazyLock<Vec<Case>> = LazyLock::new(cases);

/// "Orders: condense 1, 2, 3 as above, 4, 9; check 1, 2, 3, 6; ask a register 1, 2, 3, 5, 8; ask a
/// summary 6, 5, 7, 8; list from a summary 6, 5, 7, 9."
#[test]
fn every_answer_of_every_call_is_given() {
    let expected = [
        ("condense", "length 1 2 3 4 9"),
        ("check", "yes no 1 2 3 6"),
        ("ask a register", "yes no 1 2 3 5 8"),
        ("ask a summary", "yes no 5 6 7 8"),
        ("list", "length 5 6 7 9"),
    ];
    for (call, (name, columns)) in CALLS.iter().zip(expected) {
        let counts = call.answers(&CASES);
        assert_eq!(counts.iter().sum::<usize>(), CASES.len(), "{name}");
        let given = COLUMNS.iter().zip(counts).filter(|(_, count)| *count > 0);
        let given: Vec<&str> = given.map(|(column, _)| *column).collect();
        assert_eq!((call.name, given.join(" ")), (name, columns.to_string()));
    }
}

#[test]
fn every_two_faults_meet() {
    let pairs = CALLS.map(|call| call.pairs(&CASES));
    assert_eq!(pairs.each_ref().map(Vec::len), [13, 8, 13, 5, 5]);
    for (call, pairs) in CALLS.iter().zip(pairs) {
        for (first, second, count) in pairs {
            let (first, second) = (first.name(), second.name());
            assert!(count > 0, "{}: {first} with {second}", call.name);
        }
    }
}

/// What is given for a fault, where it is the first. A list that is empty needs no room.
fn given_for(fault: Fault, case: &Case) -> &'static str {
    match fault {
        Fault::Under12 | Fault::RestOf1 => "1",
        Fault::Limits => "2",
        Fault::Links => "3",
        Fault::LevelOrCaps => "4",
        Fault::QuestionForm => "5",
        Fault::SummaryForm => "6",
        Fault::Reach => "7",
        Fault::ItemOfRegister | Fault::ItemOfSummary => "8",
        Fault::ListRoom if case.inputs.list() == Ok(vec![]) => "length",
        Fault::SummaryRoom | Fault::ListRoom => "9",
    }
}

/// Each fault is judged by itself; the first that is there is the one that is refused. Where there
/// is none, only the room can still be too little.
#[test]
fn the_first_fault_is_the_number_given() {
    for call in CALLS {
        for (seed, case) in (1..).zip(CASES.iter()) {
            let given = COLUMNS[(call.answer)(&case.inputs)];
            let first = call.order.iter().find(|fault| case.faults.contains(fault));
            match first {
                Some(fault) => assert_eq!(given, given_for(*fault, case), "seed {seed}"),
                None => assert!(["length", "yes", "no", "9"].contains(&given), "seed {seed}"),
            }
        }
    }
}
