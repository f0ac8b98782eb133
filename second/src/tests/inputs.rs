//! The inputs of the condensing program: that they are what they are said to be, that every length,
//! every limit and every refusal is among them, and what is printed for those whose answer is known
//! beforehand.

use super::examples::printed;
use crate::inputs::{self, inputs};
use crate::register::Register;
use crate::shapes::SHAPES;
use std::collections::{BTreeMap, BTreeSet};
use std::path::PathBuf;
use std::sync::LazyLock;
use std::{env, fs, process};

const FAMILIES: [(&str, usize); 13] = [
    ("cut", 60),
    ("header", 9),
    ("range", 64),
    ("wide", 26),
    ("ranked", 16),
    ("long", 18),
    ("marked", 8),
    ("sized", 32),
    ("shape", 72),
    ("spoilt", 147),
    ("large", 12),
    ("labelled", 24),
    ("thrown", 68),
];

const CROWD: usize = 5;

/// An input, and what is printed for it.
struct Case {
    family: String,
    numbers: Vec<usize>,
    bytes: Vec<u8>,
    printed: String,
}

static CASES: LazyLock<Vec<Case>> = LazyLock::new(cases);

fn cases() -> Vec<Case> {
    let case = |input: inputs::Input| {
        let words = input.name.strip_suffix(".in").expect("a file of input");
        let (family, numbers) = words.split_once('-').expect("numbers behind the name");
        let number = |word: &str| word.parse().expect("a number");
        Case {
            family: family.to_string(),
            numbers: numbers.split('-').map(number).collect(),
            printed: printed(&input.bytes),
            bytes: input.bytes,
        }
    };
    inputs().into_iter().map(case).collect()
}

fn cases_of(family: &'static str) -> impl Iterator<Item = &'static Case> {
    CASES.iter().filter(move |case| case.family == family)
}

/// What is printed for each input of the family begins as `expected` gives it for the input's
/// numbers.
fn assert_begins(family: &'static str, expected: impl Fn(&[usize]) -> String) {
    for case in cases_of(family) {
        let expected = expected(&case.numbers);
        let begins = case.printed.starts_with(&expected);
        assert!(begins, "{family} {:?}: {expected}", case.numbers);
    }
}

/// All that is printed for a refusal.
fn refused(number: usize) -> String {
    format!("refused {number}\n")
}

/// The beginning of a summary at that step.
fn summary_at(step: usize) -> String {
    let level_and_caps = ["1 1 1", "2 2 3", "3 4 7", "4 7 15"][step - 1];
    format!("summary {level_and_caps} ")
}

#[test]
fn families_in_order_with_all_their_inputs() {
    let expected = FAMILIES
        .iter()
        .flat_map(|(name, inputs)| vec![*name; *inputs]);
    assert!(CASES.iter().map(|case| case.family.as_str()).eq(expected));
    assert!((300..=600).contains(&CASES.len()));
}

#[test]
fn no_two_the_same() {
    let different: BTreeSet<&[u8]> = CASES.iter().map(|case| &case.bytes[..]).collect();
    assert_eq!(different.len(), CASES.len());
    let names: BTreeSet<String> = inputs().into_iter().map(|input| input.name).collect();
    assert_eq!(names.len(), CASES.len());
}

/// A folder that is there for this run of the tests, and is empty.
fn empty_folder() -> PathBuf {
    let folder = env::temp_dir().join(format!("second-inputs-{}", process::id()));
    fs::create_dir(&folder).expect("a folder of its own");
    folder
}

#[test]
fn every_input_is_written_and_counted() {
    let folder = empty_folder();
    let mut out = Vec::new();
    inputs::write(&folder, &mut out).expect("a folder takes every file");
    assert_eq!(out, format!("{}\n", CASES.len()).into_bytes());
    assert_eq!(
        fs::read_dir(&folder).expect("it is there").count(),
        CASES.len()
    );
    for input in inputs() {
        let written = fs::read(folder.join(&input.name)).expect("a file for each");
        assert!(written == input.bytes, "{}", input.name);
    }
    fs::remove_dir_all(&folder).expect("it was made here");
}

/// Every length under six bytes, and on up to that of A; both sides of the longest that is accepted
/// and of the most that is read; and more than four times as many.
#[test]
fn every_length() {
    let lengths: BTreeSet<usize> = CASES.iter().map(|case| case.bytes.len()).collect();
    for length in (0..=60).chain([16_401, 16_402, 16_403, 16_404, 20_000, 70_000]) {
        assert!(lengths.contains(&length), "{length}");
    }
}

/// "A refusal prints the one line `refused` and the number." No other number than 1 to 4 comes: the
/// program always has room.
#[test]
fn each_answer_often_enough() {
    let mut counts = BTreeMap::new();
    for case in CASES.iter() {
        let answer = match case.printed.split_once(' ') {
            Some(("summary", fields)) => format!("summary {}", &fields[..1]),
            _ => case.printed.clone(),
        };
        *counts.entry(answer).or_insert(0) += 1;
    }
    let expected = [
        ("refused 1\n", 150),
        ("refused 2\n", 50),
        ("refused 3\n", 50),
        ("refused 4\n", 80),
        ("summary 1", 40),
        ("summary 2", 25),
        ("summary 3", 25),
        ("summary 4", 40),
    ];
    assert!(counts.keys().eq(expected.map(|(answer, _)| answer)));
    for (answer, least) in expected {
        assert!(counts[answer] >= least, "{answer}: {}", counts[answer]);
    }
}

/// "Input under six bytes is refused 1", and so is a register that is not whole.
#[test]
fn cut_wherever_it_may_be() {
    assert_begins("cut", |_| refused(1));
}

/// "Under 12 bytes (1), then 2, then the rest of 1." The first with 12 bytes is the empty register.
#[test]
fn headers_by_length() {
    assert_begins("header", |numbers| match numbers {
        [_, 11] => refused(1),
        [1 | 2, _] => refused(2),
        [_, 12] => "summary 2 2 3 0 0 0\n".to_string(),
        _ => refused(1),
    });
}

/// "Level i is 1 to 4, neighbour cap µ is 1 to 7, class cap ν is 1 to 15": each end of each range is
/// among them with the number on its other side.
#[test]
fn condensed_exactly_in_range() {
    let of_numbers = |numbers: &[usize]| match *numbers {
        [i @ 1..=4, mu @ 1..=7, nu @ 1..=15] => format!("summary {i} {mu} {nu} "),
        _ => refused(4),
    };
    assert_begins("range", of_numbers);
    assert_begins("wide", of_numbers);
    let ends = [[0, 1, 4, 5], [0, 1, 7, 8], [0, 1, 15, 16]];
    for (place, numbers) in ends.into_iter().enumerate() {
        let wanted = numbers.into_iter().chain([257, 65_535]);
        let tried: BTreeSet<usize> = cases_of("range")
            .chain(cases_of("wide"))
            .map(|case| case.numbers[place])
            .collect();
        assert!(tried.into_iter().eq(wanted), "{place}");
    }
}

/// "Condense 1, 2, 3 as above, 4."
#[test]
fn ranked_in_the_order_of_the_document() {
    assert_begins("ranked", |numbers| match numbers {
        [number @ 1..=3, _] => refused(*number),
        [_, 0] => "summary 1 1 1 3 3 3\n".to_string(),
        _ => refused(4),
    });
}

/// With 16,402 bytes the largest register is whole. What stands behind the 16,403 bytes that are
/// read changes nothing: one byte too many is seen, and 2 comes before the length is judged.
#[test]
fn long_and_too_long() {
    assert_begins("long", |numbers| match numbers {
        [0, 16_402] => "summary 1 1 1 ".to_string(),
        [1, _] => refused(2),
        _ => refused(1),
    });
}

/// Every number of digits from one to ten is printed, and each mark by itself.
#[test]
fn marks_of_every_length() {
    let marks = |which: usize| -> BTreeSet<String> {
        let case = cases_of("marked").find(|case| case.numbers == [which, 1]);
        let lines = case.expect("at the first step").printed.lines();
        let classes = lines.filter(|line| line.starts_with("class "));
        let marks = classes.map(|line| line.split(' ').nth(2).expect("marks").to_string());
        marks.collect()
    };
    let lengths: BTreeSet<usize> = marks(0).iter().map(String::len).collect();
    assert!(lengths.into_iter().eq(1..=10));
    let alone = (0..32)
        .map(|k| (1_u32 << k).to_string())
        .chain(["0".to_string()]);
    assert_eq!(marks(1), alone.collect());
}

/// "n > 1,024 or m > 2,048" is 2. Without items there is nothing for a link to join, and with one
/// item no link but the first. Else every item is a class for itself.
#[test]
fn sized_at_the_limits_and_past_them() {
    assert_begins("sized", |numbers| match *numbers {
        [1_025, ..] | [_, 2_049, _] => refused(2),
        [0, 1 | 2_048, _] | [1, 2_048, _] => refused(3),
        [n, _, step] => format!("{}{n} {n} {n}\n", summary_at(step)),
        _ => unreachable!("three numbers"),
    });
}

#[test]
fn every_shape_at_every_level() {
    assert_begins("shape", |numbers| summary_at(numbers[2]));
    for case in cases_of("shape") {
        let last = format!("\nitem {} ", case.numbers[1] - 1);
        assert!(case.printed.contains(&last), "{:?}", case.numbers);
    }
    let shapes: BTreeSet<(usize, usize)> = cases_of("shape")
        .map(|case| (case.numbers[0], case.numbers[2]))
        .collect();
    assert_eq!(shapes.len(), 4 * SHAPES.len());
}

/// The last item is a source and a target, and label 15 is there; one more of each is among the
/// spoilt.
#[test]
fn items_and_labels_up_to_the_last() {
    let register = |case: &Case| Register::read(&case.bytes[6..]).expect("sound");
    let full = cases_of("shape").filter(|case| case.numbers[1] == 1_024);
    let links: Vec<_> = full.flat_map(|case| register(case).links).collect();
    assert_eq!(links.iter().map(|link| link.source.0).max(), Some(1_023));
    assert_eq!(links.iter().map(|link| link.target.0).max(), Some(1_023));
    assert_eq!(links.iter().map(|link| link.label).max(), Some(15));
}

/// Each field, each part and each fault of a link by its number, in every shape that has it.
#[test]
fn spoilt_as_told() {
    assert_begins("spoilt", |numbers| match numbers {
        [_, 9 | 10] => refused(2),
        [_, 12..=16] => refused(3),
        _ => refused(1),
    });
    let faults_of = |shape| cases_of("spoilt").filter(move |case| case.numbers[0] == shape);
    for shape in 0..SHAPES.len() {
        let damages = if shape == CROWD { 11 } else { 17 };
        assert_eq!(faults_of(shape).count(), damages, "{shape}");
    }
}

/// The largest there are, thrown, at every level; and registers with links by every label.
#[test]
fn large_and_labelled() {
    assert_begins("large", |numbers| summary_at(numbers[1]));
    assert!(cases_of("large").all(|case| case.bytes.len() == 16_402));
    assert_begins("labelled", |_| "summary ".to_string());
    let ways: BTreeSet<&str> = cases_of("labelled")
        .flat_map(|case| case.printed.lines())
        .filter(|line| line.starts_with("row "))
        .filter_map(|line| line.split(' ').nth(2))
        .collect();
    assert_eq!(ways.len(), 32);
}

/// Among the thrown every answer falls, and some registers are large.
#[test]
fn thrown_every_way() {
    let count = |wanted: &str| {
        let begins = |case: &&Case| case.printed.starts_with(wanted);
        cases_of("thrown").filter(begins).count()
    };
    assert!((1..=4).all(|number| count(&refused(number)) >= 5));
    assert!(count("summary ") >= 5);
    let large = cases_of("thrown").filter(|case| case.bytes.len() == 16_402);
    assert!(large.count() >= 5);
}
