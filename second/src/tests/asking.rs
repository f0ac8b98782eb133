//! The printed cases of asking: how many lines each family has, that every answer there can be is
//! given somewhere, and the answers that are known without asking.

use super::printed_by;
use crate::asking;
use crate::generator::{small_register, Dice};
use crate::question::{Question, ENTRY};
use crate::question_generator::{damaged_question, sound_question};
use std::collections::BTreeSet;
use std::sync::LazyLock;

const FAMILIES: [(&str, usize); 10] = [
    ("code", 768),
    ("tail", 9),
    ("literal", 256),
    ("entries", 6),
    ("bytes", 14),
    ("nested", 8),
    ("order", 16),
    ("around", 32),
    ("steps", 16),
    ("asked", 2_000),
];

/// The family and the answers of every line, in the order printed.
static LINES: LazyLock<Vec<(String, String)>> = LazyLock::new(printed_lines);

fn printed_lines() -> Vec<(String, String)> {
    let text = printed_by(asking::run, &[asking::ASKED]);
    let ends = |line: &str| {
        let (family, _) = line.split_once(' ').expect("a family first");
        let (_, answers) = line.rsplit_once(' ').expect("answers last");
        (family.to_string(), answers.to_string())
    };
    text.lines().map(ends).collect()
}

/// All answers of one family, one line after the other.
fn answers_of(family: &str) -> String {
    let own = LINES.iter().filter(|(name, _)| name == family);
    own.map(|(_, answers)| answers.as_str()).collect()
}

#[test]
fn families_in_order_with_all_their_lines() {
    let expected = FAMILIES
        .iter()
        .flat_map(|(name, lines)| vec![*name; *lines]);
    assert!(LINES.iter().map(|(family, _)| family.as_str()).eq(expected));
}

#[test]
fn every_answer_is_given() {
    let given: BTreeSet<char> = LINES.iter().flat_map(|(_, line)| line.chars()).collect();
    assert_eq!(given, BTreeSet::from(['1', '2', '3', '5', '8', 'n', 'y']));
    let asked: BTreeSet<char> = answers_of("asked").chars().collect();
    assert_eq!(asked, BTreeSet::from(['5', '8', 'n', 'y']));
}

/// True; 64 literals; not, and, or; 8 thresholds for each of 16 labels in two directions. Yes are
/// true, mark 1, the absence of 31 others, "and" and "or"; nobody next to item 0 has mark 1.
#[test]
fn codes_known_beforehand() {
    let codes = answers_of("code");
    let count = |answer| codes.chars().filter(|given| *given == answer).count();
    assert_eq!(count('y'), 1 + 1 + 31 + 2);
    assert_eq!(count('n'), 31 + 1 + 1 + 8 * 16 * 2);
    assert_eq!(count('5'), 768 * 256 - count('y') - count('n'));
}

#[test]
fn short_families_known_beforehand() {
    assert_eq!(answers_of("tail"), "y55555555");
    assert_eq!(answers_of("entries"), "5ynyn5");
    assert_eq!(answers_of("bytes"), "555555555555y5");
    assert_eq!(answers_of("nested"), "yyyyyyyy");
    assert_eq!(answers_of("order"), "y855111122223333");
}

/// A mark is there or absent, never both and never neither.
#[test]
fn literals_known_beforehand() {
    let lines: Vec<String> = answers_of("literal")
        .as_bytes()
        .chunks(6)
        .map(|line| String::from_utf8_lossy(line).into_owned())
        .collect();
    assert_eq!((&*lines[1], &*lines[255]), ("nynyyn", "ynynny"));
    assert_eq!((&*lines[32], &*lines[224]), ("nnyyny", "yynnyn"));
    for k in 1..=32 {
        let absent = lines[256 - k].replace('y', "-").replace('n', "y");
        assert_eq!(lines[k], absent.replace('-', "n"));
    }
    for malformed in (0..1).chain(33..224) {
        assert_eq!(lines[malformed], "555555");
    }
}

/// Before the damage a question is sound and has 61 entries at most; some have that many.
#[test]
fn thrown_questions_are_sound() {
    let mut most = 0;
    for seed in 1..=2_000 {
        let question = sound_question(&mut Dice::of_seed(seed));
        assert!(Question::read(&question).is_ok(), "seed {seed}");
        most = most.max(question.len());
    }
    assert_eq!(most, 61 * ENTRY);
}

/// A malformed question is refused at every number; a sound one is answered at every item, and
/// refused only at the number that is no item.
#[test]
fn asked_at_every_item_and_at_one_number_more() {
    let asked = LINES.iter().filter(|(family, _)| family == "asked");
    for (seed, (_, answers)) in (1..).zip(asked) {
        let dice = &mut Dice::of_seed(seed);
        let n = small_register(dice).marks.len();
        assert_eq!(answers.len(), n + 1, "seed {seed}");
        if Question::read(&damaged_question(dice)).is_err() {
            assert_eq!(*answers, "5".repeat(n + 1), "seed {seed}");
        } else {
            assert_eq!(answers.find(|answer| !"yn".contains(answer)), Some(n));
            assert!(answers.ends_with('8'), "seed {seed}");
        }
    }
}

/// Item 0 has one neighbour more than l mod 9 by label l, each way.
#[test]
fn around_known_beforehand() {
    let by_label = |label: usize| -> String {
        let reaches = |t| if t <= 1 + label % 9 { 'y' } else { 'n' };
        (1..=8).map(reaches).collect()
    };
    let each_way: String = (0..16).map(by_label).collect();
    assert_eq!(answers_of("around"), each_way.repeat(2));
}

/// The hub has 8 neighbours and more, each other item has one: by turns every at-least is met, so
/// that the whole holds exactly where the literal does.
#[test]
fn steps_known_beforehand() {
    assert_eq!(answers_of("steps"), "nnnyyy".repeat(16));
}
