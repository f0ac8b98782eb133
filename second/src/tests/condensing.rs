//! The printed cases of condensing: how many lines each family has, the registers they are made
//! from, the answers that are known without condensing, and what becomes of the lent buffer.

use super::*;
use crate::condensing;
use crate::generator::Dice;
use crate::lent::filled_buffer;
use crate::said::hash;
use crate::shapes::{self, labelled_register, SHAPES};
use std::collections::BTreeSet;
use std::sync::LazyLock;

const FAMILIES: [(&str, usize); 8] = [
    ("range", 918),
    ("wide", 27),
    ("room", 131),
    ("ranked", 48),
    ("sized", 96),
    ("shape", 648),
    ("labelled", 300),
    ("condensed", 2_000),
];

const CHAIN: usize = 0;
const RING: usize = 1;
const CROWD: usize = 5;
const YARD: usize = 8;

/// An answer is its first two words, and the hash.
struct Line {
    family: String,
    numbers: Vec<usize>,
    answers: Vec<(String, u32)>,
}

static LINES: LazyLock<Vec<Line>> = LazyLock::new(printed_lines);

fn printed_lines() -> Vec<Line> {
    let text = printed_by(condensing::run, &[condensing::CONDENSED]);
    text.lines().map(taken_apart).collect()
}

fn taken_apart(line: &str) -> Line {
    let words: Vec<&str> = line.split(' ').collect();
    let is_number = |word: &&&str| word.parse::<usize>().is_ok();
    let count = words[1..].iter().take_while(is_number).count();
    let (numbers, answers) = words[1..].split_at(count);
    let number = |word: &&str| word.parse().expect("a number");
    let answer = |words: &[&str]| (words[..2].join(" "), words[2].parse().expect("a hash"));
    Line {
        family: words[0].to_string(),
        numbers: numbers.iter().map(number).collect(),
        answers: answers.chunks(3).map(answer).collect(),
    }
}

fn lines_of(family: &'static str) -> impl Iterator<Item = &'static Line> {
    LINES.iter().filter(move |line| line.family == family)
}

/// The first answer of each line of the family is what `expected` gives for the line's numbers,
/// where it gives anything.
fn assert_says(family: &'static str, expected: impl Fn(&[usize]) -> Option<String>) {
    for line in lines_of(family) {
        let (said, _) = &line.answers[0];
        if let Some(expected) = expected(&line.numbers) {
            assert_eq!(*said, expected, "{family} {:?}", line.numbers);
        }
    }
}

fn wrote(length: usize) -> Option<String> {
    Some(format!("wrote {length}"))
}

fn refused(refusal: Refusal) -> Option<String> {
    Some(format!("refused {}", refusal.number()))
}

#[test]
fn families_in_order_with_all_their_lines() {
    let expected = FAMILIES
        .iter()
        .flat_map(|(name, lines)| vec![*name; *lines]);
    assert!(LINES.iter().map(|line| line.family.as_str()).eq(expected));
    for line in LINES.iter() {
        let answers = if line.family == "condensed" { 4 } else { 1 };
        assert_eq!(line.answers.len(), answers);
    }
}

#[test]
fn register_a_is_that_of_the_examples() {
    assert!(shapes::register_a().write() == register_a());
}

/// The bytes are 5, 12 and 19. After the first the hash is 6; after the second 6 * 65,599 + 13 =
/// 393,607; after the third 393,607 * 65,599 + 20 = 25,820,225,613, less six times 2^32.
#[test]
fn hash_of_three_untouched_bytes() {
    assert_eq!(filled_buffer(3), [5, 12, 19]);
    assert_eq!(hash(&filled_buffer(3)), 50_421_837);
    assert_eq!(hash(&[]), 0);
}

/// Every shape is a sound register with as many links as can be counted beforehand; in the yard
/// each item but the first has one link into it.
#[test]
fn shapes_are_sound() {
    for n in [1_usize, 2, 3, 8, 50, 1_024] {
        let one_less = n - 1;
        let not_by_three = n - n.div_ceil(3);
        let by_every_label = 16 * n.min(128);
        let links = [
            one_less,
            n,
            one_less,
            one_less,
            2 * one_less,
            0,
            not_by_three,
            by_every_label,
            one_less,
        ];
        for (shape, links) in SHAPES.iter().zip(links) {
            let read = Register::read(&shape(n).write()).expect("sound");
            assert_eq!((read.marks.len(), read.links.len()), (n, links));
        }
    }
}

/// Six whole assemblies and two items: 7 first items; 6 failed hooks at place 6 and one at place 7.
#[test]
fn marks_of_the_yard() {
    let marks = SHAPES[YARD](50).marks;
    let count = |wanted| marks.iter().filter(|marks| **marks == wanted).count();
    assert_eq!((count(HOIST), count(FAILED), count(PASSED)), (7, 7, 36));
}

#[test]
fn a_chain_of_four_is_that_of_p8() {
    let chain = SHAPES[CHAIN](4).write();
    let one = read_summary(&summary(1, 1, 1, &chain));
    assert_eq!((one.classes.len(), one.group_count), (3, 1));
    let two = read_summary(&summary(2, 1, 1, &chain));
    assert_eq!((two.classes.len(), two.group_count), (4, 3));
}

/// In a ring all are alike: one class, a row each way, one class link. In a crowd only marks
/// differ: three classes, or as many as there are items, and nothing else but the map.
#[test]
fn lengths_of_rings_and_crowds() {
    assert_says("shape", |numbers| match *numbers {
        [RING, n, ..] => wrote(24 + 8 + 2 * 8 + 6 + 2 * n),
        [CROWD, n, ..] => wrote(24 + 8 * n.min(3) + 2 * n),
        _ => None,
    });
}

/// "Level i is 1 to 4, neighbour cap µ is 1 to 7, class cap ν is 1 to 15."
#[test]
fn written_exactly_in_range() {
    for family in ["range", "wide"] {
        for line in lines_of(family) {
            let in_range = matches!(line.numbers[..], [1..=4, 1..=7, 1..=15]);
            let said = line.answers[0].0.as_str();
            assert_eq!(said != "refused 4", in_range, "{:?}", line.numbers);
            assert_eq!(said.starts_with("wrote "), in_range);
        }
    }
}

/// P1: "the file has 112 bytes".
#[test]
fn room_from_112_bytes_on() {
    assert_says("room", |numbers| match *numbers {
        [0..=111] => refused(Refusal::Room),
        _ => wrote(112),
    });
}

/// "Condense 1, 2, 3 as above, 4, 9." The three items of the base register all differ in marks, so
/// each is a class for itself, and each of the three links a class link with a row each way.
#[test]
fn ranked_in_the_order_of_the_document() {
    assert_says("ranked", |numbers| match *numbers {
        [1, ..] => refused(Refusal::RegisterForm),
        [2, ..] => refused(Refusal::RegisterLimits),
        [3, ..] => refused(Refusal::RegisterLinks),
        [_, 1..=3, _] => refused(Refusal::LevelOrCaps),
        [_, _, 1..=2] => refused(Refusal::Room),
        _ => wrote(24 + 8 * 3 + 8 * 6 + 6 * 3 + 2 * 3),
    });
}

/// Every item has marks of its own, so each is a class for itself, and each link a class link with
/// a row each way.
#[test]
fn sized_known_beforehand() {
    assert_says("sized", |numbers| match *numbers {
        [1_025, ..] | [_, 2_049, _] => refused(Refusal::RegisterLimits),
        [0, 1 | 2_048, _] | [1, 2_048, _] => refused(Refusal::RegisterLinks),
        [_, _, 0 | 5] => refused(Refusal::LevelOrCaps),
        [n, m, _] => wrote(24 + 8 * n + 8 * 2 * m + 6 * m + 2 * n),
        _ => None,
    });
}

/// Links are thrown beyond the most there may be, and those are left out.
#[test]
fn labelled_registers_are_sound() {
    let links = |seed| {
        let register = labelled_register(&mut Dice::of_seed(seed));
        let read = Register::read(&register.write()).expect("sound");
        read.links.len()
    };
    assert_eq!((1..=300).map(links).max(), Some(2_048));
}

/// "A refusal returns its number only, and no lent byte changes."
#[test]
fn refused_and_untouched() {
    let assert_untouched = |line: &Line, room| {
        let (said, hashed) = &line.answers[0];
        let untouched = *hashed == hash(&filled_buffer(room));
        assert_eq!(said.starts_with("refused "), untouched);
    };
    for line in lines_of("range").chain(lines_of("wide")) {
        assert_untouched(line, 200);
    }
    for line in lines_of("room") {
        assert_untouched(line, line.numbers[0]);
    }
    for line in lines_of("sized").chain(lines_of("condensed")) {
        assert_untouched(line, 55_328);
    }
}

/// "Bytes past that length stay."
#[test]
fn written_and_the_rest_untouched() {
    let file = summary(1, 1, 1, &register_a());
    for line in lines_of("room").skip(112) {
        let rest = &filled_buffer(line.numbers[0])[112..];
        assert_eq!(line.answers[0].1, hash(&[&file, rest].concat()));
    }
}

/// Refused for the register's sake whatever the room, or written wherever there is room.
#[test]
fn condensed_where_there_is_room() {
    let mut refusals = BTreeSet::new();
    for line in lines_of("condensed") {
        let said: Vec<&str> = line.answers.iter().map(|(said, _)| said.as_str()).collect();
        if said[0].starts_with("wrote ") {
            assert_eq!(said, [said[0], "refused 9", said[0], said[0]]);
        } else {
            assert_eq!(said, [said[0]; 4]);
            refusals.insert(said[0]);
        }
    }
    let every = BTreeSet::from(["refused 1", "refused 2", "refused 3"]);
    assert_eq!(refusals, every);
}
