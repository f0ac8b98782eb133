//! The printed cases of checking: how many lines each family has, the files they are made from, and
//! the answers that the document settles without checking.

use super::*;
use crate::bytes::two_at;
use crate::checking;
use crate::generator::{seeded_register, thrown_level_and_caps, Dice};
use crate::numbers::{Class, Group};
use crate::proposed::PROPOSED;
use crate::shapes::{empty_register, register_b};
use crate::summary_generator::spoil;
use std::collections::BTreeSet;
use std::sync::LazyLock;

/// A family's name, its lines, and how many numbers and answers each of them has.
const FAMILIES: [(&str, usize, usize, usize); 7] = [
    ("faulty", 12, 2, 1),
    ("stepped", 112, 1, 4),
    ("fielded", 56, 1, 26),
    ("cut", 116, 1, 2),
    ("parted", 48, 3, 2),
    ("proposed", 22, 1, 3),
    ("checked", 2_000, 1, 2),
];

const NUMBERS: [usize; 13] = [0, 1, 2, 3, 4, 5, 16, 17, 31, 32, 1_024, 1_025, 65_535];

struct Line {
    family: String,
    numbers: Vec<usize>,
    answers: String,
}

static LINES: LazyLock<Vec<Line>> = LazyLock::new(printed_lines);

fn printed_lines() -> Vec<Line> {
    let text = printed_by(checking::run, &[checking::CHECKED]);
    text.lines().map(taken_apart).collect()
}

fn taken_apart(line: &str) -> Line {
    let words: Vec<&str> = line.split(' ').collect();
    let [family, numbers @ .., answers] = &words[..] else {
        panic!("{line}");
    };
    let number = |word: &&str| word.parse().expect("a number");
    Line {
        family: family.to_string(),
        numbers: numbers.iter().map(number).collect(),
        answers: answers.to_string(),
    }
}

fn lines_of(family: &'static str) -> impl Iterator<Item = &'static Line> {
    LINES.iter().filter(move |line| line.family == family)
}

/// The answers of each line of the family are what `expected` gives for the line's numbers.
fn assert_says<Answers: AsRef<str>>(family: &'static str, expected: impl Fn(&[usize]) -> Answers) {
    for line in lines_of(family) {
        let expected = expected(&line.numbers);
        assert_eq!(
            line.answers,
            expected.as_ref(),
            "{family} {:?}",
            line.numbers
        );
    }
}

#[test]
fn families_in_order_with_all_their_lines() {
    let expected = FAMILIES
        .iter()
        .flat_map(|(name, lines, numbers, answers)| vec![(*name, *numbers, *answers); *lines]);
    let printed = LINES.iter().map(|line| {
        let family = line.family.as_str();
        (family, line.numbers.len(), line.answers.len())
    });
    assert!(printed.eq(expected));
}

/// The first number turns slowest, the last fastest, and none is left out.
#[test]
fn numbers_ascend_through_all_there_are() {
    for (family, ..) in FAMILIES {
        assert!(lines_of(family).is_sorted_by(|a, b| a.numbers < b.numbers));
    }
    let ends = |family| {
        let numbers: Vec<&Vec<usize>> = lines_of(family).map(|line| &line.numbers).collect();
        (numbers[0].clone(), numbers[numbers.len() - 1].clone())
    };
    assert_eq!(ends("faulty"), (vec![0, 0], vec![3, 2]));
    assert_eq!(ends("stepped"), (vec![0], vec![111]));
    assert_eq!(ends("fielded"), (vec![0], vec![55]));
    assert_eq!(ends("cut"), (vec![0], vec![115]));
    assert_eq!(ends("parted"), (vec![0, 0, 0], vec![3, 5, 2]));
    assert_eq!(ends("proposed"), (vec![0], vec![21]));
    assert_eq!(ends("checked"), (vec![1], vec![2_000]));
}

#[test]
fn files_that_are_checked() {
    assert_eq!(PROPOSED[0]().write(), summary(1, 1, 1, &register_a()));
    assert_eq!(register_b().write(), with_number(&register_a(), 34, 6));
    assert_eq!(empty_register().write().len(), 12);
}

/// "Check 1, 2, 3, 6": whatever the summary, the register's number comes first.
#[test]
fn faulty_in_the_order_of_the_document() {
    assert_says("faulty", |numbers| match *numbers {
        [0, 0] => "y",
        [0, _] => "6",
        [1, _] => "1",
        [2, _] => "2",
        _ => "3",
    });
}

/// What is not well formed is refused against every sound register, and nothing else is.
#[test]
fn refused_for_the_summary_alone() {
    let assert_alike = |line: &Line, one: u8, other: u8| {
        let (family, numbers) = (&line.family, &line.numbers);
        assert_eq!(one == b'6', other == b'6', "{family} {numbers:?}");
        assert!([one, other].iter().all(|answer| b"yn6".contains(answer)));
    };
    for line in LINES.iter() {
        match *line.answers.as_bytes() {
            [one, other] => assert_alike(line, one, other),
            [one, other, third] => {
                assert_alike(line, one, other);
                assert_alike(line, one, third);
            }
            [more, more_too, less, less_too] => {
                assert_alike(line, more, more_too);
                assert_alike(line, less, less_too);
            }
            ref many => {
                let (a, b) = many.split_at(many.len() / 2);
                a.iter()
                    .zip(b)
                    .for_each(|(a, b)| assert_alike(line, *a, *b));
            }
        }
    }
}

/// Level and caps may grow by one. Any marks are well formed, and so are counts from 1 to the cap
/// plus one and the classes 0 to 3 in the map; but they say what A is not. All else is bound to
/// the rest of the summary.
#[test]
fn stepped_known_beforehand() {
    assert_says("stepped", |numbers| match numbers[0] {
        1 | 3 | 5 => "yn66",
        24..=27 | 32..=35 | 40..=43 | 48..=51 => "nnnn",
        31 | 47 => "66nn",
        39 | 55 | 63 | 71 | 79 | 87 => "nn66",
        101 | 103 => "nn66",
        105 | 107 | 109 => "nnnn",
        111 => "66nn",
        _ => "6666",
    });
}

/// The same, field by field: level, neighbour cap and class cap; marks; class counts; row counts;
/// the map. A has no other number in any of them, and B has other marks throughout.
#[test]
fn fielded_known_beforehand() {
    let sum = summary(1, 1, 1, &register_a());
    let against_a = |field: usize, number| match (field, number) {
        _ if two_at(&sum, 2 * field) == number => 'y',
        (0, 1..=4) | (1, 1..=7) | (2, 1..=15) => 'y',
        (12 | 13 | 16 | 17 | 20 | 21 | 24 | 25, _) => 'n',
        (15 | 19 | 23 | 27, 1..=2) => 'n',
        (31 | 35 | 39 | 43, 1..=2) => 'n',
        (50..=55, 0..=3) => 'n',
        _ => '6',
    };
    assert_says("fielded", |numbers| {
        let a: String = NUMBERS
            .map(|number| against_a(numbers[0], number))
            .iter()
            .collect();
        let b = a.replace('y', "n");
        a + &b
    });
}

/// P1: "the file has 112 bytes".
#[test]
fn cut_anywhere_but_at_the_end() {
    assert_says("cut", |numbers| match numbers[0] {
        112 => "yn",
        _ => "66",
    });
}

/// The last record of a part changes places with none, and items of one class with no effect. The
/// two classes of hoists differ in their counts. The last class twice is one class too many. With
/// an item more or less the item counts differ.
#[test]
fn parted_known_beforehand() {
    assert_says("parted", |numbers| match *numbers {
        [0 | 1, 3, 2] | [2, 1, 2] | [3, 5, 2] => "yn",
        [3, 0 | 3, 2] => "yn",
        [3, _, _] => "nn",
        [0, 0, 2] | [0, 3, 1] => "nn",
        _ => "66",
    });
}

/// Against A: "any grouping and numbering may be proposed, and the level field is not judged", and
/// the caps may be any that the counts agree with. Against B: only where item 5 is passed. Against
/// the empty register: only where there is nothing.
#[test]
fn proposed_known_beforehand() {
    assert_says("proposed", |numbers| match numbers[0] {
        0 | 1 | 3 | 4 | 5 | 6 | 10 => "ynn",
        11 => "nyn",
        18 => "nny",
        14..=17 | 20 => "666",
        _ => "nnn",
    });
}

/// What of a summary settles the rest of it, if the check says yes: level and caps, the groups of
/// the classes, the map.
type Settled = ([usize; 3], Vec<Group>, Vec<Class>);

fn settled(file: &[u8]) -> Settled {
    let summary = read_summary(file);
    let numbers = [summary.level, summary.neighbour_cap, summary.class_cap];
    let groups = summary.classes.iter().map(|class| class.group).collect();
    (numbers, groups, summary.map)
}

/// What condensing wrote is right; a file of another length is not well formed; and no two right
/// summaries differ only in what the rest of them settles.
#[test]
fn checked_known_beforehand() {
    for line in lines_of("checked") {
        let seed = line.numbers[0] as u64;
        let dice = &mut Dice::of_seed(seed);
        let register = seeded_register(seed, dice).write();
        let (i, mu, nu) = thrown_level_and_caps(dice);
        let whole = summary(i, mu, nu, &register);
        let mut spoilt = whole.clone();
        spoil(&mut spoilt, dice);
        if spoilt == whole {
            assert!(line.answers.starts_with('y'), "seed {seed}");
        } else if spoilt.len() != whole.len() {
            assert_eq!(line.answers, "66", "seed {seed}");
        } else if line.answers.starts_with('y') {
            assert!(settled(&spoilt) != settled(&whole), "seed {seed}");
        }
    }
}

/// Each of the nine throws there can be leaves a file that the description allows.
#[test]
fn spoilt_as_told() {
    let whole = summary(1, 1, 1, &register_a());
    let mut kinds = BTreeSet::new();
    for seed in 1..=2_000 {
        let kind = Dice::of_seed(seed).below(9);
        let mut spoilt = whole.clone();
        spoil(&mut spoilt, &mut Dice::of_seed(seed));
        let places = 0..whole.len().min(spoilt.len());
        let other = |at: &usize| whole[*at] != spoilt[*at];
        let changed: BTreeSet<usize> = places.filter(other).map(|at| at / 2).collect();
        match kind {
            0 | 1 => assert!(spoilt == whole),
            5 => assert!(spoilt.len() <= 112 && changed.is_empty()),
            6 => {
                assert!((113..=120).contains(&spoilt.len()) && changed.is_empty());
                assert!(spoilt[113..].iter().all(|byte| *byte == 0));
            }
            7 => assert!(spoilt.len() == 112 && [0, 2].contains(&changed.len())),
            8 => assert!(changed.iter().all(|field| (50..=55).contains(field))),
            _ => assert!(spoilt.len() == 112 && changed.len() <= 1),
        }
        kinds.insert(kind);
    }
    assert!(kinds.into_iter().eq(0..9));
}

#[test]
fn every_answer_is_given() {
    let given: BTreeSet<char> = LINES.iter().flat_map(|line| line.answers.chars()).collect();
    assert_eq!(given, BTreeSet::from(['1', '2', '3', '6', 'n', 'y']));
    let checked: BTreeSet<char> = lines_of("checked")
        .flat_map(|line| line.answers.chars())
        .collect();
    assert_eq!(checked, BTreeSet::from(['6', 'n', 'y']));
}
