//! The printed cases of wrecked: how many changes each line has, how the answers add up, and those
//! that the document settles.

use super::*;
use crate::bytes::two_at;
use crate::caps::{self, capped};
use crate::condense::summary_of;
use crate::generator::{small_register, thrown_level_and_caps, Dice};
use crate::neighbours::neighbour_counts;
use crate::said::{hash, tally};
use crate::summary::ClassEntry;
use crate::wrecked;
use std::sync::LazyLock;

/// The counts of answers: yes, no, not well formed.
type Given = [usize; 3];

struct Line {
    seed: u64,
    kind: usize,
    changes: usize,
    own: Given,
    other: Given,
    hash: u32,
}

static LINES: LazyLock<Vec<Line>> = LazyLock::new(printed_lines);

fn printed_lines() -> Vec<Line> {
    let text = printed_by(wrecked::run, &[]);
    text.lines().map(taken_apart).collect()
}

fn taken_apart(line: &str) -> Line {
    let numbers = line.strip_prefix("wrecked ").expect("the family first");
    let number = |word: &str| word.parse::<usize>().expect("a number");
    let numbers: Vec<usize> = numbers.split(' ').map(number).collect();
    let [seed, kind, changes, a, b, c, d, e, f, hash] = numbers[..] else {
        panic!("{line}");
    };
    Line {
        seed: seed as u64,
        kind,
        changes,
        own: [a, b, c],
        other: [d, e, f],
        hash: hash as u32,
    }
}

fn lines_of(kind: usize) -> impl Iterator<Item = &'static Line> {
    LINES.iter().filter(move |line| line.kind == kind)
}

/// The register and the summary that the line is made from.
fn made(line: &Line) -> (Register, Summary) {
    let dice = &mut Dice::of_seed(line.seed);
    let register = small_register(dice);
    let (i, mu, nu) = thrown_level_and_caps(dice);
    let summary = summary_of(&register, i, mu, nu);
    (register, summary)
}

#[test]
fn every_seed_and_every_kind() {
    let expected = (1..=24).flat_map(|seed| [0, 1, 2, 3].map(|kind| (seed, kind)));
    assert!(LINES.iter().map(|line| (line.seed, line.kind)).eq(expected));
}

/// Two for each byte; six for each field of two; three for each record; one for each length.
#[test]
fn changes_known_beforehand() {
    for line in LINES.iter() {
        let (_, summary) = made(line);
        let (c, r) = (summary.classes.len(), summary.rows.len());
        let (e, n) = (summary.class_links.len(), summary.map.len());
        let length = 24 + 8 * c + 8 * r + 6 * e + 2 * n;
        let changes = [2 * length, 3 * length, 3 * (c + r + e + n), length + 4];
        assert_eq!(line.changes, changes[line.kind], "seed {}", line.seed);
    }
}

/// Both registers are sound, so that nothing but 6 is refused; and that for the summary alone.
#[test]
fn answers_add_up() {
    for line in LINES.iter() {
        assert_eq!(line.own.iter().sum::<usize>(), line.changes);
        assert_eq!(line.other.iter().sum::<usize>(), line.changes);
        assert_eq!(line.own[2], line.other[2], "seed {}", line.seed);
    }
}

/// The caps that are as good as `cap` for these counts: one more and one less.
fn steps_of_cap(cap: usize, counts: &[usize], in_range: impl Fn(usize) -> bool) -> usize {
    let alike = |new: &usize| counts.iter().all(|n| capped(*n, cap) == capped(*n, *new));
    let steps = [cap + 1, cap - 1].into_iter().filter(|new| in_range(*new));
    steps.filter(alike).count()
}

/// Of a byte one more or one less, the check says yes where it is the level's and stays in range,
/// or a cap's and no count comes out otherwise. "Any grouping and numbering may be proposed", but
/// one number alone is no other grouping or numbering.
#[test]
fn bytes_known_beforehand() {
    for line in lines_of(0) {
        let (register, summary) = made(line);
        let (i, mu, nu) = (summary.level, summary.neighbour_cap, summary.class_cap);
        let members = |class| summary.map.iter().filter(|own| **own == class).count();
        let classes: Vec<usize> = summary.map.iter().map(|class| members(*class)).collect();
        let groups: Vec<_> = summary.map.iter().map(|c| summary.group_of(*c)).collect();
        let uncapped = |item| neighbour_counts(&register, item, &groups, 2_048);
        let rows = register
            .items()
            .flat_map(|item| uncapped(item).into_values());
        let rows: Vec<usize> = rows.collect();
        let yes = steps_of_cap(i, &[], |new| caps::in_range(new, 1, 1))
            + steps_of_cap(mu, &rows, |new| caps::in_range(1, new, 1))
            + steps_of_cap(nu, &classes, |new| caps::in_range(1, 1, new));
        assert_eq!(line.own[0], yes, "seed {}", line.seed);
    }
}

/// A field that becomes what it was is right, and so are other levels; nothing else is but caps.
#[test]
fn fields_known_beforehand() {
    for line in lines_of(1) {
        let (_, summary) = made(line);
        let file = summary.write();
        let as_it_was = |field: usize| {
            let numbers = [0, 1, 2, 16, 1_025, 65_535];
            numbers.contains(&two_at(&file, 2 * field)) as usize
        };
        let kept: usize = (1..file.len() / 2).map(as_it_was).sum();
        let (levels, most_caps) = (2, 2 + 2);
        assert!(line.own[0] >= kept + levels, "seed {}", line.seed);
        assert!(line.own[0] <= kept + levels + most_caps);
    }
}

/// The last record of each part changes places with none. Of the others, two classes that are told
/// of alike and two items of one class change places with no effect.
#[test]
fn deeds_known_beforehand() {
    for line in lines_of(2) {
        let (_, summary) = made(line);
        let parts = [
            summary.classes.len(),
            summary.rows.len(),
            summary.class_links.len(),
            summary.map.len(),
        ];
        let last = parts.iter().filter(|records| **records > 0).count();
        let told = |class: &ClassEntry| (class.marks, class.group, class.count);
        let classes = summary.classes.windows(2);
        let told_alike = classes.filter(|pair| told(&pair[0]) == told(&pair[1]));
        let items = summary.map.windows(2);
        let of_one_class = items.filter(|pair| pair[0] == pair[1]);
        let yes = last + told_alike.count() + of_one_class.count();
        assert_eq!(line.own[0], yes, "seed {}", line.seed);
    }
}

/// "Offsets and length are exact." The one that is right is yes against its own register.
#[test]
fn lengths_known_beforehand() {
    for line in lines_of(3) {
        let length = line.changes - 4;
        assert_eq!(line.own, [1, 0, line.changes - 1], "seed {}", line.seed);
        let right = if line.other[0] == 1 { "yy" } else { "yn" };
        let answers = ["66".repeat(length), right.to_string(), "66".repeat(3)];
        assert_eq!(line.hash, hash(answers.concat().as_bytes()));
    }
}

#[test]
fn tally_of_few_letters() {
    assert_eq!(tally(""), "0 0 0 0 0 0 0 0");
    let hashed = hash(b"yn66yn");
    assert_eq!(tally("yn66yn"), format!("3 2 0 1 0 2 1 {hashed}"));
}
