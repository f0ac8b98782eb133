//! The registers that are timed: 1,024 items and up to 2,048 links in five shapes, from a yard of many like assemblies to one
//! where nearly every item is a class of its own; and a yard of 50 items. Each with the questions that are asked of it.

use crate::dice::Dice;
use crate::questions::{leads_in, leads_out, Entry};

const ITEMS: usize = 1_024;
const LINKS: usize = 2_048;

type Link = (usize, usize, usize);

pub struct Shape {
    pub name: &'static str,
    pub register: Vec<u8>,
    /// Where a question of that depth leads from an item, step after step and again from the first.
    pub steps: fn(&Shape, item: usize, depth: usize) -> Vec<Entry>,
    links: Vec<Link>,
}

pub fn all() -> [Shape; 6] {
    let unmarked = [0; ITEMS];
    [
        shape("yard", &yard_marks(ITEMS), yard(ITEMS), down_and_up),
        shape("random", &random_marks(), random(), walked),
        shape("ring", &unmarked, ring(), onward),
        shape("chain", &unmarked, chain(), onward),
        shape("star", &unmarked, star(), there_and_back),
        shape("50 items", &yard_marks(50), yard(50), down_and_up),
    ]
}

fn shape(
    name: &'static str,
    marks: &[u32],
    mut links: Vec<Link>,
    steps: fn(&Shape, usize, usize) -> Vec<Entry>,
) -> Shape {
    links.sort_unstable();
    Shape {
        name,
        register: file(marks, &links),
        steps,
        links,
    }
}

/// Assemblies of 32 items: a crane with four hoists, each with hooks, each hook with shackles; two links an item, there and
/// back.
fn yard(items: usize) -> Vec<Link> {
    let hung = (0..items).filter(|x| x % 32 != 0);
    hung.flat_map(|x| {
        let above = x - x % 32 + (x % 32 - 1) / 4;
        [(above, 0, x), (x, 1, above)]
    })
    .collect()
}

/// One assembly in eight has a failed hook.
fn yard_marks(items: usize) -> Vec<u32> {
    let marks = |x: usize| match (x % 32, x / 32 % 8) {
        (0, _) => 16,
        (1..=4, _) => 1,
        (5, 0) => 10,
        (5..=20, _) => 6,
        _ => 32,
    };
    (0..items).map(marks).collect()
}

/// Two links from each item to items picked by chance, by labels picked by chance.
fn random() -> Vec<Link> {
    let mut dice = Dice(1);
    (0..LINKS)
        .map(|k| (k / 2, 8 * (k % 2) + dice.throw(8), dice.throw(ITEMS)))
        .collect()
}

fn random_marks() -> Vec<u32> {
    let mut dice = Dice(2);
    (0..ITEMS).map(|_| dice.one_of(&[1, 6, 10, 32])).collect()
}

/// Each item is linked to the next two, round and round.
fn ring() -> Vec<Link> {
    (0..ITEMS)
        .flat_map(|x| [(x, 0, (x + 1) % ITEMS), (x, 1, (x + 2) % ITEMS)])
        .collect()
}

/// Each item is linked to the next, twice.
fn chain() -> Vec<Link> {
    (1..ITEMS)
        .flat_map(|x| [(x - 1, 0, x), (x - 1, 1, x)])
        .collect()
}

/// From item 0 to each other item, and back.
fn star() -> Vec<Link> {
    (1..ITEMS).flat_map(|x| [(0, 0, x), (x, 1, 0)]).collect()
}

/// In the yard, down to what hangs from what hangs from the item and up again. A deep question goes up and down without end:
/// a crane begins with down.
fn down_and_up(_: &Shape, item: usize, depth: usize) -> Vec<Entry> {
    let (down, up) = (leads_out(0, 2), leads_out(1, 1));
    match (depth, item % 32) {
        (1..=3, _) => vec![down, down, up],
        (_, 0) => vec![down, up],
        _ => vec![up, down],
    }
}

/// In the ring and in the chain, on and on and back.
fn onward(_: &Shape, _: usize, _: usize) -> Vec<Entry> {
    vec![leads_out(0, 1), leads_out(1, 1), leads_in(0, 1)]
}

/// In the star, out and back, or from the rim in and out.
fn there_and_back(_: &Shape, item: usize, _: usize) -> Vec<Entry> {
    let (out, back) = (leads_out(0, 4), leads_out(1, 1));
    if item == 0 {
        vec![out, back]
    } else {
        vec![back, out]
    }
}

/// A walk from the item along links picked by chance, with and against them.
fn walked(shape: &Shape, item: usize, _: usize) -> Vec<Entry> {
    let mut dice = Dice(item as u64);
    let mut at = item;
    let mut step = || {
        let touching: Vec<&Link> = shape
            .links
            .iter()
            .filter(|l| l.0 == at || l.2 == at)
            .collect();
        let (source, label, target) = *dice.one_of(&touching);
        if source == at {
            at = target;
            leads_out(label as u8, 1)
        } else {
            at = source;
            leads_in(label as u8, 1)
        }
    };
    (0..63).map(|_| step()).collect()
}

/// The register's bytes; links come in order.
pub fn file(marks: &[u32], links: &[Link]) -> Vec<u8> {
    let (n, m) = (marks.len(), links.len());
    let numbers = |numbers: &[usize]| -> Vec<u8> {
        numbers
            .iter()
            .flat_map(|number| (*number as u16).to_be_bytes())
            .collect()
    };
    let mut bytes = numbers(&[n, m, 12, 12 + 4 * n, 12 + 4 * n + 6 * m, 0]);
    bytes.extend(marks.iter().flat_map(|marks| marks.to_be_bytes()));
    for (source, label, target) in links {
        bytes.extend(numbers(&[*source, *label, *target]));
    }
    bytes
}
