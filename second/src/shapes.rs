//! Registers made to be condensed or checked: register A, register B, which is A with item 5 passed
//! (marks 6 in place of 10), the empty register, a chain of items with given marks, nine shapes of n
//! items, n from 1 to 1,024, and the labelled register, which is thrown.
//!
//! Shapes. The links always stand in the register's order; the items are x, 0 to n − 1.
//!   0 chain   marks 0; from x to x + 1 by label 0, for x + 1 < n.
//!   1 ring    marks 0; from x to (x + 1) mod n by label 0.
//!   2 star    marks 0; from item 0 to each other item by label 0.
//!   3 sink    marks 0; from each item but 0 to item 0 by label 0.
//!   4 hub     marks x mod 3; from item 0 to each other item x by label x mod 16, and from each
//!             item x but 0 to item 0 by label x mod 16.
//!   5 crowd   marks x mod 3; no links.
//!   6 selves  marks 0; from x to x by label x mod 2, but for the x that 3 divides.
//!   7 labels  marks 0; from each x below the lesser of n and 128 to (x + 1) mod n by every label 0
//!             to 15.
//!   8 yard    assemblies of 8 items. With p = x mod 8, marks are 1 where p is 0; 10 where p is 6;
//!             10 where p is 7 and 8 divides x / 8 (whole part); else 6. From each x with p = 0: to
//!             x + 1, x + 2, x + 3, x + 4 by label 0, to x + 5, x + 6, x + 7 by label 1, to x + 8
//!             by label 2, each where the target is below n.
//!
//! Labelled register, with the generator's dice. Throw below 24, and n is one more than that; then
//! the marks; then throw below 16, and p is one more than that. Go through the sources 0 to n − 1,
//! within each the labels 0 to 15, within each the targets 0 to n − 1: throw below p for every one,
//! and the link is there when the throw is 0 and fewer than 2,048 links are there already.

use crate::generator::{thrown_links, thrown_marks, Dice};
use crate::link::{Link, MOST_LABEL};
use crate::numbers::Item;
use crate::register::{Register, MOST_LINKS};

pub const SHAPES: [fn(usize) -> Register; 9] =
    [chain, ring, star, sink, hub, crowd, selves, labels, yard];

/// "Items 0, 1, 2 are hoists (marks 1), 3 and 4 passed hooks (6), 5 a failed hook (10)." "Links by
/// label 0: 0 to 3, 1 to 4, 2 to 5."
pub fn register_a() -> Register {
    register(vec![1, 1, 1, 6, 6, 10], [(0, 0, 3), (1, 0, 4), (2, 0, 5)])
}

/// A with item 5 passed.
pub fn register_b() -> Register {
    let mut register = register_a();
    register.marks[5] = 6;
    register
}

/// "A register with n = 0 is accepted."
pub fn empty_register() -> Register {
    register(vec![], [])
}

/// From each item x to x + 1 by label x mod 16.
pub fn marked_chain(marks: Vec<u32>) -> Register {
    let last = marks.len() - 1;
    register(marks, (0..last).map(|x| (x, x % 16, x + 1)))
}

pub fn labelled_register(dice: &mut Dice) -> Register {
    let n = 1 + dice.below(24);
    let marks = thrown_marks(n, dice);
    let p = 1 + dice.below(16);
    let every_label: Vec<usize> = (0..=MOST_LABEL).collect();
    let mut links = thrown_links(n, &every_label, p, dice);
    links.truncate(MOST_LINKS);
    Register { marks, links }
}

/// The register of these marks and these links, which are put in order; a link's fields are
/// source, label and target.
fn register(marks: Vec<u32>, links: impl IntoIterator<Item = (usize, usize, usize)>) -> Register {
    let link = |(source, label, target)| Link {
        source: Item(source),
        label,
        target: Item(target),
    };
    let mut links: Vec<Link<Item>> = links.into_iter().map(link).collect();
    links.sort();
    Register { marks, links }
}

fn unmarked(n: usize) -> Vec<u32> {
    vec![0; n]
}

fn marked_by_threes(n: usize) -> Vec<u32> {
    [0, 1, 2].into_iter().cycle().take(n).collect()
}

pub fn chain(n: usize) -> Register {
    register(unmarked(n), (1..n).map(|next| (next - 1, 0, next)))
}

fn ring(n: usize) -> Register {
    register(unmarked(n), (0..n).map(|x| (x, 0, (x + 1) % n)))
}

pub fn star(n: usize) -> Register {
    register(unmarked(n), (1..n).map(|x| (0, 0, x)))
}

fn sink(n: usize) -> Register {
    register(unmarked(n), (1..n).map(|x| (x, 0, 0)))
}

fn hub(n: usize) -> Register {
    let there_and_back = |x| [(0, x % 16, x), (x, x % 16, 0)];
    register(marked_by_threes(n), (1..n).flat_map(there_and_back))
}

fn crowd(n: usize) -> Register {
    register(marked_by_threes(n), [])
}

fn selves(n: usize) -> Register {
    let linked = (0..n).filter(|x| !x.is_multiple_of(3));
    register(unmarked(n), linked.map(|x| (x, x % 2, x)))
}

/// 128 sources with 16 labels each are as many links as there may be.
fn labels(n: usize) -> Register {
    let by_every_label = |x| (0..16).map(move |label| (x, label, (x + 1) % n));
    register(unmarked(n), (0..n.min(128)).flat_map(by_every_label))
}

fn yard(n: usize) -> Register {
    let assembly = |x| (1..=8).map(move |part| (x, yard_label(part), x + part));
    let links = (0..n).step_by(8).flat_map(assembly);
    let marks = (0..n).map(yard_marks).collect();
    register(marks, links.filter(|(_, _, target)| *target < n))
}

fn yard_marks(x: usize) -> u32 {
    match x % 8 {
        0 => 1,
        6 => 10,
        7 if (x / 8).is_multiple_of(8) => 10,
        _ => 6,
    }
}

/// The label of the link from an assembly's first item to the one so many places behind it; the
/// eighth is the first of the next assembly.
fn yard_label(part: usize) -> usize {
    match part {
        1..=4 => 0,
        5..=7 => 1,
        _ => 2,
    }
}
