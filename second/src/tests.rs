//! The tests: the document's examples by number, its limits, the refusals and their orders, the law
//! that a summary answers as its register does, and the printed cases of asking, of condensing, of
//! checking, of listing, of the run at the limits and of all five calls, with the counts of the
//! last; the inputs of the condensing program; the order of all lines; and the commands of the
//! trial, carried out. What they share stands here.

mod asking;
mod check;
mod checking;
mod condensing;
mod counts;
mod difference;
mod examples;
mod families;
mod five;
mod inputs;
mod limits;
mod limits_run;
mod listing;
mod property;
mod refusals;
mod replay;
mod wrecked;

use crate::answers::{ask_register, ask_summary, list_from_summary};
use crate::bytes::{two_bytes_each, with_number};
use crate::condense::condense;
use crate::families::{run_by_seed, BySeed};
use crate::link::Link;
use crate::numbers::Item;
use crate::refusal::Refusal;
use crate::register::Register;
use crate::summary::{Summary, MOST_LENGTH};
use crate::trial::Trial;

/// The lines of some families by themselves, and behind them those of families that go by seed.
fn printed_by(run: fn(&mut Trial), by_seed: &[BySeed]) -> String {
    let mut trial = Trial::default();
    run(&mut trial);
    run_by_seed(&mut trial, by_seed);
    trial.lines().to_string()
}

const HOIST: u32 = 1;
const PASSED: u32 = 6;
const FAILED: u32 = 10;

const TRUE: [u8; 4] = [0, 0, 0, 0];
const NOT: [u8; 4] = [2, 0, 0, 0];
const AND: [u8; 4] = [3, 0, 0, 0];
const OR: [u8; 4] = [4, 0, 0, 0];

fn literal(k: i8) -> [u8; 4] {
    [1, k as u8, 0, 0]
}

fn out_by(label: u8, threshold: u8) -> [u8; 4] {
    [16 + label, threshold, 0, 0]
}

fn in_by(label: u8, threshold: u8) -> [u8; 4] {
    [32 + label, threshold, 0, 0]
}

fn register(marks: &[u32], links: &[(usize, usize, usize)]) -> Vec<u8> {
    let link = |&(source, label, target): &(usize, usize, usize)| Link {
        source: Item(source),
        label,
        target: Item(target),
    };
    let links = links.iter().map(link).collect();
    let marks = marks.to_vec();
    Register { marks, links }.write()
}

fn register_a() -> Vec<u8> {
    let marks = [HOIST, HOIST, HOIST, PASSED, PASSED, FAILED];
    register(&marks, &[(0, 0, 3), (1, 0, 4), (2, 0, 5)])
}

/// Items of the given marks below a hoist, each linked from it by label 0.
fn hoist_with(hooks: &[u32]) -> Vec<u8> {
    let marks: Vec<u32> = [&[HOIST], hooks].concat();
    let links: Vec<_> = (1..marks.len()).map(|hook| (0, 0, hook)).collect();
    register(&marks, &links)
}

fn chain_of_four() -> Vec<u8> {
    register(&[0; 4], &[(0, 0, 1), (1, 0, 2), (2, 0, 3)])
}

/// The summary's file, where the register and the numbers are known to be sound.
fn summary(level: usize, neighbour_cap: usize, class_cap: usize, register: &[u8]) -> Vec<u8> {
    condense(level, neighbour_cap, class_cap, register, MOST_LENGTH).expect("sound")
}

fn read_summary(file: &[u8]) -> Summary {
    Summary::read(file).expect("well formed")
}

fn listed(summary: &[u8], question: &[u8]) -> Result<Vec<u8>, Refusal> {
    list_from_summary(summary, question, MOST_LENGTH)
}

/// The list of the summary is `items`, and asking the summary or the register itself at each item
/// says the same.
fn assert_lists(register: &[u8], summary: &[u8], question: &[u8], items: &[usize]) {
    assert_eq!(listed(summary, question), Ok(two_bytes_each(items)));
    for item in 0..read_summary(summary).map.len() {
        let expected = Ok(items.contains(&item));
        assert_eq!(ask_register(register, question, Item(item)), expected);
        assert_eq!(ask_summary(summary, question, Item(item)), expected);
    }
}
