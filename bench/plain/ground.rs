//! A question asked at the places of a ground: the items of a register, or the classes of a summary.

use super::question::{shows, Entry, Question};

pub trait Ground {
    fn places(&self) -> usize;

    fn marks(&self, at: usize) -> u32;

    /// Whether the operand holds at so many neighbours that way, or more. Not all need be asked.
    fn reaches(&self, at: usize, way: u8, threshold: u8, holds: impl FnMut(usize) -> bool) -> bool;

    /// Where that is so, from where the operand holds.
    fn all_reaching(&self, way: u8, threshold: u8, holds: &[bool]) -> Vec<bool>;
}

/// So many neighbours are asked one by one; when a question needs more, it is asked at all places.
const MOST_STEPS: u32 = 4_096;

/// Whether the question holds at a place.
pub fn holds<G: Ground>(ground: &G, question: &Question, at: usize) -> bool {
    let places = ground.places();
    let kept = if question.depth > 1 {
        places * question.entries().len()
    } else {
        0
    };
    let mut asking = Asking {
        ground,
        entries: question.entries(),
        places,
        said: vec![[0; 2]; kept.div_ceil(64)],
        steps: MOST_STEPS,
    };
    let holds = asking.holds(0, at);
    if asking.steps > 0 {
        holds
    } else {
        holds_at(ground, question)[at]
    }
}

/// An entry is asked at a place, and with it the entries below at the neighbours that it needs.
struct Asking<'a, G> {
    ground: &'a G,
    entries: &'a [Entry],
    places: usize,
    /// For each at-least and place, whether it was asked there and whether it held.
    said: Vec<[u64; 2]>,
    /// When none is left, what is said is worth nothing.
    steps: u32,
}

impl<G: Ground> Asking<'_, G> {
    fn holds(&mut self, entry: usize, at: usize) -> bool {
        match self.entries[entry] {
            Entry::True => true,
            Entry::Literal { bit, on } => shows(self.ground.marks(at), bit, on),
            Entry::Not => !self.holds(entry + 1, at),
            Entry::And { second } => self.holds(entry + 1, at) && self.holds(second.into(), at),
            Entry::Or { second } => self.holds(entry + 1, at) || self.holds(second.into(), at),
            Entry::AtLeast { way, threshold } => self.reaches(entry, at, way, threshold),
        }
    }

    fn reaches(&mut self, entry: usize, at: usize, way: u8, threshold: u8) -> bool {
        let place = entry * self.places + at;
        let (word, bit) = (place / 64, 1 << (place % 64));
        if let Some([asked, held]) = self.said.get(word) {
            if asked & bit != 0 {
                return held & bit != 0;
            }
        }
        let ground = self.ground;
        let holds = ground.reaches(at, way, threshold, |far| {
            self.steps = self.steps.saturating_sub(1);
            self.steps == 0 || self.holds(entry + 1, far)
        });
        if let Some([asked, held]) = self.said.get_mut(word) {
            *asked |= bit;
            *held |= if holds { bit } else { 0 };
        }
        holds
    }
}

/// Where the question holds. From the last entry to the first, each takes where its operands hold.
pub fn holds_at<G: Ground>(ground: &G, question: &Question) -> Vec<bool> {
    let mut waiting: Vec<Vec<bool>> = vec![];
    for entry in question.entries().iter().rev() {
        let mut operand = || waiting.pop().unwrap_or_default();
        let row = match *entry {
            Entry::True => vec![true; ground.places()],
            Entry::Literal { bit, on } => (0..ground.places())
                .map(|at| shows(ground.marks(at), bit, on))
                .collect(),
            Entry::Not => operand().into_iter().map(|holds| !holds).collect(),
            Entry::And { .. } => joined(operand(), &operand(), |a, b| a & b),
            Entry::Or { .. } => joined(operand(), &operand(), |a, b| a | b),
            Entry::AtLeast { way, threshold } => ground.all_reaching(way, threshold, &operand()),
        };
        waiting.push(row);
    }
    waiting.pop().unwrap_or_default()
}

fn joined(mut first: Vec<bool>, second: &[bool], by: impl Fn(bool, bool) -> bool) -> Vec<bool> {
    for (holds, other) in first.iter_mut().zip(second) {
        *holds = by(*holds, *other);
    }
    first
}
