//! Links, between items in a register and between classes in a summary, and the ways along them:
//! a way is a direction with a label, as the rows of a summary and the at-least entries name it.

use crate::numbers::{Class, Item};

/// The highest label.
pub const MOST_LABEL: usize = 15;

/// Links compare by their fields in file order: source, label, target.
#[derive(Clone, Copy, PartialEq, Eq, PartialOrd, Ord)]
pub struct Link<End> {
    pub source: End,
    pub label: usize,
    pub target: End,
}

#[derive(Clone, Copy, PartialEq, Eq, PartialOrd, Ord)]
pub enum Direction {
    Out,
    In,
}

/// Ways compare as their numbers do, because out comes before in.
#[derive(Clone, Copy, PartialEq, Eq, PartialOrd, Ord)]
pub struct Way {
    pub direction: Direction,
    pub label: usize,
}

impl<End: Copy> Link<End> {
    /// A link has a neighbour to show at either end: for each direction the way along the link,
    /// the end that has the neighbour, and the neighbour.
    pub fn both_ways(&self) -> [(Way, End, End); 2] {
        let out = Way::new(Direction::Out, self.label);
        let back = Way::new(Direction::In, self.label);
        [
            (out, self.source, self.target),
            (back, self.target, self.source),
        ]
    }
}

impl Link<Item> {
    /// The class link that this link gives, where `map` gives the class of each item.
    pub fn image(&self, map: &[Class]) -> Link<Class> {
        Link {
            source: map[self.source.0],
            label: self.label,
            target: map[self.target.0],
        }
    }
}

impl Way {
    pub fn new(direction: Direction, label: usize) -> Way {
        Way { direction, label }
    }

    /// "Direction times 16 plus label (out 0, in 1)."
    pub fn number(self) -> usize {
        match self.direction {
            Direction::Out => self.label,
            Direction::In => 16 + self.label,
        }
    }

    /// The way of that number, if it has one.
    pub fn of_number(number: usize) -> Option<Way> {
        match number {
            0..=15 => Some(Way::new(Direction::Out, number)),
            16..=31 => Some(Way::new(Direction::In, number - 16)),
            _ => None,
        }
    }
}
