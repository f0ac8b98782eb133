//! Document 01's registers and what its examples ask, built with the crate's own builders.

use hestovane::{
    condense, ClassCap, Direction, Item, Label, Level, Mark, Marks, NeighbourCap, Question,
    Register, Threshold,
};

pub const HOIST: Mark = Mark::of(1);
pub const HOOK: Mark = Mark::of(2);
pub const PASSED: Mark = Mark::of(3);
pub const FAILED: Mark = Mark::of(4);
pub const CARRIES: Label = Label::of(0);

/// A register of items with these marks fields and of links by label 0.
pub fn register(items: &[u32], links: &[(u16, u16)]) -> Vec<u8> {
    let mut register = Register::new();
    for bits in items {
        register.add_item(Marks::from_bits(*bits).iter()).unwrap();
    }
    for (source, target) in links {
        let (source, target) = (Item::new(*source), Item::new(*target));
        register.add_link(source, CARRIES, target).unwrap();
    }
    register.to_bytes()
}

/// "Items 0, 1, 2 are hoists (marks 1), 3 and 4 passed hooks (6), 5 a failed hook (10) .. Links by
/// label 0: 0 to 3, 1 to 4, 2 to 5."
pub fn register_a() -> Vec<u8> {
    register(&[1, 1, 1, 6, 6, 10], &[(0, 3), (1, 4), (2, 5)])
}

pub fn condensed(register: &[u8], level: u32, neighbour_cap: u32, class_cap: u32) -> Vec<u8> {
    let (near, class) = (NeighbourCap::of(neighbour_cap), ClassCap::of(class_cap));
    condense(register, Level::of(level), near, class).unwrap()
}

/// A's summary at 1, 1, 1.
pub fn summary_a() -> Vec<u8> {
    condensed(&register_a(), 1, 1, 1)
}

/// "At least t out by 0", and "at least t in by 0".
pub fn out(threshold: u32, operand: Question) -> Question {
    Question::at_least(Threshold::of(threshold), Direction::Out, CARRIES, operand).unwrap()
}

pub fn into(threshold: u32, operand: Question) -> Question {
    Question::at_least(Threshold::of(threshold), Direction::In, CARRIES, operand).unwrap()
}

pub fn items(numbers: &[u16]) -> Vec<Item> {
    numbers.iter().copied().map(Item::new).collect()
}
