//! Register A of document 01 from Rust, the whole way: three hoists, two passed hooks and a failed
//! one are put into a register, it is condensed, and the hoists over a failed hook are listed from
//! the summary alone. hoists.c is the same in C.

use hestovane::{check, condense, list};
use hestovane::{
    BuildError, ClassCap, Direction, Label, Level, Mark, NeighbourCap, Question, Register,
    Threshold,
};
use std::error::Error;

const HOIST: Mark = Mark::of(1);
const HOOK: Mark = Mark::of(2);
const PASSED: Mark = Mark::of(3);
const FAILED: Mark = Mark::of(4);

/// From a hoist to the hook that hangs from it.
const CARRIES: Label = Label::of(0);

/// Hoists 0, 1 and 2 carry the hooks 3, 4 and 5.
fn register_a() -> Result<Register, BuildError> {
    let mut register = Register::new();
    let hoists = [
        register.add_item([HOIST])?,
        register.add_item([HOIST])?,
        register.add_item([HOIST])?,
    ];
    let hooks = [
        register.add_item([HOOK, PASSED])?,
        register.add_item([HOOK, PASSED])?,
        register.add_item([HOOK, FAILED])?,
    ];
    for (hoist, hook) in hoists.into_iter().zip(hooks) {
        register.add_link(hoist, CARRIES, hook)?;
    }
    Ok(register)
}

/// A hoist, and at least one of what it carries has failed.
fn hoist_over_a_failed_hook() -> Result<Question, BuildError> {
    let carries_failed = Question::at_least(
        Threshold::of(1),
        Direction::Out,
        CARRIES,
        Question::has(FAILED),
    )?;
    Question::has(HOIST).and(carries_failed)
}

fn main() -> Result<(), Box<dyn Error>> {
    let register = register_a()?.to_bytes();
    println!("register A has {} bytes", register.len());

    let summary = condense(
        &register,
        Level::of(1),
        NeighbourCap::of(1),
        ClassCap::of(1),
    )?;
    println!("its summary at 1 1 1 has {} bytes", summary.len());

    let sound = check(&register, &summary)?;
    println!("an abstraction of it: {}", if sound { "yes" } else { "no" });

    for item in list(&summary, hoist_over_a_failed_hook()?.as_bytes())? {
        println!("hoist over a failed hook: item {item}");
    }
    Ok(())
}
