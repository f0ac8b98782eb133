//! The check of a proposed summary against a register. Any grouping and numbering may be
//! proposed, and the level is not judged; the caps are those that the summary states.

use crate::caps::capped;
use crate::neighbours::neighbour_counts;
use crate::numbers::{Class, Group};
use crate::refusal::Refusal;
use crate::register::Register;
use crate::summary::Summary;
use std::collections::BTreeSet;

/// Yes or no; refusals in the order 1, 2, 3, 6.
pub fn check(register: &[u8], summary: &[u8]) -> Result<bool, Refusal> {
    let register = Register::read(register)?;
    let summary = Summary::read(summary)?;
    Ok(register.marks.len() == summary.map.len()
        && marks_agree(&register, &summary)
        && class_counts_agree(&summary)
        && class_links_are_the_images(&register, &summary)
        && rows_agree(&register, &summary))
}

/// "Each item's marks equal its class's."
fn marks_agree(register: &Register, summary: &Summary) -> bool {
    let mapped = summary.map.iter();
    let marks_of_classes = mapped.map(|class| summary.classes[class.0].marks);
    register.marks.iter().copied().eq(marks_of_classes)
}

/// "Each class's stated count equals its number of items capped at ν."
fn class_counts_agree(summary: &Summary) -> bool {
    summary.classes.iter().enumerate().all(|(number, entry)| {
        let members = summary.map.iter().filter(|class| **class == Class(number));
        entry.count == capped(members.count(), summary.class_cap)
    })
}

/// "The class links are exactly the images of the links."
fn class_links_are_the_images(register: &Register, summary: &Summary) -> bool {
    let links = register.links.iter();
    let images: BTreeSet<_> = links.map(|link| link.image(&summary.map)).collect();
    images.iter().eq(&summary.class_links)
}

/// "For every item, direction, label and group the number of neighbours whose class lies in that
/// group, capped at µ, equals the row (zero where there is none)."
fn rows_agree(register: &Register, summary: &Summary) -> bool {
    let map = &summary.map;
    let groups: Vec<Group> = map.iter().map(|class| summary.group_of(*class)).collect();
    register.items().all(|item| {
        let counted = neighbour_counts(register, item, &groups, summary.neighbour_cap);
        counted == summary.rows_of(map[item.0])
    })
}
