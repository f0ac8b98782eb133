//! Condensing: from a register, a level and two caps to the summary's file.
//! The levels are worked out as the document defines them, each from the whole level below it.

use crate::caps::{self, capped};
use crate::link::Link;
use crate::neighbours::neighbour_counts;
use crate::numbers::{Class, Group, Item};
use crate::refusal::Refusal;
use crate::register::Register;
use crate::summary::{ClassEntry, Row, Summary};
use std::collections::{BTreeMap, BTreeSet};

/// The bytes of the summary. Refusals in the order 1, 2, 3, 4, 9; `room` is the length of the
/// output buffer.
pub fn condense(
    level: usize,
    neighbour_cap: usize,
    class_cap: usize,
    register: &[u8],
    room: usize,
) -> Result<Vec<u8>, Refusal> {
    let register = Register::read(register)?;
    if !caps::in_range(level, neighbour_cap, class_cap) {
        return Err(Refusal::LevelOrCaps);
    }
    let bytes = summary_of(&register, level, neighbour_cap, class_cap).write();
    if room < bytes.len() {
        return Err(Refusal::Room);
    }
    Ok(bytes)
}

/// "The classes of a summary are those of level i; its groups are those of level i − 1."
pub fn summary_of(
    register: &Register,
    level: usize,
    neighbour_cap: usize,
    class_cap: usize,
) -> Summary {
    let map = classes_at(level, register, neighbour_cap);
    let groups = groups_at(level, register, neighbour_cap);
    let lowest = lowest_items(&map);
    Summary {
        level,
        neighbour_cap,
        class_cap,
        group_count: groups.iter().collect::<BTreeSet<_>>().len(),
        classes: class_entries(register, &map, &groups, &lowest, class_cap),
        rows: rows(register, &groups, &lowest, neighbour_cap),
        class_links: class_links(register, &map),
        map,
    }
}

/// "Two items are alike at level 0 when their marks fields are equal. They are alike at level
/// j + 1 when they are alike at level j and, for each direction, label and level-j class, they
/// have equal numbers of neighbours in that class, capped at µ."
fn classes_at(level: usize, register: &Register, cap: usize) -> Vec<Class> {
    if level == 0 {
        return numbered(register.marks.iter());
    }
    let groups = groups_at(level, register, cap);
    numbered(register.items().map(|item| {
        let counts = neighbour_counts(register, item, &groups, cap);
        (groups[item.0], counts)
    }))
}

/// The group of each item in a summary of that level.
fn groups_at(level: usize, register: &Register, cap: usize) -> Vec<Group> {
    classes_at(level - 1, register, cap)
        .into_iter()
        .map(Group::of_class_one_level_below)
        .collect()
}

/// Items with equal keys share a class; classes are "numbered from 0 in order of their lowest
/// item".
fn numbered<Key: Ord>(keys: impl Iterator<Item = Key>) -> Vec<Class> {
    let mut numbers = BTreeMap::new();
    keys.map(|key| {
        let next = Class(numbers.len());
        *numbers.entry(key).or_insert(next)
    })
    .collect()
}

/// The lowest item of each class, by class number: the items that are the first of their class.
fn lowest_items(map: &[Class]) -> Vec<Item> {
    let mut lowest = BTreeMap::new();
    for (item, class) in map.iter().enumerate() {
        lowest.entry(*class).or_insert(Item(item));
    }
    lowest.into_values().collect()
}

/// "Class, eight bytes: marks (four), group, item count capped at ν." Members agree on marks and
/// group.
fn class_entries(
    register: &Register,
    map: &[Class],
    groups: &[Group],
    lowest: &[Item],
    class_cap: usize,
) -> Vec<ClassEntry> {
    let entry = |item: &Item| {
        let members = map.iter().filter(|class| **class == map[item.0]).count();
        ClassEntry {
            marks: register.marks[item.0],
            group: groups[item.0],
            count: capped(members, class_cap),
        }
    };
    lowest.iter().map(entry).collect()
}

/// "Row, eight bytes: class, direction times 16 plus label (out 0, in 1), group, neighbour count
/// capped at µ." Members agree on these, and each class is told of by its lowest.
fn rows(register: &Register, groups: &[Group], lowest: &[Item], cap: usize) -> Vec<Row> {
    let mut rows = Vec::new();
    for (class, item) in lowest.iter().enumerate() {
        for ((way, group), count) in neighbour_counts(register, *item, groups, cap) {
            rows.push(Row {
                class: Class(class),
                way,
                group,
                count,
            });
        }
    }
    rows
}

/// "Class link, six bytes: source class, label, target class; present exactly when some member of
/// the first has such a link to some member of the second." Ascending, each once.
fn class_links(register: &Register, map: &[Class]) -> Vec<Link<Class>> {
    let images: BTreeSet<_> = register.links.iter().map(|link| link.image(map)).collect();
    images.into_iter().collect()
}
