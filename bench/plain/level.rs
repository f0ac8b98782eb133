//! The classes of a level, the groups of the level before, and the rows of the classes.

use super::classes::{mixed, Classes, Numbers};
use super::neighbours::Neighbours;
use super::register::Register;
use super::rows::Rows;

pub struct Level {
    pub groups: Classes,
    pub classes: Classes,
    pub rows: Rows,
}

impl Level {
    /// Level i. Where a level has no more classes than the one before, or as many as there are items, no later one has more.
    pub fn reached(register: &Register, near: &Neighbours, i: u16, cap: u16) -> Level {
        let mut groups = by_marks(register);
        let n = register.marks.len();
        let mut touched = vec![true; n];
        for _ in 1..i {
            let (classes, _) = next(near, &groups, &touched, cap, false);
            if classes.count == groups.count || classes.count == n {
                let rows = rows_of(near, &classes, cap);
                let groups = classes.clone();
                return Level {
                    groups,
                    classes,
                    rows,
                };
            }
            touched = touched_by(near, &groups, &classes);
            groups = classes;
        }
        let (classes, rows) = next(near, &groups, &touched, cap, true);
        Level {
            groups,
            classes,
            rows,
        }
    }
}

fn by_marks(register: &Register) -> Classes {
    let n = register.marks.len();
    let (mut numbers, mut classes) = (Numbers::none_of(n), Classes::none_of(n));
    for (x, marks) in register.marks.iter().enumerate() {
        let alike = |k: usize| register.marks[classes.lowest(k)] == *marks;
        let class = numbers.find(mixed(u32::from_be_bytes(*marks)), classes.count, alike);
        classes.put(x, class);
    }
    classes
}

/// The classes of the next level. The items of a group that are not touched stay together: their neighbours are those that
/// they were compared by last. So does an item alone. The others are compared by their rows.
fn next(
    near: &Neighbours,
    groups: &Classes,
    touched: &[bool],
    cap: u16,
    all_rows: bool,
) -> (Classes, Rows) {
    let n = groups.map.len();
    let (mut numbers, mut classes) = (Numbers::none_of(n), Classes::none_of(n));
    let mut rows = Rows::none_of(n, near.count());
    let mut untouched: Vec<Option<u16>> = vec![None; groups.count];
    for (x, group) in groups.map.iter().enumerate() {
        let mut class = classes.count;
        if touched[x] && !groups.one_item(*group) {
            let hash = rows.put(near.of(x), &groups.map, cap);
            let hash = hash.wrapping_add(mixed(u32::from(*group)));
            let alike = |k: usize| groups.map[classes.lowest(k)] == *group && rows.has_last(k);
            class = numbers.find(hash, class, alike);
        } else if let Some(known) = untouched[usize::from(*group)] {
            class = usize::from(known);
        } else {
            untouched[usize::from(*group)] = Some(class as u16);
            if all_rows {
                rows.put(near.of(x), &groups.map, cap);
            }
        }
        if class == classes.count {
            rows.keep();
        }
        classes.put(x, class);
    }
    (classes, rows)
}

/// The largest class of a group may be taken for the group itself. The neighbours of all other items are touched; where
/// these are many, so are all.
fn touched_by(near: &Neighbours, groups: &Classes, classes: &Classes) -> Vec<bool> {
    let n = classes.map.len();
    let largest = largest(groups, classes);
    let kept: usize = largest.iter().map(|(items, _)| usize::from(*items)).sum();
    if 2 * kept < n {
        return vec![true; n];
    }
    let mut touched = vec![false; n];
    for (x, (group, class)) in groups.map.iter().zip(&classes.map).enumerate() {
        if largest[usize::from(*group)].1 != *class {
            let ends = near.of(x).iter();
            ends.for_each(|end| touched[usize::from(end & 0x3ff)] = true);
        }
    }
    touched
}

/// The largest class of each group, behind its number of items.
fn largest(groups: &Classes, classes: &Classes) -> Vec<(u16, u16)> {
    let mut items = vec![0u16; classes.count];
    for class in &classes.map {
        items[usize::from(*class)] += 1;
    }
    let mut largest = vec![(0, 0); groups.count];
    for (class, items) in items.iter().enumerate() {
        let group = usize::from(groups.map[classes.lowest(class)]);
        largest[group] = largest[group].max((*items, class as u16));
    }
    largest
}

/// The rows where the classes are the groups.
fn rows_of(near: &Neighbours, groups: &Classes, cap: u16) -> Rows {
    let mut rows = Rows::none_of(groups.count, near.count());
    for class in 0..groups.count {
        rows.put(near.of(groups.lowest(class)), &groups.map, cap);
        rows.keep();
    }
    rows
}
