//! Reading a summary file: it is well formed and gives a summary, or it is refused.
//! Limits, offsets and length are judged first, so that nothing is read past the end.

use crate::bytes::{four_at, two_at};
use crate::caps;
use crate::link::{Link, Way, MOST_LABEL};
use crate::numbers::{Class, Group};
use crate::refusal::Refusal;
use crate::register::{MOST_ITEMS, MOST_LINKS};
use crate::summary::{ClassEntry, Layout, Row, Summary};
use crate::summary::{CLASS, CLASS_LINK, HEADER, MAPPED, MOST_LENGTH, ROW};
use std::collections::BTreeSet;

const MOST_CLASSES: usize = 1_024;
const MOST_ROWS: usize = 4_096;

/// "At most 55,320": a file at every limit at once is just so long.
const _: () = {
    let longest = Layout::of(MOST_CLASSES, MOST_ROWS, MOST_LINKS, MOST_ITEMS);
    assert!(longest.length == MOST_LENGTH);
};

impl Summary {
    pub fn read(bytes: &[u8]) -> Result<Summary, Refusal> {
        taken_apart(bytes)
            .filter(is_well_formed)
            .ok_or(Refusal::SummaryForm)
    }
}

/// The parts of a file whose header holds, if each row's direction and label are in range.
fn taken_apart(bytes: &[u8]) -> Option<Summary> {
    if bytes.len() < HEADER {
        return None;
    }
    let header: [usize; 12] = std::array::from_fn(|k| two_at(bytes, 2 * k));
    let [level, neighbour_cap, class_cap, c, group_count, r, e, n, ..] = header;
    let layout = Layout::of(c, r, e, n);
    if !limits_hold(&header) || !layout_is_exact(&header, &layout, bytes.len()) {
        return None;
    }
    Some(Summary {
        level,
        neighbour_cap,
        class_cap,
        group_count,
        classes: places(layout.classes, CLASS, c)
            .map(|at| class_at(bytes, at))
            .collect(),
        rows: places(layout.rows, ROW, r)
            .map(|at| row_at(bytes, at))
            .collect::<Option<_>>()?,
        class_links: places(layout.class_links, CLASS_LINK, e)
            .map(|at| class_link_at(bytes, at))
            .collect(),
        map: places(layout.map, MAPPED, n)
            .map(|at| Class(two_at(bytes, at)))
            .collect(),
    })
}

/// "i, µ, ν are in range; c, n ≤ 1,024, r ≤ 4,096, e ≤ 2,048."
fn limits_hold(header: &[usize; 12]) -> bool {
    let [level, neighbour_cap, class_cap, c, _, r, e, n, ..] = *header;
    caps::in_range(level, neighbour_cap, class_cap)
        && c <= MOST_CLASSES
        && n <= MOST_ITEMS
        && r <= MOST_ROWS
        && e <= MOST_LINKS
}

/// "Offsets and length are exact."
fn layout_is_exact(header: &[usize; 12], layout: &Layout, length: usize) -> bool {
    let offsets = [layout.classes, layout.rows, layout.class_links, layout.map];
    header[8..] == offsets && length == layout.length
}

/// Where `count` fields of `size` bytes stand, the first at `start`.
fn places(start: usize, size: usize, count: usize) -> impl Iterator<Item = usize> {
    (0..count).map(move |k| start + size * k)
}

fn class_at(bytes: &[u8], at: usize) -> ClassEntry {
    ClassEntry {
        marks: four_at(bytes, at),
        group: Group(two_at(bytes, at + 4)),
        count: two_at(bytes, at + 6),
    }
}

fn row_at(bytes: &[u8], at: usize) -> Option<Row> {
    Some(Row {
        class: Class(two_at(bytes, at)),
        way: Way::of_number(two_at(bytes, at + 2))?,
        group: Group(two_at(bytes, at + 4)),
        count: two_at(bytes, at + 6),
    })
}

fn class_link_at(bytes: &[u8], at: usize) -> Link<Class> {
    Link {
        source: Class(two_at(bytes, at)),
        label: two_at(bytes, at + 2),
        target: Class(two_at(bytes, at + 4)),
    }
}

/// The conditions on what stands behind the header. The last of them looks up the groups of
/// classes, which the first has shown to be in range.
fn is_well_formed(summary: &Summary) -> bool {
    numbers_are_in_range(summary)
        && rows_and_class_links_ascend(summary)
        && each_group_has_a_class(summary)
        && counts_are_in_range(summary)
        && rows_stand_where_class_links_join(summary)
}

/// "Class, group and label numbers and directions are in range", those of the map too.
fn numbers_are_in_range(summary: &Summary) -> bool {
    let is_class = |class: Class| class.0 < summary.classes.len();
    let is_group = |group: Group| group.0 < summary.group_count;
    let links = &summary.class_links;
    summary.classes.iter().all(|class| is_group(class.group))
        && summary.rows.iter().all(|row| is_class(row.class))
        && summary.rows.iter().all(|row| is_group(row.group))
        && links.iter().all(|link| is_class(link.source))
        && links.iter().all(|link| link.label <= MOST_LABEL)
        && links.iter().all(|link| is_class(link.target))
        && summary.map.iter().all(|class| is_class(*class))
}

/// "Rows and class links ascend strictly by their fields in order (a row's count excepted)."
fn rows_and_class_links_ascend(summary: &Summary) -> bool {
    summary.rows.is_sorted_by(|a, b| a.place() < b.place())
        && summary.class_links.is_sorted_by(|a, b| a < b)
}

/// "Each group has a class." So there are no more groups than classes, with no limit of its own.
fn each_group_has_a_class(summary: &Summary) -> bool {
    let named: BTreeSet<Group> = summary.classes.iter().map(|class| class.group).collect();
    (0..summary.group_count).all(|number| named.contains(&Group(number)))
}

/// "Class counts are 1 to ν + 1 and row counts 1 to µ + 1."
fn counts_are_in_range(summary: &Summary) -> bool {
    let class_counts = 1..=summary.class_cap + 1;
    let row_counts = 1..=summary.neighbour_cap + 1;
    let (classes, rows) = (&summary.classes, &summary.rows);
    classes
        .iter()
        .all(|class| class_counts.contains(&class.count))
        && rows.iter().all(|row| row_counts.contains(&row.count))
}

/// "A row stands for a class, direction, label and group exactly when a class link joins that
/// class to some class of the group that way."
fn rows_stand_where_class_links_join(summary: &Summary) -> bool {
    let standing: BTreeSet<_> = summary.rows.iter().map(Row::place).collect();
    let mut joined = BTreeSet::new();
    for link in &summary.class_links {
        for (way, here, neighbour) in link.both_ways() {
            joined.insert((here, way, summary.group_of(neighbour)));
        }
    }
    standing == joined
}
