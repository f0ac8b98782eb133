//! The proposed summaries: that of register A at 1 1 1, and others made from it.
//!
//! Each is written as a summary file with an exact header. Told are, in this order, what is not as
//! in number 0: level, neighbour cap and class cap; the group count; classes as marks, group,
//! count; rows as class, direction times 16 plus label, group, count; class links as source, label,
//! target; the map.
//!   0   1 1 1; 3 groups; classes 1 0 2, 1 0 1, 6 1 2, 10 2 1; rows 0 0 1 1, 1 0 2 1, 2 16 0 1,
//!       3 16 0 1; class links 0 0 2, 1 0 3; map 0 0 1 2 2 3.
//!   1   2 groups; classes 1 0 2, 1 0 1, 6 1 2, 10 1 1; rows 0 0 1 1, 1 0 1 1, 2 16 0 1, 3 16 0 1.
//!   2   as 1, and class links 0 0 2, 0 0 3, 1 0 3.
//!   3   1 group; classes 1 0 2, 1 0 1, 6 0 2, 10 0 1; rows 0 0 0 1, 1 0 0 1, 2 16 0 1, 3 16 0 1.
//!   4   classes 10 2 1, 1 0 1, 6 1 2, 1 0 2; rows 0 16 0 1, 1 0 2 1, 2 16 0 1, 3 0 1 1; class
//!       links 1 0 0, 3 0 2; map 3 3 1 2 2 0.
//!   5   classes 1 0 1, 1 0 1, 1 0 1, 6 1 1, 6 1 1, 10 2 1; rows 0 0 1 1, 1 0 1 1, 2 0 2 1,
//!       3 16 0 1, 4 16 0 1, 5 16 0 1; class links 0 0 3, 1 0 4, 2 0 5; map 0 1 2 3 4 5.
//!   6   as 5, level 4.
//!   7   classes 1 0 2, 1 0 1, 6 1 2, 10 2 1, 32 1 1.
//!   8   classes 1 0 1, 1 0 1, 6 1 2, 10 2 1.
//!   9   rows 0 0 1 2, 1 0 2 1, 2 16 0 1, 3 16 0 1.
//!   10  1 7 15.
//!   11  classes 1 0 2, 1 0 1, 6 1 2, 6 2 1.
//!   12  map 0 0 1 2 2 2.
//!   13  map 0 0 1 2 2.
//!   14  4 groups.
//!   15  rows 0 0 1 1, 0 1 1 1, 1 0 2 1, 2 16 0 1, 3 16 0 1.
//!   16  class links 0 0 2, 0 1 2, 1 0 3.
//!   17  rows 0 0 1 1, 1 0 2 1, 3 16 0 1.
//!   18  0 groups; no classes, no rows, no class links, no map.
//!   19  rows 1 0 2 1, 3 16 0 1; class links 1 0 3.
//!   20  level 5.
//!   21  as 3, but rows 0 0 0 1, 1 0 0 1, 2 16 0 2, 3 16 0 1.

use crate::link::{Link, Way};
use crate::numbers::{Class, Group};
use crate::summary::{ClassEntry, Row, Summary};

pub const PROPOSED: [fn() -> Summary; 22] = [
    summary_of_a,
    two_groups,
    two_groups_and_a_class_link_more,
    one_group,
    other_numbers,
    every_item_for_itself,
    every_item_for_itself_at_level_4,
    a_class_without_items,
    a_class_count_too_low,
    a_row_count_too_high,
    highest_caps,
    other_marks,
    another_class_for_an_item,
    an_item_fewer,
    a_group_without_a_class,
    a_row_without_a_class_link,
    a_class_link_without_rows,
    a_class_link_without_one_of_its_rows,
    nothing_at_all,
    a_class_link_fewer_with_its_rows,
    level_5,
    one_group_and_a_row_count_too_high,
];

/// The summary of P1.
fn summary_of_a() -> Summary {
    Summary {
        level: 1,
        neighbour_cap: 1,
        class_cap: 1,
        group_count: 3,
        classes: classes([(1, 0, 2), (1, 0, 1), (6, 1, 2), (10, 2, 1)]),
        rows: rows([(0, 0, 1, 1), (1, 0, 2, 1), (2, 16, 0, 1), (3, 16, 0, 1)]),
        class_links: class_links([(0, 0, 2), (1, 0, 3)]),
        map: map([0, 0, 1, 2, 2, 3]),
    }
}

fn classes(fields: impl IntoIterator<Item = (u32, usize, usize)>) -> Vec<ClassEntry> {
    let class = |(marks, group, count)| ClassEntry {
        marks,
        group: Group(group),
        count,
    };
    fields.into_iter().map(class).collect()
}

fn rows(fields: impl IntoIterator<Item = (usize, usize, usize, usize)>) -> Vec<Row> {
    let row = |(class, way, group, count)| Row {
        class: Class(class),
        way: Way::of_number(way).expect("a way has that number"),
        group: Group(group),
        count,
    };
    fields.into_iter().map(row).collect()
}

fn class_links(fields: impl IntoIterator<Item = (usize, usize, usize)>) -> Vec<Link<Class>> {
    let link = |(source, label, target)| Link {
        source: Class(source),
        label,
        target: Class(target),
    };
    fields.into_iter().map(link).collect()
}

fn map(classes: impl IntoIterator<Item = usize>) -> Vec<Class> {
    classes.into_iter().map(Class).collect()
}

/// Passed and failed hooks in one group.
fn two_groups() -> Summary {
    Summary {
        group_count: 2,
        classes: classes([(1, 0, 2), (1, 0, 1), (6, 1, 2), (10, 1, 1)]),
        rows: rows([(0, 0, 1, 1), (1, 0, 1, 1), (2, 16, 0, 1), (3, 16, 0, 1)]),
        ..summary_of_a()
    }
}

/// The rows cannot tell that the class link from 0 to 3 is no image of a link.
fn two_groups_and_a_class_link_more() -> Summary {
    Summary {
        class_links: class_links([(0, 0, 2), (0, 0, 3), (1, 0, 3)]),
        ..two_groups()
    }
}

fn one_group() -> Summary {
    Summary {
        group_count: 1,
        classes: classes([(1, 0, 2), (1, 0, 1), (6, 0, 2), (10, 0, 1)]),
        rows: rows([(0, 0, 0, 1), (1, 0, 0, 1), (2, 16, 0, 1), (3, 16, 0, 1)]),
        ..summary_of_a()
    }
}

/// Classes 0 and 3 under each other's number.
fn other_numbers() -> Summary {
    Summary {
        classes: classes([(10, 2, 1), (1, 0, 1), (6, 1, 2), (1, 0, 2)]),
        rows: rows([(0, 16, 0, 1), (1, 0, 2, 1), (2, 16, 0, 1), (3, 0, 1, 1)]),
        class_links: class_links([(1, 0, 0), (3, 0, 2)]),
        map: map([3, 3, 1, 2, 2, 0]),
        ..summary_of_a()
    }
}

fn every_item_for_itself() -> Summary {
    let hoists = [(1, 0, 1), (1, 0, 1), (1, 0, 1)];
    let hooks = [(6, 1, 1), (6, 1, 1), (10, 2, 1)];
    let rows_of_hoists = [(0, 0, 1, 1), (1, 0, 1, 1), (2, 0, 2, 1)];
    let rows_of_hooks = [(3, 16, 0, 1), (4, 16, 0, 1), (5, 16, 0, 1)];
    Summary {
        classes: classes([hoists, hooks].concat()),
        rows: rows([rows_of_hoists, rows_of_hooks].concat()),
        class_links: class_links([(0, 0, 3), (1, 0, 4), (2, 0, 5)]),
        map: map([0, 1, 2, 3, 4, 5]),
        ..summary_of_a()
    }
}

fn every_item_for_itself_at_level_4() -> Summary {
    Summary {
        level: 4,
        ..every_item_for_itself()
    }
}

fn a_class_without_items() -> Summary {
    let one_more = (32, 1, 1);
    Summary {
        classes: classes([(1, 0, 2), (1, 0, 1), (6, 1, 2), (10, 2, 1), one_more]),
        ..summary_of_a()
    }
}

fn a_class_count_too_low() -> Summary {
    Summary {
        classes: classes([(1, 0, 1), (1, 0, 1), (6, 1, 2), (10, 2, 1)]),
        ..summary_of_a()
    }
}

fn a_row_count_too_high() -> Summary {
    Summary {
        rows: rows([(0, 0, 1, 2), (1, 0, 2, 1), (2, 16, 0, 1), (3, 16, 0, 1)]),
        ..summary_of_a()
    }
}

fn highest_caps() -> Summary {
    Summary {
        neighbour_cap: 7,
        class_cap: 15,
        ..summary_of_a()
    }
}

/// Item 5 passed, in a class and a group of its own.
fn other_marks() -> Summary {
    Summary {
        classes: classes([(1, 0, 2), (1, 0, 1), (6, 1, 2), (6, 2, 1)]),
        ..summary_of_a()
    }
}

fn another_class_for_an_item() -> Summary {
    Summary {
        map: map([0, 0, 1, 2, 2, 2]),
        ..summary_of_a()
    }
}

fn an_item_fewer() -> Summary {
    Summary {
        map: map([0, 0, 1, 2, 2]),
        ..summary_of_a()
    }
}

fn a_group_without_a_class() -> Summary {
    Summary {
        group_count: 4,
        ..summary_of_a()
    }
}

fn a_row_without_a_class_link() -> Summary {
    let one_more = (0, 1, 1, 1);
    Summary {
        rows: rows([
            (0, 0, 1, 1),
            one_more,
            (1, 0, 2, 1),
            (2, 16, 0, 1),
            (3, 16, 0, 1),
        ]),
        ..summary_of_a()
    }
}

fn a_class_link_without_rows() -> Summary {
    Summary {
        class_links: class_links([(0, 0, 2), (0, 1, 2), (1, 0, 3)]),
        ..summary_of_a()
    }
}

fn a_class_link_without_one_of_its_rows() -> Summary {
    Summary {
        rows: rows([(0, 0, 1, 1), (1, 0, 2, 1), (3, 16, 0, 1)]),
        ..summary_of_a()
    }
}

fn nothing_at_all() -> Summary {
    Summary {
        group_count: 0,
        classes: vec![],
        rows: vec![],
        class_links: vec![],
        map: vec![],
        ..summary_of_a()
    }
}

fn a_class_link_fewer_with_its_rows() -> Summary {
    Summary {
        rows: rows([(1, 0, 2, 1), (3, 16, 0, 1)]),
        class_links: class_links([(1, 0, 3)]),
        ..summary_of_a()
    }
}

fn level_5() -> Summary {
    Summary {
        level: 5,
        ..summary_of_a()
    }
}

fn one_group_and_a_row_count_too_high() -> Summary {
    Summary {
        rows: rows([(0, 0, 0, 1), (1, 0, 0, 1), (2, 16, 0, 2), (3, 16, 0, 1)]),
        ..one_group()
    }
}
