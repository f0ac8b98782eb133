//! A summary: classes, rows, class links and the map, and how they are laid out in a file.
//! Which files are well formed is judged where they are read.

use crate::bytes::two_bytes_each;
use crate::link::{Link, Way};
use crate::neighbours::Counts;
use crate::numbers::{Class, Group, Item};

pub const HEADER: usize = 24;
pub const CLASS: usize = 8;
pub const ROW: usize = 8;
pub const CLASS_LINK: usize = 6;
pub const MAPPED: usize = 2;

/// No summary file is longer.
pub const MOST_LENGTH: usize = 55_320;

#[derive(Clone, Copy)]
pub struct ClassEntry {
    pub marks: u32,
    pub group: Group,
    pub count: usize,
}

#[derive(Clone, Copy)]
pub struct Row {
    pub class: Class,
    pub way: Way,
    pub group: Group,
    pub count: usize,
}

#[derive(Clone)]
pub struct Summary {
    pub level: usize,
    pub neighbour_cap: usize,
    pub class_cap: usize,
    pub group_count: usize,
    pub classes: Vec<ClassEntry>,
    pub rows: Vec<Row>,
    pub class_links: Vec<Link<Class>>,
    pub map: Vec<Class>,
}

/// Where the parts of a file begin, and its length.
pub struct Layout {
    pub classes: usize,
    pub rows: usize,
    pub class_links: usize,
    pub map: usize,
    pub length: usize,
}

impl Layout {
    /// "Classes (24), rows (24 + 8c), class links (24 + 8c + 8r), map (24 + 8c + 8r + 6e).
    /// Length is the last offset plus 2n."
    pub const fn of(c: usize, r: usize, e: usize, n: usize) -> Layout {
        let classes = HEADER;
        let rows = classes + CLASS * c;
        let class_links = rows + ROW * r;
        let map = class_links + CLASS_LINK * e;
        let length = map + MAPPED * n;
        Layout {
            classes,
            rows,
            class_links,
            map,
            length,
        }
    }
}

impl Row {
    /// The fields that rows ascend by: all but the count.
    pub fn place(&self) -> (Class, Way, Group) {
        (self.class, self.way, self.group)
    }
}

impl Summary {
    pub fn group_of(&self, class: Class) -> Group {
        self.classes[class.0].group
    }

    pub fn items(&self) -> impl Iterator<Item = Item> {
        (0..self.map.len()).map(Item)
    }

    /// What the rows of one class say.
    pub fn rows_of(&self, class: Class) -> Counts {
        let own = self.rows.iter().filter(|row| row.class == class);
        own.map(|row| ((row.way, row.group), row.count)).collect()
    }

    pub fn write(&self) -> Vec<u8> {
        let mut bytes = two_bytes_each(&self.header());
        for class in &self.classes {
            bytes.extend(class.marks.to_be_bytes());
            bytes.extend(two_bytes_each(&[class.group.0, class.count]));
        }
        for row in &self.rows {
            let fields = [row.class.0, row.way.number(), row.group.0, row.count];
            bytes.extend(two_bytes_each(&fields));
        }
        for link in &self.class_links {
            let fields = [link.source.0, link.label, link.target.0];
            bytes.extend(two_bytes_each(&fields));
        }
        for class in &self.map {
            bytes.extend(two_bytes_each(&[class.0]));
        }
        bytes
    }

    /// "i, µ, ν, class count c, group count g, row count r, class-link count e, item count n, then
    /// four offsets."
    fn header(&self) -> [usize; 12] {
        let (c, r) = (self.classes.len(), self.rows.len());
        let (e, n) = (self.class_links.len(), self.map.len());
        let layout = Layout::of(c, r, e, n);
        [
            self.level,
            self.neighbour_cap,
            self.class_cap,
            c,
            self.group_count,
            r,
            e,
            n,
            layout.classes,
            layout.rows,
            layout.class_links,
            layout.map,
        ]
    }
}
