//! Item, class and group numbers: three separate counts that are never compared with or stored as
//! one another.

use std::fmt;

/// The number of an item of a register, from 0. Any number may be asked about; one that the
/// register or summary does not have is refused with 8.
///
/// Items, classes and groups are three types, and one does not pass for another:
///
/// ```compile_fail
/// # use hestovane::{Item, Refusal, Summary};
/// # fn same(summary: &Summary, item: Item) -> Result<bool, Refusal> {
/// Ok(summary.class_of(item)? == item) // an item is no class
/// # }
/// ```
#[derive(Clone, Copy, PartialEq, Eq, PartialOrd, Ord, Hash, Debug)]
pub struct Item(u16);

/// The number of a class of a summary, from 0. Only a [`Summary`](crate::Summary) hands one out,
/// and it means something in that summary alone.
#[derive(Clone, Copy, PartialEq, Eq, PartialOrd, Ord, Hash, Debug)]
pub struct Class(pub(crate) u16);

/// The number of a group of a summary, from 0: some classes that a row counts as one. Only a
/// [`Summary`](crate::Summary) hands one out, and it means something in that summary alone.
#[derive(Clone, Copy, PartialEq, Eq, PartialOrd, Ord, Hash, Debug)]
pub struct Group(pub(crate) u16);

impl Item {
    /// The item of that number, there or not.
    pub const fn new(number: u16) -> Item {
        Item(number)
    }

    /// The number, as in a file.
    pub const fn number(self) -> u16 {
        self.0
    }
}

impl Class {
    /// The number, as in a file.
    pub const fn number(self) -> u16 {
        self.0
    }
}

impl Group {
    /// The number, as in a file.
    pub const fn number(self) -> u16 {
        self.0
    }
}

impl fmt::Display for Item {
    fn fmt(&self, f: &mut fmt::Formatter<'_>) -> fmt::Result {
        self.0.fmt(f)
    }
}

impl fmt::Display for Class {
    fn fmt(&self, f: &mut fmt::Formatter<'_>) -> fmt::Result {
        self.0.fmt(f)
    }
}

impl fmt::Display for Group {
    fn fmt(&self, f: &mut fmt::Formatter<'_>) -> fmt::Result {
        self.0.fmt(f)
    }
}
