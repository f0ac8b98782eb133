//! Item, class and group numbers: three separate counts, each a type of its own.
//! None is compared with or stored as another; one named conversion joins two levels.

#[derive(Clone, Copy, PartialEq, Eq, PartialOrd, Ord, Debug)]
pub struct Item(pub usize);

#[derive(Clone, Copy, PartialEq, Eq, PartialOrd, Ord, Debug)]
pub struct Class(pub usize);

#[derive(Clone, Copy, PartialEq, Eq, PartialOrd, Ord, Debug)]
pub struct Group(pub usize);

impl Group {
    /// "The classes of a summary are those of level i; its groups are those of level i − 1."
    /// So what was a class one level below is a group one level above, under the same number.
    pub fn of_class_one_level_below(class: Class) -> Group {
        Group(class.0)
    }
}
