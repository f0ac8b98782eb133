//! A summary taken apart: its classes, rows, class links and map, for those who want more than a
//! list of items. The bytes are judged by the proved library first; only a well-formed file is
//! read.

use crate::bounded::{ClassCap, Direction, Label, Level, NeighbourCap};
use crate::bytes::{four, two};
use crate::calls::check;
use crate::count::Count;
use crate::marks::Marks;
use crate::names::{Class, Group, Item};
use crate::refusal::Refusal;

/// The register of no items. A check against it judges the summary, and then has nothing left to
/// count.
const NO_ITEMS: [u8; 12] = [0, 0, 0, 0, 0, 12, 0, 12, 0, 12, 0, 0];

const HEADER_NUMBERS: usize = 12;
const CLASS: usize = 8;
const ROW: usize = 8;
const LINK: usize = 6;
const MAPPED: usize = 2;

/// A well-formed summary, read. It keeps a copy of its own and does not change.
///
/// That a summary is well formed does not say that it is right: [`check`](crate::check) holds it
/// against its register, and one that [`condense`](crate::condense) made needs no check.
///
/// A hoist with three hooks, neighbours counted up to 1:
///
/// ```
/// use hestovane::{condense, ClassCap, Level, NeighbourCap};
/// use hestovane::{Count, Direction, Label, Mark, Register, Summary};
///
/// const HOIST: Mark = Mark::of(1);
/// const HOOK: Mark = Mark::of(2);
/// const CARRIES: Label = Label::of(0);
///
/// let mut register = Register::new();
/// let hoist = register.add_item([HOIST])?;
/// for _ in 0..3 {
///     let hook = register.add_item([HOOK])?;
///     register.add_link(hoist, CARRIES, hook)?;
/// }
/// let (level, near, class) = (Level::of(1), NeighbourCap::of(1), ClassCap::of(15));
/// let bytes = condense(&register.to_bytes(), level, near, class)?;
///
/// let summary = Summary::read(&bytes)?;
/// let hoists = summary.class_of(hoist)?;
/// let [row] = summary.rows_of(hoists) else { panic!("a hoist has one sort of neighbours") };
/// assert_eq!(row.count, Count::MoreThan(1)); // and not 1 or 2, which would be figures
///
/// let carrying_it = summary.count(hoists, Direction::In, CARRIES, row.group);
/// assert_eq!(carrying_it, Count::Exactly(0)); // no row
/// # Ok::<(), Box<dyn std::error::Error>>(())
/// ```
#[derive(Clone, PartialEq, Eq, Debug)]
pub struct Summary {
    level: Level,
    neighbour_cap: NeighbourCap,
    class_cap: ClassCap,
    group_count: u16,
    classes: Vec<ClassRecord>,
    rows: Vec<Row>,
    links: Vec<ClassLink>,
    map: Vec<Class>,
}

/// What a summary states of a class.
#[derive(Clone, Copy, PartialEq, Eq, Hash, Debug)]
pub struct ClassRecord {
    /// The class.
    pub class: Class,
    /// The marks that every item of it has, no more and no fewer.
    pub marks: Marks,
    /// The group that it lies in.
    pub group: Group,
    /// How many items it has, counted up to the class cap.
    pub count: Count,
}

/// What a summary states of the neighbours of a class, in one direction, by one label, in one
/// group: how many each item of the class has. Where there is no row, it has none.
#[derive(Clone, Copy, PartialEq, Eq, Hash, Debug)]
pub struct Row {
    /// The class whose items have the neighbours.
    pub class: Class,
    /// Whether they are outgoing or incoming neighbours.
    pub direction: Direction,
    /// What the links between them say.
    pub label: Label,
    /// The group that the neighbours' classes lie in.
    pub group: Group,
    /// How many neighbours, counted up to the neighbour cap.
    pub count: Count,
}

/// A link of a summary: some item of the one class has such a link to some item of the other.
#[derive(Clone, Copy, PartialEq, Eq, PartialOrd, Ord, Hash, Debug)]
pub struct ClassLink {
    /// The class that the link starts from.
    pub source: Class,
    /// What the link says.
    pub label: Label,
    /// The class that the link leads to.
    pub target: Class,
}

impl Summary {
    /// The summary of a file.
    ///
    /// # Errors
    ///
    /// [`Refusal::Summary`], 6, where it is not well formed, as the proved library judges it.
    pub fn read(bytes: &[u8]) -> Result<Summary, Refusal> {
        check(&NO_ITEMS, bytes)?;
        Ok(Summary::of_well_formed(bytes))
    }

    /// "i, µ, ν, class count c, group count g, row count r, class-link count e, item count n, then
    /// four offsets". The counts follow from the offsets where these are exact.
    fn of_well_formed(bytes: &[u8]) -> Summary {
        let head: [u16; HEADER_NUMBERS] = std::array::from_fn(|k| two(bytes, 2 * k));
        let [level, neighbour_cap, class_cap, _, group_count, _, _, _, classes, rows, links, map] =
            head;
        let [classes, rows, links, map] = [classes, rows, links, map].map(usize::from);
        let near = NeighbourCap::of(neighbour_cap.into());
        let class_cap = ClassCap::of(class_cap.into());
        Summary {
            level: Level::of(level.into()),
            neighbour_cap: near,
            class_cap,
            group_count,
            classes: class_records(&bytes[classes..rows], class_cap),
            rows: read_each(&bytes[rows..links], ROW, |record| row(record, near)),
            links: read_each(&bytes[links..map], LINK, class_link),
            map: read_each(&bytes[map..], MAPPED, |record| Class(two(record, 0))),
        }
    }

    /// The level that it was made at, as it states: the check does not judge it.
    pub fn level(&self) -> Level {
        self.level
    }

    /// The number up to which rows count neighbours.
    pub fn neighbour_cap(&self) -> NeighbourCap {
        self.neighbour_cap
    }

    /// The number up to which class records count items.
    pub fn class_cap(&self) -> ClassCap {
        self.class_cap
    }

    /// How many groups the classes lie in.
    pub fn group_count(&self) -> usize {
        self.group_count.into()
    }

    /// How many items it has a class for: as many as its register has.
    pub fn item_count(&self) -> usize {
        self.map.len()
    }

    /// The classes, ascending.
    pub fn classes(&self) -> &[ClassRecord] {
        &self.classes
    }

    /// The rows, ascending by class, direction, label and group.
    pub fn rows(&self) -> &[Row] {
        &self.rows
    }

    /// The class links, ascending by source, label and target.
    pub fn class_links(&self) -> &[ClassLink] {
        &self.links
    }

    /// The map: every item, ascending, with its class.
    pub fn map(&self) -> impl Iterator<Item = (Item, Class)> + '_ {
        (0..).map(Item::new).zip(self.map.iter().copied())
    }

    /// The class of an item.
    ///
    /// # Errors
    ///
    /// [`Refusal::Item`], 8, where no item has that number.
    pub fn class_of(&self, item: Item) -> Result<Class, Refusal> {
        let class = self.map.get(usize::from(item.number()));
        class.copied().ok_or(Refusal::Item)
    }

    /// The items of a class, ascending.
    ///
    /// # Panics
    ///
    /// Where the class is of another summary and this one has none of its number.
    pub fn items_of(&self, class: Class) -> impl Iterator<Item = Item> + '_ {
        self.must_have(class);
        self.map()
            .filter(move |(_, mapped)| *mapped == class)
            .map(|(item, _)| item)
    }

    /// What is stated of a class.
    ///
    /// # Panics
    ///
    /// Where the class is of another summary and this one has none of its number.
    pub fn class(&self, class: Class) -> &ClassRecord {
        self.must_have(class);
        &self.classes[usize::from(class.0)]
    }

    /// The rows of a class, ascending by direction, label and group.
    ///
    /// # Panics
    ///
    /// Where the class is of another summary and this one has none of its number.
    pub fn rows_of(&self, class: Class) -> &[Row] {
        self.must_have(class);
        let from = self.rows.partition_point(|row| row.class < class);
        let to = self.rows.partition_point(|row| row.class <= class);
        &self.rows[from..to]
    }

    /// How many neighbours each item of the class has, in that direction, by that label, in that
    /// group. **No row means count zero**: `Exactly(0)`.
    ///
    /// # Panics
    ///
    /// Where the class or the group is of another summary and this one has none of its number: zero
    /// would be an invented entry.
    pub fn count(&self, class: Class, direction: Direction, label: Label, group: Group) -> Count {
        self.must_have(class);
        let grouped = group.0 < self.group_count;
        assert!(grouped, "this summary has no group {group}");
        let key = (class, direction, label, group);
        match self.rows.binary_search_by_key(&key, Row::key) {
            Ok(found) => self.rows[found].count,
            Err(_) => Count::Exactly(0),
        }
    }

    fn must_have(&self, class: Class) {
        let there = usize::from(class.0) < self.classes.len();
        assert!(there, "this summary has no class {class}");
    }
}

impl Row {
    /// The fields by which rows ascend: direction and label are one number in the file, the
    /// direction worth more.
    fn key(&self) -> (Class, Direction, Label, Group) {
        (self.class, self.direction, self.label, self.group)
    }
}

/// The records of that size, each read.
fn read_each<T>(bytes: &[u8], size: usize, read: impl Fn(&[u8]) -> T) -> Vec<T> {
    bytes.chunks_exact(size).map(read).collect()
}

/// "Class, eight bytes: marks (four), group, item count capped at ν", numbered in their order.
fn class_records(bytes: &[u8], cap: ClassCap) -> Vec<ClassRecord> {
    let numbered = (0..).map(Class).zip(bytes.chunks_exact(CLASS));
    let record = |(class, record): (Class, &[u8])| ClassRecord {
        class,
        marks: Marks::from_bits(four(record, 0)),
        group: Group(two(record, 4)),
        count: Count::stated(two(record, 6), cap.number()),
    };
    numbered.map(record).collect()
}

/// "Row, eight bytes: class, direction times 16 plus label (out 0, in 1), group, neighbour count
/// capped at µ."
fn row(record: &[u8], cap: NeighbourCap) -> Row {
    let way = two(record, 2);
    let incoming = way >= 16;
    Row {
        class: Class(two(record, 0)),
        direction: if incoming {
            Direction::In
        } else {
            Direction::Out
        },
        label: Label::of((way % 16).into()),
        group: Group(two(record, 4)),
        count: Count::stated(two(record, 6), cap.number()),
    }
}

/// "Class link, six bytes: source class, label, target class".
fn class_link(record: &[u8]) -> ClassLink {
    ClassLink {
        source: Class(two(record, 0)),
        label: Label::of(two(record, 2).into()),
        target: Class(two(record, 4)),
    }
}
