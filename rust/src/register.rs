//! A builder of registers: items with marks, joined by labelled links. Its bytes are always an
//! accepted register.

use crate::bounded::{Label, Mark};
use crate::build_error::BuildError;
use crate::bytes::put_two;
use crate::marks::Marks;
use crate::names::Item;
use std::collections::BTreeSet;

/// A register has no more items.
const ITEMS_MOST: usize = 1_024;

/// A register has no more links.
const LINKS_MOST: usize = 2_048;

const HEADER: usize = 12;
const MARKS: usize = 4;
const LINK: usize = 6;

/// A register that is being built. It starts without items, and whatever is added, no call refuses
/// its bytes with 1, 2 or 3: what would make them wrong is refused here, when it is added, and
/// leaves the register as it was.
///
/// ```
/// use hestovane::{ask_register, Direction, Label, Mark, Question, Register, Threshold};
///
/// const HOIST: Mark = Mark::of(1);
/// const HOOK: Mark = Mark::of(2);
/// const FAILED: Mark = Mark::of(4);
/// const CARRIES: Label = Label::of(0);
///
/// let mut register = Register::new();
/// let hoist = register.add_item([HOIST])?;
/// let hook = register.add_item([HOOK, FAILED])?;
/// register.add_link(hoist, CARRIES, hook)?;
/// assert_eq!(
///     register.add_link(hoist, CARRIES, hook).unwrap_err().to_string(),
///     "the register has the link from 0 by label 0 to 1 already",
/// );
///
/// let (one, failed) = (Threshold::of(1), Question::has(FAILED));
/// let carries_failed = Question::at_least(one, Direction::Out, CARRIES, failed)?;
/// assert!(ask_register(&register.to_bytes(), carries_failed.as_bytes(), hoist)?);
/// assert!(!ask_register(&register.to_bytes(), carries_failed.as_bytes(), hook)?);
/// # Ok::<(), Box<dyn std::error::Error>>(())
/// ```
#[derive(Clone, PartialEq, Eq, Debug, Default)]
pub struct Register {
    marks: Vec<Marks>,
    /// In the file's own order: source, label, target.
    links: BTreeSet<(Item, Label, Item)>,
}

impl Register {
    /// A register without items or links.
    pub fn new() -> Register {
        Register::default()
    }

    /// Adds an item with these marks, and gives its number: one more than the last, from 0.
    ///
    /// # Errors
    ///
    /// [`BuildError::TooManyItems`] where there are 1,024 already.
    pub fn add_item(&mut self, marks: impl IntoIterator<Item = Mark>) -> Result<Item, BuildError> {
        let number = self.marks.len();
        if number == ITEMS_MOST {
            return Err(BuildError::TooManyItems);
        }
        self.marks.push(marks.into_iter().collect());
        Ok(Item::new(number as u16))
    }

    /// Adds a link from one item to another, or to itself. Links may be added in any order.
    ///
    /// # Errors
    ///
    /// [`BuildError::NoSuchItem`] where an end has not been added, [`BuildError::LinkTwice`] where
    /// the same source, label and target are linked already, [`BuildError::TooManyLinks`] where
    /// there are 2,048 links already.
    pub fn add_link(&mut self, source: Item, label: Label, target: Item) -> Result<(), BuildError> {
        self.must_have(source)?;
        self.must_have(target)?;
        if self.links.contains(&(source, label, target)) {
            return Err(BuildError::LinkTwice {
                source,
                label,
                target,
            });
        }
        if self.links.len() == LINKS_MOST {
            return Err(BuildError::TooManyLinks);
        }
        self.links.insert((source, label, target));
        Ok(())
    }

    fn must_have(&self, item: Item) -> Result<(), BuildError> {
        if usize::from(item.number()) < self.marks.len() {
            Ok(())
        } else {
            Err(BuildError::NoSuchItem(item))
        }
    }

    /// How many items have been added.
    pub fn item_count(&self) -> usize {
        self.marks.len()
    }

    /// How many links have been added.
    pub fn link_count(&self) -> usize {
        self.links.len()
    }

    /// The register file.
    pub fn to_bytes(&self) -> Vec<u8> {
        let links_at = HEADER + MARKS * self.marks.len();
        let total = links_at + LINK * self.links.len();
        let mut bytes = Vec::with_capacity(total);
        for number in [
            self.marks.len(),
            self.links.len(),
            HEADER,
            links_at,
            total,
            0,
        ] {
            put_two(&mut bytes, number);
        }
        for marks in &self.marks {
            bytes.extend(marks.bits().to_be_bytes());
        }
        for (source, label, target) in &self.links {
            for number in [source.number(), label.number().into(), target.number()] {
                put_two(&mut bytes, number.into());
            }
        }
        bytes
    }
}
