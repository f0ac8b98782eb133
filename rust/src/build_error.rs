//! What can go wrong while a register or a question is built: said at once, where it is built, and
//! nothing is changed by it.

use crate::bounded::Label;
use crate::names::Item;
use std::error::Error;
use std::fmt;

/// Why a number, a register or a question could not be built as asked. What was built before stays
/// as it was.
#[derive(Clone, Copy, PartialEq, Eq, Hash, Debug)]
pub enum BuildError {
    /// A level, cap, label, mark or threshold outside its range.
    OutOfRange {
        /// What the number was to be.
        what: &'static str,
        /// The number.
        number: u32,
        /// The least that is allowed.
        least: u32,
        /// The greatest that is allowed.
        most: u32,
    },
    /// The register has 1,024 items already.
    TooManyItems,
    /// The register has 2,048 links already.
    TooManyLinks,
    /// An end of the link is not an item of the register.
    NoSuchItem(Item),
    /// The register has this link already.
    LinkTwice {
        /// The item that the link starts from.
        source: Item,
        /// What the link says.
        label: Label,
        /// The item that the link leads to.
        target: Item,
    },
    /// The question would have more than 64 entries.
    TooManyEntries {
        /// How many it would have.
        entries: usize,
    },
}

impl fmt::Display for BuildError {
    fn fmt(&self, f: &mut fmt::Formatter<'_>) -> fmt::Result {
        match self {
            BuildError::OutOfRange {
                what,
                number,
                least,
                most,
            } => {
                write!(f, "{what} {number} is outside {least} to {most}")
            }
            BuildError::TooManyItems => {
                f.write_str("the register has 1,024 items, and no more are allowed")
            }
            BuildError::TooManyLinks => {
                f.write_str("the register has 2,048 links, and no more are allowed")
            }
            BuildError::NoSuchItem(item) => write!(f, "the register has no item {item} to link"),
            BuildError::LinkTwice {
                source,
                label,
                target,
            } => {
                write!(
                    f,
                    "the register has the link from {source} by label {label} to {target} already"
                )
            }
            BuildError::TooManyEntries { entries } => {
                write!(
                    f,
                    "the question would have {entries} entries, and 64 are allowed"
                )
            }
        }
    }
}

impl Error for BuildError {}
