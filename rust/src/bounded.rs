//! The numbers that have a range: level, caps, labels, marks and thresholds. Each is a type of its
//! own that cannot be out of it.

use crate::build_error::BuildError;
use std::fmt;

macro_rules! bounded {
    ($(#[$about:meta])* $name:ident, $what:literal, $least:literal to $most:literal) => {
        $(#[$about])*
        #[derive(Clone, Copy, PartialEq, Eq, PartialOrd, Ord, Hash, Debug)]
        pub struct $name(u8);

        impl $name {
            #[doc = concat!("The ", $what, " of a number that comes from outside.")]
            ///
            /// # Errors
            ///
            /// [`BuildError::OutOfRange`], which names the range.
            pub const fn new(number: u32) -> Result<$name, BuildError> {
                match number {
                    $least..=$most => Ok($name(number as u8)),
                    _ => Err(BuildError::OutOfRange {
                        what: $what,
                        number,
                        least: $least,
                        most: $most,
                    }),
                }
            }

            #[doc = concat!("The ", $what, " of a number that stands in the program's text. ")]
            /// In a `const`, one out of range does not compile.
            ///
            /// # Panics
            ///
            /// Where the number is out of range.
            pub const fn of(number: u32) -> $name {
                let Ok(within) = $name::new(number) else {
                    panic!(concat!("this ", $what, " is outside ", $least, " to ", $most));
                };
                within
            }

            /// The number.
            pub const fn number(self) -> u8 {
                self.0
            }
        }

        impl fmt::Display for $name {
            fn fmt(&self, f: &mut fmt::Formatter<'_>) -> fmt::Result {
                self.0.fmt(f)
            }
        }
    };
}

bounded! {
    /// How many links out two items have to look alike to fall into one class: document 01's i, 1
    /// to 4. A question can be put to a summary when it is nested no deeper.
    ///
    /// ```
    /// use hestovane::Level;
    ///
    /// const DEEP: Level = Level::of(3);
    /// assert!(Level::new(0).is_err() && Level::new(5).is_err());
    /// ```
    Level, "level", 1 to 4
}

bounded! {
    /// The number up to which neighbours are counted: document 01's µ, 1 to 7. A question can be
    /// put to a summary when its thresholds are no more than one above.
    NeighbourCap, "neighbour cap", 1 to 7
}

bounded! {
    /// The number up to which the items of a class are counted: document 01's ν, 1 to 15.
    ClassCap, "class cap", 1 to 15
}

bounded! {
    /// What a link says of its two items, 0 to 15.
    Label, "label", 0 to 15
}

bounded! {
    /// One of the marks that an item can have, 1 to 32. Which is the hoist's and which says failed,
    /// the site decides.
    ///
    /// ```
    /// use hestovane::Mark;
    ///
    /// const FAILED: Mark = Mark::of(4);
    /// assert_eq!(Mark::new(33).unwrap_err().to_string(), "mark 33 is outside 1 to 32");
    /// ```
    ///
    /// ```compile_fail
    /// # use hestovane::Mark;
    /// const SCRAPPED: Mark = Mark::of(33);
    /// # let _ = SCRAPPED;
    /// ```
    Mark, "mark", 1 to 32
}

bounded! {
    /// How many neighbours an at-least asks for, 1 to 8.
    Threshold, "threshold", 1 to 8
}

/// Which way neighbours are looked for: along the links that leave an item, or against those that
/// come in.
#[derive(Clone, Copy, PartialEq, Eq, PartialOrd, Ord, Hash, Debug)]
pub enum Direction {
    /// A link's target is an outgoing neighbour of its source.
    Out,
    /// A link's source is an incoming neighbour of its target.
    In,
}
