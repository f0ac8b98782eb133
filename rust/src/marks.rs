//! The marks of one item, or of every item of a class: a set of the numbers 1 to 32, kept as the
//! four bytes of a file.

use crate::bounded::Mark;
use std::fmt;

/// A set of marks. A mark that is not in it is absent, and that says nothing of any other mark:
/// **lacking "failed" is not having "passed".**
///
/// ```
/// use hestovane::{Mark, Marks};
///
/// const HOOK: Mark = Mark::of(2);
/// const PASSED: Mark = Mark::of(3);
/// const FAILED: Mark = Mark::of(4);
///
/// let unchecked: Marks = [HOOK].into_iter().collect();
/// assert!(!unchecked.has(FAILED) && !unchecked.has(PASSED));
/// assert_eq!(unchecked.with(FAILED).bits(), 10);
/// ```
#[derive(Clone, Copy, PartialEq, Eq, Hash, Default)]
pub struct Marks(u32);

impl Marks {
    /// The marks of a file's four bytes: mark k is the bit worth 2^(k − 1). Every number is a set
    /// of marks.
    pub const fn from_bits(bits: u32) -> Marks {
        Marks(bits)
    }

    /// The number of a file's four bytes.
    pub const fn bits(self) -> u32 {
        self.0
    }

    /// Whether the mark is among them.
    pub const fn has(self, mark: Mark) -> bool {
        self.0 & bit(mark) != 0
    }

    /// These marks and one more.
    #[must_use]
    pub const fn with(self, mark: Mark) -> Marks {
        Marks(self.0 | bit(mark))
    }

    /// The marks, ascending.
    pub fn iter(self) -> impl Iterator<Item = Mark> {
        (1..=32).map(Mark::of).filter(move |mark| self.has(*mark))
    }
}

const fn bit(mark: Mark) -> u32 {
    1 << (mark.number() - 1)
}

impl FromIterator<Mark> for Marks {
    fn from_iter<T: IntoIterator<Item = Mark>>(marks: T) -> Marks {
        marks.into_iter().fold(Marks::default(), Marks::with)
    }
}

impl fmt::Debug for Marks {
    fn fmt(&self, f: &mut fmt::Formatter<'_>) -> fmt::Result {
        f.debug_set()
            .entries(self.iter().map(Mark::number))
            .finish()
    }
}
