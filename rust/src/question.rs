//! A builder of questions. Each step makes a whole question out of whole questions, so that there
//! is never a malformed one.

use crate::bounded::{Direction, Label, Mark, Threshold};
use crate::build_error::BuildError;

/// A question has no more entries.
const ENTRIES_MOST: usize = 64;

/// The bytes of an entry.
const ENTRY: usize = 4;

/// A question: what is to be true at an item. It has 1 to 64 entries, and no call refuses its bytes
/// with 5.
///
/// A summary answers it when it is nested no deeper than the summary's level and has no threshold
/// above its neighbour cap plus one; beyond that it is refused with 7. A register answers every
/// question.
///
/// "Hoists over a failed hook", in four entries:
///
/// ```
/// use hestovane::{Direction, Label, Mark, Question, Threshold};
///
/// const HOIST: Mark = Mark::of(1);
/// const FAILED: Mark = Mark::of(4);
/// const CARRIES: Label = Label::of(0);
///
/// let (one, failed) = (Threshold::of(1), Question::has(FAILED));
/// let carries_failed = Question::at_least(one, Direction::Out, CARRIES, failed)?;
/// let question = Question::has(HOIST).and(carries_failed)?;
/// assert_eq!(question.as_bytes(), [3, 0, 0, 0, 1, 1, 0, 0, 16, 1, 0, 0, 1, 4, 0, 0]);
/// # Ok::<(), hestovane::BuildError>(())
/// ```
///
/// One entry too many is refused when it is built:
///
/// ```
/// # use hestovane::{BuildError, Question};
/// let mut question = Question::always();
/// for _ in 1..64 {
///     question = Question::not(question)?;
/// }
/// assert_eq!(Question::not(question), Err(BuildError::TooManyEntries { entries: 65 }));
/// # Ok::<(), BuildError>(())
/// ```
#[derive(Clone, PartialEq, Eq, Hash, Debug)]
pub struct Question {
    /// Root first, each operator followed by its operands.
    bytes: Vec<u8>,
}

impl Question {
    /// True, at every item.
    pub fn always() -> Question {
        Question::entry(0, 0)
    }

    /// The mark is on the item.
    pub fn has(mark: Mark) -> Question {
        Question::entry(1, mark.number())
    }

    /// The mark is absent from the item. That does not say that any other is there: lacking
    /// "failed" is not having "passed".
    pub fn lacks(mark: Mark) -> Question {
        Question::entry(1, mark.number().wrapping_neg())
    }

    /// The operand does not hold.
    ///
    /// # Errors
    ///
    /// [`BuildError::TooManyEntries`] beyond 64 entries.
    // Document 01's word; the trait of that name cannot fail.
    #[allow(clippy::should_implement_trait)]
    pub fn not(operand: Question) -> Result<Question, BuildError> {
        Question::entry(2, 0).followed_by(&[operand])
    }

    /// Both hold.
    ///
    /// # Errors
    ///
    /// [`BuildError::TooManyEntries`] beyond 64 entries.
    pub fn and(self, other: Question) -> Result<Question, BuildError> {
        Question::entry(3, 0).followed_by(&[self, other])
    }

    /// One of the two holds, or both.
    ///
    /// # Errors
    ///
    /// [`BuildError::TooManyEntries`] beyond 64 entries.
    pub fn or(self, other: Question) -> Result<Question, BuildError> {
        Question::entry(4, 0).followed_by(&[self, other])
    }

    /// The operand holds at so many of the item's neighbours, in that direction and by that label,
    /// or at more.
    ///
    /// # Errors
    ///
    /// [`BuildError::TooManyEntries`] beyond 64 entries.
    pub fn at_least(
        threshold: Threshold,
        direction: Direction,
        label: Label,
        operand: Question,
    ) -> Result<Question, BuildError> {
        let first = match direction {
            Direction::Out => 16,
            Direction::In => 32,
        };
        Question::entry(first + label.number(), threshold.number()).followed_by(&[operand])
    }

    /// The question's file.
    pub fn as_bytes(&self) -> &[u8] {
        &self.bytes
    }

    fn entry(first: u8, second: u8) -> Question {
        Question {
            bytes: vec![first, second, 0, 0],
        }
    }

    /// The operator with its operands behind it.
    fn followed_by(mut self, operands: &[Question]) -> Result<Question, BuildError> {
        for operand in operands {
            self.bytes.extend(operand.as_bytes());
        }
        let entries = self.bytes.len() / ENTRY;
        if entries > ENTRIES_MOST {
            return Err(BuildError::TooManyEntries { entries });
        }
        Ok(self)
    }
}
