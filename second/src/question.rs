//! Questions: 1 to 64 entries of four bytes, root first, each operator followed by its operands.
//! Reading gives the whole question as a tree, or refuses it as malformed.

use crate::link::{Direction, Way};
use crate::refusal::Refusal;

pub const ENTRY: usize = 4;
const MOST_ENTRIES: usize = 64;

pub enum Question {
    True,
    /// Mark `mark`, 1 to 32, is on the item, or is absent from it.
    Literal {
        mark: u32,
        present: bool,
    },
    Not(Box<Question>),
    And(Box<Question>, Box<Question>),
    Or(Box<Question>, Box<Question>),
    /// At least `threshold` neighbours by that way satisfy the operand.
    AtLeast {
        way: Way,
        threshold: usize,
        operand: Box<Question>,
    },
}

impl Question {
    pub fn read(bytes: &[u8]) -> Result<Question, Refusal> {
        if bytes.len() > MOST_ENTRIES * ENTRY {
            return Err(Refusal::QuestionForm);
        }
        let Some((question, [])) = first_question(bytes) else {
            return Err(Refusal::QuestionForm);
        };
        Ok(question)
    }

    /// "The depth of an at-least entry is one more than its operand's depth; literals and true
    /// have depth 0; the others have the greatest of their operands' depths."
    pub fn depth(&self) -> usize {
        match self {
            Question::True | Question::Literal { .. } => 0,
            Question::Not(operand) => operand.depth(),
            Question::And(one, other) | Question::Or(one, other) => one.depth().max(other.depth()),
            Question::AtLeast { operand, .. } => 1 + operand.depth(),
        }
    }

    /// The greatest threshold of any entry, in whatever branch; 0 where there is none.
    pub fn greatest_threshold(&self) -> usize {
        match self {
            Question::True | Question::Literal { .. } => 0,
            Question::Not(operand) => operand.greatest_threshold(),
            Question::And(one, other) | Question::Or(one, other) => {
                one.greatest_threshold().max(other.greatest_threshold())
            }
            Question::AtLeast {
                threshold, operand, ..
            } => operand.greatest_threshold().max(*threshold),
        }
    }
}

/// An entry of these first two bytes; "bytes three and four are 0".
pub fn entry(first: u8, second: u8) -> [u8; ENTRY] {
    [first, second, 0, 0]
}

/// The question that the bytes begin with, and the bytes behind it; none where an entry is
/// malformed, cut short or missing.
fn first_question(bytes: &[u8]) -> Option<(Question, &[u8])> {
    let ([first, second, 0, 0], rest) = bytes.split_first_chunk::<ENTRY>()? else {
        return None;
    };
    match (*first, *second) {
        (0, 0) => Some((Question::True, rest)),
        (1, k) => Some((literal(k as i8)?, rest)),
        (2, 0) => {
            let (operand, rest) = first_question(rest)?;
            Some((Question::Not(Box::new(operand)), rest))
        }
        (3, 0) => {
            let (one, other, rest) = two_questions(rest)?;
            Some((Question::And(one, other), rest))
        }
        (4, 0) => {
            let (one, other, rest) = two_questions(rest)?;
            Some((Question::Or(one, other), rest))
        }
        (16..=31, 1..=8) => at_least(Direction::Out, *first - 16, *second, rest),
        (32..=47, 1..=8) => at_least(Direction::In, *first - 32, *second, rest),
        _ => None,
    }
}

/// "k means mark k is on the item, −k that it is absent; k is 1 to 32."
fn literal(k: i8) -> Option<Question> {
    let mark = u32::from(k.unsigned_abs());
    let present = k > 0;
    (1..=32)
        .contains(&mark)
        .then_some(Question::Literal { mark, present })
}

type Two<'a> = (Box<Question>, Box<Question>, &'a [u8]);

fn two_questions(bytes: &[u8]) -> Option<Two<'_>> {
    let (one, rest) = first_question(bytes)?;
    let (other, rest) = first_question(rest)?;
    Some((Box::new(one), Box::new(other), rest))
}

fn at_least(
    direction: Direction,
    label: u8,
    threshold: u8,
    rest: &[u8],
) -> Option<(Question, &[u8])> {
    let (operand, rest) = first_question(rest)?;
    let question = Question::AtLeast {
        way: Way::new(direction, usize::from(label)),
        threshold: usize::from(threshold),
        operand: Box::new(operand),
    };
    Some((question, rest))
}
