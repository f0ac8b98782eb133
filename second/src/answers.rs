//! Answers: a question asked at an item of a register or of a summary, and the list of items
//! where it holds, from the summary alone. Each entry is worked out once, everywhere at a time.

use crate::bytes::two_bytes;
use crate::link::Way;
use crate::numbers::{Class, Group, Item};
use crate::question::Question;
use crate::refusal::Refusal;
use crate::register::Register;
use crate::summary::Summary;

/// Yes or no; refusals in the order 1, 2, 3, 5, 8.
pub fn ask_register(register: &[u8], question: &[u8], item: Item) -> Result<bool, Refusal> {
    let register = Register::read(register)?;
    let question = Question::read(question)?;
    let answers = at_items(&question, &register);
    answers.get(item.0).copied().ok_or(Refusal::ItemNumber)
}

/// Yes or no; refusals in the order 6, 5, 7, 8.
pub fn ask_summary(summary: &[u8], question: &[u8], item: Item) -> Result<bool, Refusal> {
    let summary = Summary::read(summary)?;
    let question = question_within_reach(question, &summary)?;
    let class = summary.map.get(item.0).ok_or(Refusal::ItemNumber)?;
    Ok(at_classes(&question, &summary)[class.0])
}

/// The items where the question holds, ascending, "two bytes an item"; refusals in the order 6, 5,
/// 7, 9. `room` is the length of the output buffer.
pub fn list_from_summary(summary: &[u8], question: &[u8], room: usize) -> Result<Vec<u8>, Refusal> {
    let summary = Summary::read(summary)?;
    let question = question_within_reach(question, &summary)?;
    let answers = at_classes(&question, &summary);
    let mut list = Vec::new();
    for item in summary.items() {
        if answers[summary.map[item.0].0] {
            list.extend(two_bytes(item.0));
        }
    }
    if room < list.len() {
        return Err(Refusal::Room);
    }
    Ok(list)
}

/// Refused 5 where malformed, and 7 where "deeper than i, or a threshold above µ + 1".
fn question_within_reach(question: &[u8], summary: &Summary) -> Result<Question, Refusal> {
    let question = Question::read(question)?;
    let too_deep = question.depth() > summary.level;
    if too_deep || question.greatest_threshold() > summary.neighbour_cap + 1 {
        return Err(Refusal::QuestionReach);
    }
    Ok(question)
}

/// Whether the question holds, for every item of a register.
fn at_items(question: &Question, register: &Register) -> Vec<bool> {
    everywhere(question, &register.marks, &|way, operand| {
        neighbours_at_items(register, way, operand)
    })
}

/// Whether the question holds, for every class of a summary.
fn at_classes(question: &Question, summary: &Summary) -> Vec<bool> {
    let marks: Vec<u32> = summary.classes.iter().map(|class| class.marks).collect();
    everywhere(question, &marks, &|way, operand| {
        neighbours_at_classes(summary, way, operand)
    })
}

/// Whether the question holds at each of the places whose marks are given; `count` gives, for each
/// place, its number of neighbours by a way where the operand holds.
fn everywhere(
    question: &Question,
    marks: &[u32],
    count: &dyn Fn(Way, &[bool]) -> Vec<usize>,
) -> Vec<bool> {
    let both = |one: &Question, other: &Question| {
        let one = everywhere(one, marks, count);
        one.into_iter().zip(everywhere(other, marks, count))
    };
    match question {
        Question::True => vec![true; marks.len()],
        Question::Literal { mark, present } => {
            let holds = |marks: &u32| is_on(*mark, *marks) == *present;
            marks.iter().map(holds).collect()
        }
        Question::Not(operand) => {
            let operand = everywhere(operand, marks, count);
            operand.into_iter().map(|holds| !holds).collect()
        }
        Question::And(one, other) => both(one, other).map(|(a, b)| a && b).collect(),
        Question::Or(one, other) => both(one, other).map(|(a, b)| a || b).collect(),
        Question::AtLeast {
            way,
            threshold,
            operand,
        } => {
            let operand = everywhere(operand, marks, count);
            let counts = count(*way, &operand);
            counts.iter().map(|count| count >= threshold).collect()
        }
    }
}

/// "Mark k, 1 to 32, is the bit worth 2^(k−1)."
fn is_on(mark: u32, marks: u32) -> bool {
    marks & (1 << (mark - 1)) != 0
}

/// "On a register, neighbours are counted exactly."
fn neighbours_at_items(register: &Register, asked: Way, operand: &[bool]) -> Vec<usize> {
    let mut counts = vec![0; register.marks.len()];
    for link in &register.links {
        for (way, here, neighbour) in link.both_ways() {
            if way == asked && operand[neighbour.0] {
                counts[here.0] += 1;
            }
        }
    }
    counts
}

/// "The count is the sum of the class's rows in that direction and label over the groups where the
/// operand holds." The sum is plain: with thresholds up to µ + 1, capping it would change nothing.
fn neighbours_at_classes(summary: &Summary, asked: Way, operand: &[bool]) -> Vec<usize> {
    let mut counts = vec![0; summary.classes.len()];
    let lowest = lowest_classes(summary);
    for row in &summary.rows {
        if row.way == asked && operand[lowest[row.group.0].0] {
            counts[row.class.0] += row.count;
        }
    }
    counts
}

/// "An operand holds at a group when it holds at the group's lowest-numbered class": that class,
/// for each group. Going down through the classes, the lowest is the last to enter itself.
fn lowest_classes(summary: &Summary) -> Vec<Class> {
    let mut lowest = vec![Class(0); summary.group_count];
    for (number, class) in summary.classes.iter().enumerate().rev() {
        let Group(group) = class.group;
        lowest[group] = Class(number);
    }
    lowest
}
