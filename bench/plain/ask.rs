//! Asking a register (1, 2, 3, 5, 8), asking a summary (6, 5, 7, 8) and listing from one (6, 5, 7, 9).

use super::ground::{holds, holds_at};
use super::items::Items;
use super::question::Question;
use super::register::Register;
use super::summary::Summary;

pub fn ask_register(reg: &[u8], q: &[u8], item: u16) -> i32 {
    let register = match Register::judged(reg) {
        Ok(register) => register,
        Err(refusal) => return -refusal,
    };
    let Some(question) = Question::judged(q) else {
        return -5;
    };
    if usize::from(item) >= register.marks.len() {
        return -8;
    }
    i32::from(holds(&Items::of(register), &question, usize::from(item)))
}

pub fn ask_summary(sum: &[u8], q: &[u8], item: u16) -> i32 {
    let (summary, question) = match readied(sum, q) {
        Ok(readied) => readied,
        Err(refusal) => return -refusal,
    };
    let Some(class) = summary.map.get(usize::from(item)) else {
        return -8;
    };
    let class = usize::from(u16::from_be_bytes(*class));
    i32::from(holds(&summary, &question, class))
}

pub fn list(sum: &[u8], q: &[u8], out: &mut [u8]) -> i32 {
    let (summary, question) = match readied(sum, q) {
        Ok(readied) => readied,
        Err(refusal) => return -refusal,
    };
    let holds = holds_at(&summary, &question);
    let (mut items, mut count) = ([[0; 2]; 1_024], 0);
    for (x, class) in summary.map.iter().enumerate() {
        items[count] = (x as u16).to_be_bytes();
        count += usize::from(holds[usize::from(u16::from_be_bytes(*class))]);
    }
    let Some(out) = out.get_mut(..2 * count) else {
        return -9;
    };
    out.copy_from_slice(items[..count].as_flattened());
    2 * count as i32
}

/// 6, 5 and 7.
fn readied<'a>(sum: &'a [u8], q: &[u8]) -> Result<(Summary<'a>, Question), i32> {
    let summary = Summary::judged(sum, |_, _| ()).ok_or(6)?;
    let question = Question::judged(q).ok_or(5)?;
    let (depth, threshold) = (u16::from(question.depth), u16::from(question.threshold));
    if depth > summary.level || threshold > summary.near_cap + 1 {
        return Err(7);
    }
    Ok((summary, question))
}
