//! The ten cells of a shape: what is called, and on what.

use crate::agreement::{Agreement, ROOM};
use crate::calls::Call;
use crate::damage::two;
use crate::questions::questions;
use crate::shapes::Shape;

pub const CELLS: [&str; 10] = [
    "condense 1",
    "condense 4",
    "check",
    "reg 1",
    "reg 3",
    "reg 63",
    "sum 1",
    "sum 3",
    "list 1",
    "list 3",
];

/// The caps of every summary here.
const MU: u16 = 3;
const NU: u16 = 7;

/// So many items of a shape are asked at, with two questions each; by so many of these questions is listed.
const ASKED: usize = 8;
const LISTED: usize = 4;

/// An item, and a question that leads from it.
type Asked = (u16, Vec<u8>);

/// What the calls of a shape read: its register, the summary of level 4, and for the depths 1, 3 and 63 the questions that
/// lead from each item asked at.
pub struct Inputs {
    reg: Vec<u8>,
    sum: Vec<u8>,
    questions: [Vec<Asked>; 3],
}

impl Inputs {
    pub fn of(shape: &Shape, agreement: &mut Agreement) -> Inputs {
        let reg = shape.register.clone();
        let n = two(&reg, 0);
        let (length, mut sum) = agreement.hold(&condense(4, &reg), ROOM);
        sum.truncate(length as usize);
        let asked = |depth: usize| {
            let items = (0..ASKED).map(|k| k * 193 % n);
            let each = |item: usize| {
                let steps = (shape.steps)(shape, item, depth);
                questions(&steps, depth).map(|q| (item as u16, q))
            };
            items.flat_map(each).collect()
        };
        Inputs {
            questions: [1, 3, 63].map(asked),
            reg,
            sum,
        }
    }

    /// The calls of each cell, in the order of the cells.
    pub fn cells(&self) -> [Vec<Call<'_>>; 10] {
        let Inputs {
            reg,
            sum,
            questions,
        } = self;
        let [one, three, many] = questions;
        [
            vec![condense(1, reg)],
            vec![condense(4, reg)],
            vec![Call::Check { reg, sum }],
            ask_register(reg, one),
            ask_register(reg, three),
            ask_register(reg, many),
            ask_summary(sum, one),
            ask_summary(sum, three),
            list(sum, one),
            list(sum, three),
        ]
    }
}

fn condense(i: u16, reg: &[u8]) -> Call<'_> {
    let (mu, nu) = (MU, NU);
    Call::Condense { i, mu, nu, reg }
}

fn ask_register<'a>(reg: &'a [u8], asked: &'a [Asked]) -> Vec<Call<'a>> {
    let call = |(item, q): &'a Asked| Call::AskRegister {
        reg,
        q,
        item: *item,
    };
    asked.iter().map(call).collect()
}

fn ask_summary<'a>(sum: &'a [u8], asked: &'a [Asked]) -> Vec<Call<'a>> {
    let call = |(item, q): &'a Asked| Call::AskSummary {
        sum,
        q,
        item: *item,
    };
    asked.iter().map(call).collect()
}

fn list<'a>(sum: &'a [u8], asked: &'a [Asked]) -> Vec<Call<'a>> {
    let call = |(_, q): &'a Asked| Call::List { sum, q };
    asked.iter().take(LISTED).map(call).collect()
}
