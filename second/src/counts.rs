//! The counts of `five`: how its cases were answered, and how many of them have two faults at once,
//! so that the order of refusals shows. Printed by `second counts` as two tables of plain text.
//!
//! Answers. One row for each call: how many cases were answered with a length, with yes and with
//! no, and how many were refused with each number, 1 to 9; a dash where there are none.
//!
//! Two faults. For each call, each two faults of its order that can meet, in that order, and how
//! many cases have both. Each fault is judged by itself, whatever else is wrong:
//!   under 12   REG has fewer than 12 bytes.
//!   2          REG's item count field is more than 1,024 or its link count field more than 2,048;
//!              a field that REG does not reach to the end of is neither.
//!   rest of 1  REG has 12 bytes or more, and its offsets, total, zero field or length are not
//!              those that its item count and link count fields, whatever they are, ask for.
//!   3          REG has 12 bytes or more, and of the links that its header tells of (the link count
//!              field says how many, the offset of links where), as far as REG has them whole, one
//!              has an item that is not below the item count field, a label above 15, or does not
//!              come strictly behind the one before it.
//!   4          level and caps of the call are not in range.
//!   5          the question is malformed.
//!   6          SUM5 is not well formed.
//!   7          the question is not malformed, and it is deeper than SUM5's level field says or has
//!              a threshold above its neighbour cap field plus one; a field that SUM5 does not
//!              reach to the end of sets no bound.
//!   8          the item is not below the item count field, which is REG's where a register is
//!              asked and SUM5's where a summary is; not judged where the file does not reach so
//!              far.
//!   9          what is written is not known where there is another fault. So for condensing: the
//!              room is less than 24 bytes, in which no summary fits. For listing: there is no room
//!              at all.
//! Under 12 meets neither the rest of 1 nor 3, which need a whole header; 5 does not meet 7.

use crate::bytes::two_at;
use crate::caps;
use crate::five::FIVE;
use crate::five_generator::Inputs;
use crate::question::Question;
use crate::refusal::Refusal;
use crate::register::{self, form_is_right, links_are_sound, links_from, MOST_ITEMS, MOST_LINKS};
use crate::summary::{self, Summary};
use std::io::{self, Write};

#[derive(Clone, Copy, PartialEq, Eq)]
pub enum Fault {
    Under12,
    Limits,
    RestOf1,
    Links,
    LevelOrCaps,
    QuestionForm,
    SummaryForm,
    Reach,
    ItemOfRegister,
    ItemOfSummary,
    SummaryRoom,
    ListRoom,
}

const FAULTS: [Fault; 12] = [
    Fault::Under12,
    Fault::Limits,
    Fault::RestOf1,
    Fault::Links,
    Fault::LevelOrCaps,
    Fault::QuestionForm,
    Fault::SummaryForm,
    Fault::Reach,
    Fault::ItemOfRegister,
    Fault::ItemOfSummary,
    Fault::SummaryRoom,
    Fault::ListRoom,
];

pub struct Call {
    pub name: &'static str,
    /// What its answer is counted as.
    pub answer: fn(&Inputs) -> Column,
    /// What it refuses for, in its order.
    pub order: &'static [Fault],
}

/// A column of the first table, by its number.
type Column = usize;

pub const COLUMNS: [&str; 12] = [
    "length", "yes", "no", "1", "2", "3", "4", "5", "6", "7", "8", "9",
];

fn length_or_number(answer: Result<Vec<u8>, Refusal>) -> Column {
    answer.map_or_else(refused, |_| 0)
}

fn yes_no_or_number(answer: Result<bool, Refusal>) -> Column {
    answer.map_or_else(refused, |holds| if holds { 1 } else { 2 })
}

/// Number 1 stands right behind `no`.
fn refused(refusal: Refusal) -> Column {
    2 + usize::from(refusal.number())
}

/// "Register checks: under 12 bytes (1), then 2, then the rest of 1, then 3. Orders: condense 1, 2,
/// 3 as above, 4, 9; check 1, 2, 3, 6; ask a register 1, 2, 3, 5, 8; ask a summary 6, 5, 7, 8; list
/// from a summary 6, 5, 7, 9."
pub const CALLS: [Call; 5] = [
    Call {
        name: "condense",
        answer: |inputs| length_or_number(inputs.condense()),
        order: &[
            Fault::Under12,
            Fault::Limits,
            Fault::RestOf1,
            Fault::Links,
            Fault::LevelOrCaps,
            Fault::SummaryRoom,
        ],
    },
    Call {
        name: "check",
        answer: |inputs| yes_no_or_number(inputs.check()),
        order: &[
            Fault::Under12,
            Fault::Limits,
            Fault::RestOf1,
            Fault::Links,
            Fault::SummaryForm,
        ],
    },
    Call {
        name: "ask a register",
        answer: |inputs| yes_no_or_number(inputs.ask_register()),
        order: &[
            Fault::Under12,
            Fault::Limits,
            Fault::RestOf1,
            Fault::Links,
            Fault::QuestionForm,
            Fault::ItemOfRegister,
        ],
    },
    Call {
        name: "ask a summary",
        answer: |inputs| yes_no_or_number(inputs.ask_summary()),
        order: &[
            Fault::SummaryForm,
            Fault::QuestionForm,
            Fault::Reach,
            Fault::ItemOfSummary,
        ],
    },
    Call {
        name: "list",
        answer: |inputs| length_or_number(inputs.list()),
        order: &[
            Fault::SummaryForm,
            Fault::QuestionForm,
            Fault::Reach,
            Fault::ListRoom,
        ],
    },
];

impl Fault {
    pub fn name(self) -> &'static str {
        match self {
            Fault::Under12 => "under 12",
            Fault::Limits => "2",
            Fault::RestOf1 => "rest of 1",
            Fault::Links => "3",
            Fault::LevelOrCaps => "4",
            Fault::QuestionForm => "5",
            Fault::SummaryForm => "6",
            Fault::Reach => "7",
            Fault::ItemOfRegister | Fault::ItemOfSummary => "8",
            Fault::SummaryRoom | Fault::ListRoom => "9",
        }
    }

    fn can_meet(self, other: Fault) -> bool {
        !matches!(
            (self, other),
            (Fault::Under12, Fault::RestOf1 | Fault::Links) | (Fault::QuestionForm, Fault::Reach)
        )
    }

    fn is_in(self, inputs: &Inputs) -> bool {
        let (register, summary) = (&inputs.register, &inputs.summary);
        match self {
            Fault::Under12 => register.len() < register::HEADER,
            Fault::Limits => limits_are_passed(register),
            Fault::RestOf1 => form_is_wrong(register),
            Fault::Links => links_are_faulty(register),
            Fault::LevelOrCaps => {
                let (level, neighbour_cap, class_cap) = inputs.level_and_caps;
                !caps::in_range(level, neighbour_cap, class_cap)
            }
            Fault::QuestionForm => Question::read(&inputs.question).is_err(),
            Fault::SummaryForm => Summary::read(summary).is_err(),
            Fault::Reach => is_out_of_reach(&inputs.question, summary),
            Fault::ItemOfRegister => field(register, 0).is_some_and(|n| inputs.item.0 >= n),
            Fault::ItemOfSummary => field(summary, 14).is_some_and(|n| inputs.item.0 >= n),
            Fault::SummaryRoom => inputs.summary_room < summary::HEADER,
            Fault::ListRoom => inputs.list_room == 0,
        }
    }
}

/// The two-byte number at a place, if the file reaches to its end.
fn field(file: &[u8], at: usize) -> Option<usize> {
    (at + 2 <= file.len()).then(|| two_at(file, at))
}

fn limits_are_passed(register: &[u8]) -> bool {
    field(register, 0).is_some_and(|n| n > MOST_ITEMS)
        || field(register, 2).is_some_and(|m| m > MOST_LINKS)
}

fn form_is_wrong(register: &[u8]) -> bool {
    register.len() >= register::HEADER
        && !form_is_right(register, two_at(register, 0), two_at(register, 2))
}

fn links_are_faulty(register: &[u8]) -> bool {
    register.len() >= register::HEADER && {
        let [n, m, start] = [0, 2, 6].map(|at| two_at(register, at));
        !links_are_sound(&links_from(register, start, m), n)
    }
}

fn is_out_of_reach(question: &[u8], summary: &[u8]) -> bool {
    Question::read(question).is_ok_and(|question| {
        field(summary, 0).is_some_and(|level| question.depth() > level)
            || field(summary, 2).is_some_and(|cap| question.greatest_threshold() > cap + 1)
    })
}

/// One set of inputs, and the faults that are in it.
pub struct Case {
    pub inputs: Inputs,
    pub faults: Vec<Fault>,
}

pub fn cases() -> Vec<Case> {
    let case = |seed| {
        let inputs = Inputs::of_seed(seed);
        let faults = FAULTS.into_iter().filter(|fault| fault.is_in(&inputs));
        let faults = faults.collect();
        Case { inputs, faults }
    };
    (1..=FIVE.last).map(case).collect()
}

impl Call {
    /// How many of the cases are counted in each column.
    pub fn answers(&self, cases: &[Case]) -> [usize; COLUMNS.len()] {
        let mut counts = [0; COLUMNS.len()];
        for case in cases {
            counts[(self.answer)(&case.inputs)] += 1;
        }
        counts
    }

    /// Each two faults that can meet, and how many of the cases have both.
    pub fn pairs(&self, cases: &[Case]) -> Vec<(Fault, Fault, usize)> {
        let mut pairs = Vec::new();
        for (rank, first) in self.order.iter().enumerate() {
            let behind = self.order[rank + 1..].iter();
            for second in behind.filter(|second| first.can_meet(**second)) {
                let both = |case: &&Case| [first, second].iter().all(|f| case.faults.contains(f));
                pairs.push((*first, *second, cases.iter().filter(both).count()));
            }
        }
        pairs
    }
}

pub fn print(out: &mut impl Write) -> io::Result<()> {
    let cases = cases();
    print_answers(&cases, out)?;
    writeln!(out)?;
    print_pairs(&cases, out)
}

fn print_answers(cases: &[Case], out: &mut impl Write) -> io::Result<()> {
    print_row("answers", COLUMNS.map(str::to_string), out)?;
    for call in CALLS {
        let cells = call.answers(cases).map(|count| match count {
            0 => "-".to_string(),
            _ => count.to_string(),
        });
        print_row(call.name, cells, out)?;
    }
    Ok(())
}

fn print_row<const CELLS: usize>(
    name: &str,
    cells: [String; CELLS],
    out: &mut impl Write,
) -> io::Result<()> {
    write!(out, "{name:14}")?;
    for cell in cells {
        write!(out, " {cell:>6}")?;
    }
    writeln!(out)
}

fn print_pairs(cases: &[Case], out: &mut impl Write) -> io::Result<()> {
    writeln!(
        out,
        "{:14} {:>9}   {:9} {:>6}",
        "two faults", "first", "second", "cases"
    )?;
    for call in CALLS {
        for (first, second, count) in call.pairs(cases) {
            let (first, second) = (first.name(), second.name());
            writeln!(out, "{:14} {first:>9}   {second:9} {count:>6}", call.name)?;
        }
    }
    Ok(())
}
