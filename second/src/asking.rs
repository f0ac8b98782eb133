//! The cases of asking: questions sound and malformed, asked of registers, one line for each case.
//! Nine families, in this order: code, tail, literal, entries, bytes, nested, order, around, steps;
//! and asked, which goes by seed. An answer is one character, and several answers stand together
//! without a blank.

use crate::bytes::with_number;
use crate::families::BySeed;
use crate::generator::{small_register, Dice};
use crate::judging::{base_register, paired_register};
use crate::link::Link;
use crate::numbers::Item;
use crate::question::entry;
use crate::question_generator::damaged_question;
use crate::register::Register;
use crate::trial::Trial;

pub fn run(trial: &mut Trial) {
    codes(trial);
    tails(trial);
    literals(trial);
    entries(trial);
    bytes(trial);
    nested(trial);
    orders(trial);
    around(trial);
    steps(trial);
}

pub const ASKED: BySeed = BySeed {
    last: 2_000,
    line: asked,
};

/// A line: which case it is, and one answer.
fn asked_once(trial: &mut Trial, case: &str, register: &[u8], question: &[u8], item: usize) {
    trial.text(case);
    trial.ask_register(register, question, item..item + 1);
    trial.end_line();
}

/// Every pair of first and second byte, with no operand, with one and with two.
fn codes(trial: &mut Trial) {
    let base = base_register().write();
    for first in 0..=255 {
        for operands in 0..=2 {
            let behind = entry(1, 1).repeat(operands);
            let question = [&entry(first, 0)[..], &behind].concat();
            trial.text(&format!("code {first} {operands} "));
            trial.sweep(&base, &question, 1, 0);
            trial.end_line();
        }
    }
}

/// "Bytes three and four are 0", and what is said where they are not.
fn tails(trial: &mut Trial) {
    let base = base_register().write();
    for third in [0, 1, 255] {
        for fourth in [0, 1, 255] {
            let case = format!("tail {third} {fourth} ");
            asked_once(trial, &case, &base, &[0, 0, third, fourth], 0);
        }
    }
}

/// Every literal, at items with no mark, the lowest, the highest, all, and every other one.
fn literals(trial: &mut Trial) {
    let register = Register {
        marks: vec![
            0,
            1,
            2_147_483_648,
            4_294_967_295,
            1_431_655_765,
            2_863_311_530,
        ],
        links: vec![],
    };
    let file = register.write();
    for literal in 0..=255 {
        trial.text(&format!("literal {literal} "));
        trial.ask_register(&file, &entry(1, literal), 0..6);
        trial.end_line();
    }
}

/// "A question is 1 to 64 entries": none, a few, the most, and one more.
fn entries(trial: &mut Trial) {
    let base = base_register().write();
    for entries in [0, 1, 2, 63, 64, 65] {
        let case = format!("entries {entries} ");
        asked_once(trial, &case, &base, &nots_and_true(entries), 0);
    }
}

/// So many entries, each a not but the last, which is true.
fn nots_and_true(entries: usize) -> Vec<u8> {
    match entries {
        0 => vec![],
        _ => [entry(2, 0).repeat(entries - 1), entry(0, 0).to_vec()].concat(),
    }
}

/// A question of three entries cut at every place, whole, and with one byte too many.
fn bytes(trial: &mut Trial) {
    let base = base_register().write();
    let mut question = nots_and_true(3);
    question.push(0);
    for length in 0..=13 {
        let case = format!("bytes {length} ");
        asked_once(trial, &case, &base, &question[..length], 0);
    }
}

/// "Any depth is allowed": the deepest questions there are, on a register as large as any.
fn nested(trial: &mut Trial) {
    let file = paired_register(1_024, 2_048).write();
    for threshold in [1, 2] {
        let out_and_in = [entry(16, threshold), entry(32, threshold)];
        let nested = out_and_in.into_iter().cycle().take(63);
        let question: Vec<u8> = nested.flatten().chain(entry(0, 0)).collect();
        for item in [0, 1, 511, 1_023] {
            let case = format!("nested {threshold} {item} ");
            asked_once(trial, &case, &file, &question, item);
        }
    }
}

/// A fault in the register, in the question and in the item number, each with and without the
/// others: "ask a register 1, 2, 3, 5, 8".
fn orders(trial: &mut Trial) {
    for (f, register) in sound_and_faulty_files().iter().enumerate() {
        for (g, question) in [entry(0, 0), entry(5, 0)].iter().enumerate() {
            for (h, item) in [0, 3].into_iter().enumerate() {
                let case = format!("order {f} {g} {h} ");
                asked_once(trial, &case, register, question, item);
            }
        }
    }
}

/// The base register's file as it is, and with a fault that is refused 1, 2 and 3.
pub fn sound_and_faulty_files() -> [Vec<u8>; 4] {
    let base = base_register().write();
    [
        base.clone(),
        base[..41].to_vec(),
        with_number(&base, 0, 1_025),
        with_number(&base, 38, 16),
    ]
}

/// Every threshold, by every label and each way, at an item whose neighbours by label l number
/// one more than l mod 9.
fn around(trial: &mut Trial) {
    let file = wheel().write();
    for way in [16, 32] {
        for label in 0..16 {
            trial.text(&format!("around {way} {label} "));
            for threshold in 1..=8 {
                let question = [entry(way + label, threshold), entry(0, 0)].concat();
                trial.ask_register(&file, &question, 0..1);
            }
            trial.end_line();
        }
    }
}

/// At-leasts one inside the other, outgoing by label 0, around "has mark 32" and then around
/// "lacks mark 32": by turns at least 8 and at least 1 at the hub of a full register, by turns at
/// least 1 and at least 8 at the first and the last item around it.
fn steps(trial: &mut Trial) {
    let file = hub().write();
    for count in (0..13).chain(61..64) {
        let question = |turns: [u8; 2], literal| -> Vec<u8> {
            let nested = turns.map(|t| entry(16, t)).into_iter().cycle().take(count);
            nested.chain([entry(1, literal)]).flatten().collect()
        };
        trial.text(&format!("steps {count} "));
        for literal in [32, 224] {
            for (turns, item) in [([8, 1], 0), ([1, 8], 1), ([1, 8], 1_023)] {
                trial.ask_register(&file, &question(turns, literal), item..item + 1);
            }
        }
        trial.end_line();
    }
}

/// Item 0 with a link by label 0 to each of 1,023 others, and from each of them one back.
fn hub() -> Register {
    let link = |source, target| Link {
        source: Item(source),
        label: 0,
        target: Item(target),
    };
    let there = (1..1_024).map(|x| link(0, x));
    let back = (1..1_024).map(|x| link(x, 0));
    Register {
        marks: vec![0; 1_024],
        links: there.chain(back).collect(),
    }
}

/// Item 0 in the middle of nine others: by label l it has links to items 1 to 1 + l mod 9, and from
/// each of them one back.
fn wheel() -> Register {
    let spoke = |source, label, target| Link {
        source: Item(source),
        label,
        target: Item(target),
    };
    let reached = |label: usize, x: usize| x <= 1 + label % 9;
    let mut links = Vec::new();
    for label in 0..16 {
        links.extend(
            (1..10)
                .filter(|x| reached(label, *x))
                .map(|x| spoke(0, label, x)),
        );
    }
    for x in 1..10 {
        links.extend((0..16).filter(|l| reached(*l, x)).map(|l| spoke(x, l, 0)));
    }
    Register {
        marks: vec![0; 10],
        links,
    }
}

/// A small register and a question thrown after it with the same dice, asked at every item and at
/// the first number that is no item.
fn asked(trial: &mut Trial, seed: u64) {
    let dice = &mut Dice::of_seed(seed);
    let register = small_register(dice);
    let question = damaged_question(dice);
    let items = 0..register.marks.len() + 1;
    trial.text(&format!("asked {seed} "));
    trial.ask_register(&register.write(), &question, items);
    trial.end_line();
}
