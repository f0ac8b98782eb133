//! The cases of judging: registers sound and faulty, with one line for each verdict.
//! Three families, in this order: length, limit, faults; and seeded, which goes by seed.

use crate::bytes::{two_bytes, two_bytes_each};
use crate::families::BySeed;
use crate::generator::{damage, seeded_register, Dice};
use crate::link::Link;
use crate::numbers::Item;
use crate::register::Register;
use crate::trial::Trial;

pub fn run(trial: &mut Trial) {
    lengths(trial);
    limits(trial);
    faults(trial);
}

pub const SEEDED: BySeed = BySeed {
    last: 3_000,
    line: seeded,
};

/// A line: which case it is, and the verdict.
fn judged(trial: &mut Trial, case: &str, register: &[u8]) {
    trial.text(case);
    trial.judge(register);
    trial.end_line();
}

/// The first bytes of a header and one zero byte: too few, just enough, one too many.
fn lengths(trial: &mut Trial) {
    for (which, (n, m)) in [(0, 0), (1_025, 0), (0, 2_049)].into_iter().enumerate() {
        let mut bytes = two_bytes_each(&[n, m, 12, 12, 12, 0]);
        bytes.push(0);
        for length in 0..=13 {
            let case = format!("length {which} {length} ");
            judged(trial, &case, &bytes[..length]);
        }
    }
}

/// Exact files at the limits and one past them.
fn limits(trial: &mut Trial) {
    for n in [0, 1, 1_024, 1_025] {
        for m in [0, 1, 2_048, 2_049] {
            let register = paired_register(n, m).write();
            judged(trial, &format!("limit {n} {m} "), &register);
        }
    }
}

/// Marks of item x are x; link k goes from item k / 2 by label 0 to item k mod 2.
pub fn paired_register(n: u32, m: usize) -> Register {
    let link = |k| Link {
        source: Item(k / 2),
        label: 0,
        target: Item(k % 2),
    };
    Register {
        marks: (0..n).collect(),
        links: (0..m).map(link).collect(),
    }
}

/// A small sound file with each fault, and with each pair of faults.
fn faults(trial: &mut Trial) {
    for (a, one) in FAULTS.iter().enumerate() {
        for (b, other) in FAULTS.iter().enumerate().skip(a) {
            let (mut buffer, mut length) = base_file();
            do_fault(one, &mut buffer, &mut length);
            do_fault(other, &mut buffer, &mut length);
            judged(trial, &format!("faults {a} {b} "), &buffer[..length]);
        }
    }
}

enum Fault {
    /// Each place becomes the number beside it.
    Numbers(&'static [(usize, usize)]),
    Length(usize),
}

const FAULTS: [Fault; 17] = [
    Fault::Numbers(&[(0, 1_025)]),
    Fault::Numbers(&[(2, 2_049)]),
    Fault::Numbers(&[(4, 13)]),
    Fault::Numbers(&[(6, 25)]),
    Fault::Numbers(&[(8, 43)]),
    Fault::Numbers(&[(10, 1)]),
    Fault::Length(43),
    Fault::Length(41),
    Fault::Length(12),
    Fault::Length(11),
    Fault::Numbers(&[(36, 3)]),
    Fault::Numbers(&[(38, 16)]),
    Fault::Numbers(&[(40, 3)]),
    Fault::Numbers(&[(34, 1)]),
    Fault::Numbers(&[(28, 2), (34, 1)]),
    Fault::Numbers(&[(0, 4)]),
    Fault::Numbers(&[(2, 2)]),
];

/// The sound register that the faults are done to.
pub fn base_register() -> Register {
    let link = |(source, label, target)| Link {
        source: Item(source),
        label,
        target: Item(target),
    };
    Register {
        marks: vec![1, 6, 10],
        links: [(0, 0, 1), (0, 0, 2), (1, 15, 2)].map(link).to_vec(),
    }
}

/// Its file of 42 bytes, in a buffer with one zero byte more, and its length.
fn base_file() -> (Vec<u8>, usize) {
    let mut buffer = base_register().write();
    let length = buffer.len();
    buffer.push(0);
    (buffer, length)
}

/// The buffer takes every number, whatever length is handed on.
fn do_fault(fault: &Fault, buffer: &mut [u8], length: &mut usize) {
    match fault {
        Fault::Numbers(numbers) => {
            for (at, number) in *numbers {
                buffer[*at..at + 2].copy_from_slice(&two_bytes(*number));
            }
        }
        Fault::Length(new) => *length = *new,
    }
}

fn seeded(trial: &mut Trial, seed: u64) {
    let register = damaged_register(seed);
    judged(trial, &format!("seeded {seed} "), &register);
}

/// Damaged once, and now and then a second time.
fn damaged_register(seed: u64) -> Vec<u8> {
    let dice = &mut Dice::of_seed(seed);
    let register = seeded_register(seed, dice);
    let mut file = register.write();
    damage(&mut file, &register, dice);
    if dice.below(4) == 0 {
        damage(&mut file, &register, dice);
    }
    file
}
