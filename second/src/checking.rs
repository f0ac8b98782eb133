//! The cases of checking: proposed summaries, sound and spoilt, checked against registers, one line
//! for each case. Six families, in this order: faulty, stepped, fielded, cut, parted, proposed; and
//! checked, which goes by seed. Another, wrecked, follows the six and has a file of its own.
//!
//! Answer. One letter: `y` or `n` for what the check says, or the digit of the refusal. Several
//! answers stand together without a blank.
//!
//! Files. A and B are registers A and B, E is the empty register. SUM is the summary of A at 1 1 1,
//! 112 bytes. Field f of a file is the two-byte number at 2f.
//!
//! Lines. A family's name, the numbers told here, the answers; numbers are decimal, words are
//! parted by one blank, and a line feed ends every line. Of the numbers behind a family's name the
//! first turns slowest, the last fastest.
//!   faulty    register and summary, each by its number from 0; one answer. The registers are the
//!             base register of the faults: as it is; cut to its first 41 bytes; with the number at
//!             place 0 become 1025; with the number at place 38 become 16. The summaries are that
//!             of the base register as it is at 1 1 1: whole; without its last byte; without any
//!             byte.
//!   stepped   a place, 0 to 111. SUM with the byte there one more, 255 becoming 0, against A and
//!             B; then with it one less, 0 becoming 255, against A and B.
//!   fielded   a field, 0 to 55. SUM with the field become each of 0, 1, 2, 3, 4, 5, 16, 17, 31,
//!             32, 1024, 1025, 65535 in turn, against A; then the same thirteen against B.
//!   cut       a length, 0 to 115. So many bytes of SUM followed by zero bytes, against A and B.
//!   parted    part, record, deed; SUM taken apart, against A and B. The parts are 0 classes, 1
//!             rows, 2 class links, 3 map. For each record of the part, by its number from 0, the
//!             deeds are: 0, it is left out; 1, it stands twice, one behind the other; 2, it and
//!             the record behind it change places, where there is one. The part's count in the
//!             header, the offsets behind the part and so the length follow; the other numbers
//!             stay.
//!   proposed  the number of a proposed summary, 0 to 21, against A, B and E.
//!   checked   seed 1 to 2000. The dice give the small register, or, where 100 divides the seed,
//!             the large one; then level and caps, as for condensing; then what is done to the
//!             summary of that register, as the generator of spoilt summaries tells. Against its
//!             own register, and against the small register that dice of the seed plus 10007 give.

use crate::asking::sound_and_faulty_files;
use crate::bytes::with_number;
use crate::condense::summary_of;
use crate::families::BySeed;
use crate::generator::{seeded_register, small_register, thrown_level_and_caps, Dice};
use crate::judging::base_register;
use crate::proposed::PROPOSED;
use crate::register::Register;
use crate::shapes::{empty_register, register_a, register_b};
use crate::summary::Summary;
use crate::summary_generator::spoil;
use crate::trial::Trial;

pub fn run(trial: &mut Trial) {
    faulty(trial);
    stepped(trial);
    fielded(trial);
    cut(trial);
    parted(trial);
    proposed(trial);
}

pub const CHECKED: BySeed = BySeed {
    last: 2_000,
    line: checked,
};

/// The answers against each of the registers in turn.
pub fn check_each(trial: &mut Trial, registers: &[Vec<u8>], summary: &[u8]) {
    for register in registers {
        trial.check(register, summary);
    }
}

/// A line: which case it is, and these answers.
fn checked_once(trial: &mut Trial, case: &str, registers: &[Vec<u8>], summary: &[u8]) {
    trial.text(case);
    check_each(trial, registers, summary);
    trial.end_line();
}

pub fn files<const COUNT: usize>(registers: [Register; COUNT]) -> [Vec<u8>; COUNT] {
    registers.map(|register| register.write())
}

/// Both at hand.
fn a_and_b(trial: &mut Trial) -> [Vec<u8>; 2] {
    let registers = files([register_a(), register_b()]);
    trial.hold(&registers);
    registers
}

/// SUM.
pub fn summary_of_a() -> Summary {
    summary_of(&register_a(), 1, 1, 1)
}

/// A fault in the register and in the summary, each with and without the other: "check 1, 2, 3, 6".
fn faulty(trial: &mut Trial) {
    let whole = trial.make(&base_register().write(), (1, 1, 1));
    let summaries = [&whole[..], &whole[..whole.len() - 1], &[]];
    for (f, register) in sound_and_faulty_files().iter().enumerate() {
        for (g, summary) in summaries.iter().enumerate() {
            trial.text(&format!("faulty {f} {g} "));
            trial.check(register, summary);
            trial.end_line();
        }
    }
}

/// Every byte one more and one less.
fn stepped(trial: &mut Trial) {
    let registers = a_and_b(trial);
    let sum = trial.make(&registers[0], (1, 1, 1));
    for place in 0..=111 {
        trial.text(&format!("stepped {place} "));
        for byte in [sum[place].wrapping_add(1), sum[place].wrapping_sub(1)] {
            let mut stepped = sum.clone();
            stepped[place] = byte;
            check_each(trial, &registers, &stepped);
        }
        trial.end_line();
    }
}

/// Numbers in range somewhere, and just out of it.
const NUMBERS: [usize; 13] = [0, 1, 2, 3, 4, 5, 16, 17, 31, 32, 1_024, 1_025, 65_535];

/// Every field with each of the numbers.
fn fielded(trial: &mut Trial) {
    let registers = a_and_b(trial);
    let sum = summary_of_a().write();
    for field in 0..=55 {
        trial.text(&format!("fielded {field} "));
        for register in &registers {
            for number in NUMBERS {
                trial.check(register, &with_number(&sum, 2 * field, number));
            }
        }
        trial.end_line();
    }
}

/// "Offsets and length are exact": every length up to the right one, and a little more.
fn cut(trial: &mut Trial) {
    let registers = a_and_b(trial);
    let sum_and_zeros = [summary_of_a().write(), vec![0; 3]].concat();
    for length in 0..=115 {
        let case = format!("cut {length} ");
        checked_once(trial, &case, &registers, &sum_and_zeros[..length]);
    }
}

#[derive(Clone, Copy)]
pub enum Part {
    Classes,
    Rows,
    ClassLinks,
    Map,
}

pub const PARTS: [Part; 4] = [Part::Classes, Part::Rows, Part::ClassLinks, Part::Map];

#[derive(Clone, Copy)]
pub enum Deed {
    LeaveOut,
    PutTwice,
    ChangePlaces,
}

pub const DEEDS: [Deed; 3] = [Deed::LeaveOut, Deed::PutTwice, Deed::ChangePlaces];

/// Each deed at each record of each part.
fn parted(trial: &mut Trial) {
    let registers = a_and_b(trial);
    for (p, part) in PARTS.into_iter().enumerate() {
        for record in 0..record_count(part, &summary_of_a()) {
            for (d, deed) in DEEDS.into_iter().enumerate() {
                let mut summary = summary_of_a();
                do_deed_in_part(part, record, deed, &mut summary);
                let case = format!("parted {p} {record} {d} ");
                checked_once(trial, &case, &registers, &summary.write());
            }
        }
    }
}

pub fn record_count(part: Part, summary: &Summary) -> usize {
    match part {
        Part::Classes => summary.classes.len(),
        Part::Rows => summary.rows.len(),
        Part::ClassLinks => summary.class_links.len(),
        Part::Map => summary.map.len(),
    }
}

/// Counts, offsets and length follow when the summary is written.
pub fn do_deed_in_part(part: Part, record: usize, deed: Deed, summary: &mut Summary) {
    match part {
        Part::Classes => do_deed(deed, record, &mut summary.classes),
        Part::Rows => do_deed(deed, record, &mut summary.rows),
        Part::ClassLinks => do_deed(deed, record, &mut summary.class_links),
        Part::Map => do_deed(deed, record, &mut summary.map),
    }
}

fn do_deed<Record: Copy>(deed: Deed, at: usize, records: &mut Vec<Record>) {
    match deed {
        Deed::LeaveOut => {
            records.remove(at);
        }
        Deed::PutTwice => records.insert(at, records[at]),
        Deed::ChangePlaces if at + 1 < records.len() => records.swap(at, at + 1),
        Deed::ChangePlaces => {}
    }
}

/// "Any grouping and numbering may be proposed, and the level field is not judged."
fn proposed(trial: &mut Trial) {
    let registers = files([register_a(), register_b(), empty_register()]);
    for (number, proposed) in PROPOSED.iter().enumerate() {
        let case = format!("proposed {number} ");
        checked_once(trial, &case, &registers, &proposed().write());
    }
}

/// Summaries of thrown registers, most of them spoilt, against their own register and another.
fn checked(trial: &mut Trial, seed: u64) {
    let dice = &mut Dice::of_seed(seed);
    let own = seeded_register(seed, dice);
    let other = small_register(&mut Dice::of_seed(seed + 10_007));
    let registers = files([own, other]);
    trial.hold(&registers);
    let mut summary = trial.make(&registers[0], thrown_level_and_caps(dice));
    spoil(&mut summary, dice);
    checked_once(trial, &format!("checked {seed} "), &registers, &summary);
}
