//! One more family of checking, wrecked: a thrown summary changed wherever it can be, and checked
//! after each change against its own register and against another. One line for each seed and kind
//! of change.
//!
//!   wrecked  seed 1 to 24, kind 0 to 3. The dice give the small register, then level and caps, as
//!            for condensing. F is the file of its summary, L its length. The other register is the
//!            small register that dice of the seed plus 10007 give. All changes of the kind are
//!            made, each from F as it was:
//!            0, for each place, 0 to L − 1: the byte there one more, 255 becoming 0; then the byte
//!            there one less, 0 becoming 255.
//!            1, for each field, 0 to L / 2 − 1: it becomes 0, 1, 2, 16, 1025, 65535 in turn.
//!            2, for each part, 0 to 3, each record of it in turn, each deed, 0 to 2: the deed is
//!            done, as for parted; where no record is behind it, deed 2 changes nothing.
//!            3, for each length, 0 to L + 3: so many bytes of F, followed by zero bytes where it
//!            has no more.
//!            For every change two answers, as for checking: against its own register, then
//!            against the other.
//!
//! Told are the number of changes; how many of the answers against its own register are `y`, `n`
//! and `6`; how many of those against the other are; and the hash of all answers in the order in
//! which they came (own, other, own, other, ..), each answer one byte, made as for condensing.
//! Without a change all of these are 0. Numbers are decimal, words are parted by one blank, and a
//! line feed ends every line.

use crate::bytes::with_number;
use crate::checking::{check_each, do_deed_in_part, files, record_count, DEEDS, PARTS};
use crate::condense::summary_of;
use crate::generator::{small_register, thrown_level_and_caps, Dice};
use crate::summary::Summary;
use crate::trial::Trial;

/// A kind of change hands on each file that it makes of the summary.
type Kind = fn(&Summary, &mut dyn FnMut(&[u8]));

/// The kinds, by their number.
const KINDS: [Kind; 4] = [step_bytes, replace_fields, do_deeds, change_length];

pub fn run(trial: &mut Trial) {
    for seed in 1..=24 {
        let dice = &mut Dice::of_seed(seed);
        let own = small_register(dice);
        let numbers @ (level, neighbour_cap, class_cap) = thrown_level_and_caps(dice);
        let summary = summary_of(&own, level, neighbour_cap, class_cap);
        let other = small_register(&mut Dice::of_seed(seed + 10_007));
        let registers = files([own, other]);
        trial.make(&registers[0], numbers);
        trial.hold(&registers);
        for (k, kind) in KINDS.iter().enumerate() {
            trial.text(&format!("wrecked {seed} {k} "));
            trial.open_tally();
            kind(&summary, &mut |changed| {
                check_each(trial, &registers, changed);
            });
            trial.close_tally();
            trial.end_line();
        }
    }
}

/// Every byte one more and one less.
fn step_bytes(summary: &Summary, hand_on: &mut dyn FnMut(&[u8])) {
    let file = summary.write();
    for place in 0..file.len() {
        for byte in [file[place].wrapping_add(1), file[place].wrapping_sub(1)] {
            let mut stepped = file.clone();
            stepped[place] = byte;
            hand_on(&stepped);
        }
    }
}

/// Every field with numbers in range somewhere, and just out of it.
fn replace_fields(summary: &Summary, hand_on: &mut dyn FnMut(&[u8])) {
    let file = summary.write();
    for field in 0..file.len() / 2 {
        for number in [0, 1, 2, 16, 1_025, 65_535] {
            hand_on(&with_number(&file, 2 * field, number));
        }
    }
}

/// Each deed at each record of each part.
fn do_deeds(summary: &Summary, hand_on: &mut dyn FnMut(&[u8])) {
    for part in PARTS {
        for record in 0..record_count(part, summary) {
            for deed in DEEDS {
                let mut changed = summary.clone();
                do_deed_in_part(part, record, deed, &mut changed);
                hand_on(&changed.write());
            }
        }
    }
}

/// Every length up to the right one, and a little more.
fn change_length(summary: &Summary, hand_on: &mut dyn FnMut(&[u8])) {
    let file_and_zeros = [summary.write(), vec![0; 3]].concat();
    for length in 0..=file_and_zeros.len() {
        hand_on(&file_and_zeros[..length]);
    }
}
