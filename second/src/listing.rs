//! The cases of asking and listing from a summary: questions asked of summaries and listed from
//! them into a lent buffer, one line for each case. Six families, in this order: ordered, three,
//! reached, counted, foreign, lent; and found, which goes by seed.
//!
//! Letter. `y` or `n` for what asking at an item says, or the digit of the refusal. Several letters
//! stand together without a blank.
//!
//! Listing. Three words, as an answer of condensing is: `wrote`, the length written and a hash, or
//! `refused`, the refusal's number and a hash. The buffer is filled before each call, and the hash
//! is made from every byte of it after the call, as for condensing.
//!
//! Files. SUM and the proposed summaries are those of checking; SUM has 6 items. The shapes are
//! those of condensing. Questions are told by the first two bytes of each entry; bytes three and
//! four are 0.
//!
//! Lines. A family's name, the numbers told here, then letters and listings in the order told;
//! numbers are decimal, words are parted by one blank, and a line feed ends every line. Of the
//! numbers behind a family's name the first turns slowest, the last fastest.
//!   ordered  summary and question, each by its number from 0. The summaries are SUM; SUM without
//!            its last byte. The questions are 1 252, literal −4; 5 0, malformed; 16 1, 32 1, 0 0,
//!            too deep; 16 3, 0 0, a threshold too high. Two letters, at items 0 and 6; listings
//!            into 10 bytes, into 9, into none.
//!   three    first entry, 0 to 11, and second entry, 0 to 12, of the twelve entries below; 12
//!            means that there is none. Where there is no second entry, the question is the first
//!            alone; else there are thirteen questions, with third entry 0 to 12 in turn. For each
//!            question six letters, of SUM at items 0 to 5.
//!   reached  level 1 to 4, and a number of entries, 0 to 5. The summary of the chain of 8 items at
//!            that level, caps 1 1; the question of so many entries 16 1, and then 0 0. Eight
//!            letters, at items 0 to 7; a listing into 32 bytes.
//!   counted  neighbour cap 1 to 7, threshold 1 to 8. The summary of the star of 9 items at level
//!            1, with that neighbour cap and class cap 1; the question 16 and the threshold, 0 0.
//!            Two letters, at items 0 and 1; a listing into 32 bytes.
//!   foreign  the number of a proposed summary, 0 to 21, and a question by its number from 0: 0 0;
//!            1 4; 16 1, 1 4; 2 0, 32 1, 1 1; 3 0, 1 1, 16 1, 0 0; 16 2, 0 0; 4 0, 1 3, 2 0, 1 1;
//!            16 1, 32 1, 0 0. Six letters, at items 0 to 5; a listing into 32 bytes.
//!   lent     the buffer's length, 0 to 20. A listing of 1 252 from SUM.
//!   found    seed 1 to 2000. The dice give the small register, or, where 100 divides the seed, the
//!            large one; then level and caps, as for condensing; then a question, as the generator
//!            of damaged questions tells. Four listings from the summary of that register: into
//!            2,056 bytes; then, with L the length that the first wrote, 0 if it was refused, into
//!            L − 1 bytes (0 where L is 0), L bytes, and L + 3 bytes. Then one letter more than the
//!            lesser of n and 9, from item 0 on, of asking the summary; then as many of asking the
//!            register.
//!
//! The twelve entries: 0 is 0 0, true; 1 is 1 1; 2 is 1 3; 3 is 1 252, literal −4; 4 is 2 0, not; 5
//! is 3 0, and; 6 is 4 0, or; 7 is 16 1; 8 is 16 2; 9 is 16 3; 10 is 32 1; 11 is 33 1.

use crate::checking::summary_of_a;
use crate::condensing::by_room;
use crate::families::BySeed;
use crate::generator::{seeded_register, thrown_level_and_caps, Dice};
use crate::proposed::PROPOSED;
use crate::question::entry;
use crate::question_generator::damaged_question;
use crate::register::MOST_ITEMS;
use crate::shapes::{chain, star};
use crate::trial::Trial;

/// Eight bytes more than any list has.
pub const ROOM: usize = 2 * MOST_ITEMS + 8;
pub const SMALL_ROOM: usize = 32;

/// The first two bytes of an entry.
type Entry = (u8, u8);

pub const TRUE: Entry = (0, 0);
pub const NOT_FAILED: Entry = (1, 252);
pub const NOT: Entry = (2, 0);
pub const AT_LEAST_1_OUT: Entry = (16, 1);

pub fn run(trial: &mut Trial) {
    ordered(trial);
    three(trial);
    reached(trial);
    counted(trial);
    foreign(trial);
    lent(trial);
}

pub const FOUND: BySeed = BySeed {
    last: 2_000,
    line: found,
};

pub fn question_of(entries: &[Entry]) -> Vec<u8> {
    let bytes = |(first, second): &Entry| entry(*first, *second);
    entries.iter().flat_map(bytes).collect()
}

/// A line: which case it is, so many letters from item 0 on, and a listing into the small room.
fn asked_and_listed(trial: &mut Trial, case: &str, summary: &[u8], question: &[u8], items: usize) {
    trial.text(case);
    trial.ask_summary(summary, question, 0..items);
    trial.text(" ");
    trial.list(summary, question, SMALL_ROOM);
    trial.end_line();
}

/// A fault in the summary, in the question and in the item number or the buffer, each with and
/// without the others: "ask a summary 6, 5, 7, 8; list from a summary 6, 5, 7, 9".
fn ordered(trial: &mut Trial) {
    let sum = summary_of_a().write();
    let questions: [&[Entry]; 4] = [
        &[NOT_FAILED],
        &[(5, 0)],
        &[AT_LEAST_1_OUT, (32, 1), TRUE],
        &[(16, 3), TRUE],
    ];
    for (f, summary) in [&sum[..], &sum[..sum.len() - 1]].into_iter().enumerate() {
        for (g, question) in questions.iter().enumerate() {
            let question = question_of(question);
            trial.text(&format!("ordered {f} {g} "));
            for item in [0, 6] {
                trial.ask_summary(summary, &question, item..item + 1);
            }
            for room in [10, 9, 0] {
                trial.text(" ");
                trial.list(summary, &question, room);
            }
            trial.end_line();
        }
    }
}

/// The twelve entries, by their number.
const ENTRIES: [Entry; 12] = [
    TRUE,
    (1, 1),
    (1, 3),
    NOT_FAILED,
    NOT,
    (3, 0),
    (4, 0),
    AT_LEAST_1_OUT,
    (16, 2),
    (16, 3),
    (32, 1),
    (33, 1),
];

/// The number that no entry has.
const NO_ENTRY: usize = ENTRIES.len();

/// Every question of up to three of the twelve entries, sound or malformed.
fn three(trial: &mut Trial) {
    let sum = summary_of_a().write();
    for a in 0..NO_ENTRY {
        for b in 0..=NO_ENTRY {
            let lowest_third = if b == NO_ENTRY { NO_ENTRY } else { 0 };
            trial.text(&format!("three {a} {b} "));
            for c in lowest_third..=NO_ENTRY {
                trial.ask_summary(&sum, &numbered_question([a, b, c]), 0..6);
            }
            trial.end_line();
        }
    }
}

/// The question of the entries with these numbers, without those that are none.
fn numbered_question(numbers: [usize; 3]) -> Vec<u8> {
    let entries = numbers.iter().filter_map(|number| ENTRIES.get(*number));
    question_of(&entries.copied().collect::<Vec<_>>())
}

/// Questions as deep as the level, less deep, and deeper: "question deeper than i".
fn reached(trial: &mut Trial) {
    let chain = chain(8).write();
    for i in 1..=4 {
        let summary = trial.make(&chain, (i, 1, 1));
        for depth in 0..=5 {
            let question = question_of(&[vec![AT_LEAST_1_OUT; depth], vec![TRUE]].concat());
            let case = format!("reached {i} {depth} ");
            asked_and_listed(trial, &case, &summary, &question, 8);
        }
    }
}

/// Every threshold under every neighbour cap, at an item with eight neighbours and at one with
/// none: "a threshold above µ + 1".
fn counted(trial: &mut Trial) {
    let star = star(9).write();
    for mu in 1..=7 {
        let summary = trial.make(&star, (1, mu, 1));
        for t in 1..=8 {
            let question = question_of(&[(16, t), TRUE]);
            let case = format!("counted {mu} {t} ");
            asked_and_listed(trial, &case, &summary, &question, 2);
        }
    }
}

/// Summaries that condensing does not write: "an operand holds at a group when it holds at the
/// group's lowest-numbered class", whatever the others in it are.
fn foreign(trial: &mut Trial) {
    let questions: [&[Entry]; 8] = [
        &[TRUE],
        &[(1, 4)],
        &[AT_LEAST_1_OUT, (1, 4)],
        &[NOT, (32, 1), (1, 1)],
        &[(3, 0), (1, 1), AT_LEAST_1_OUT, TRUE],
        &[(16, 2), TRUE],
        &[(4, 0), (1, 3), NOT, (1, 1)],
        &[AT_LEAST_1_OUT, (32, 1), TRUE],
    ];
    for (number, proposed) in PROPOSED.iter().enumerate() {
        let summary = proposed().write();
        for (q, question) in questions.iter().enumerate() {
            let question = question_of(question);
            let case = format!("foreign {number} {q} ");
            asked_and_listed(trial, &case, &summary, &question, 6);
        }
    }
}

/// A buffer too short, just long enough, and longer.
fn lent(trial: &mut Trial) {
    let sum = summary_of_a().write();
    for room in 0..=20 {
        trial.text(&format!("lent {room} "));
        trial.list(&sum, &question_of(&[NOT_FAILED]), room);
        trial.end_line();
    }
}

/// Thrown questions on summaries of thrown registers, and what the registers themselves say.
fn found(trial: &mut Trial, seed: u64) {
    let dice = &mut Dice::of_seed(seed);
    let register = seeded_register(seed, dice);
    let items = 0..register.marks.len().min(9) + 1;
    let register = register.write();
    let summary = trial.make(&register, thrown_level_and_caps(dice));
    let question = damaged_question(dice);
    trial.text(&format!("found {seed} "));
    by_room(trial, ROOM, |trial, room| {
        trial.list(&summary, &question, room)
    });
    trial.text(" ");
    trial.ask_summary(&summary, &question, items.clone());
    trial.text(" ");
    trial.ask_register(&register, &question, items);
    trial.end_line();
}
