//! The cases of condensing: registers sound and faulty, condensed into a lent buffer, one line for
//! each case. Seven families, in this order: range, wide, room, ranked, sized, shape, labelled; and
//! condensed, which goes by seed.
//!
//! Buffer. Before each call it is filled anew: its byte at place p is (7p + 5) mod 256. Where no
//! other length is told, it has 55,328 bytes.
//!
//! Answer. Three words: `wrote`, the length written and a hash, or `refused`, the refusal's number
//! and a hash. The hash is that of every byte of the lent buffer after the call: it starts at 0,
//! and for each byte in turn it becomes (hash * 65599 + byte + 1) mod 2^32.
//!
//! Lines. A family's name, the numbers told here, the answer; numbers are decimal, words are parted
//! by one blank, and a line feed ends every line. Level, neighbour cap and class cap stand in this
//! order. Of the numbers behind a family's name the first turns slowest, the last fastest.
//!   range      level 0 to 5, neighbour cap 0 to 8, class cap 0 to 16; register A, 200 bytes.
//!   wide       level and caps each through 1, 257, 65535; register A, 200 bytes.
//!   room       the buffer's length, 0 to 130; register A at 1 1 1.
//!   ranked     register, level and caps, buffer, each by its number from 0. The registers are the
//!              base register of the faults: as it is; cut to its first 41 bytes; with the number
//!              at place 0 become 1025; with the number at place 38 become 16. Level and caps are
//!              1 1 1; 0 1 1; 1 8 1; 1 1 16. The buffers have 200 bytes; one byte less than the
//!              summary of the base register at 1 1 1; none.
//!   sized      n of 0, 1, 1024, 1025, m of 0, 1, 2048, 2049, level 0 to 5; the register of the
//!              limits, caps 7 15.
//!   shape      shape 0 to 8, its n of 1, 2, 3, 8, 50, 1024, level 1 to 4, then the caps, which are
//!              1 1, then 2 3, then 7 15.
//!   labelled   seed 1 to 300: the labelled register, then, from the same dice, level and caps.
//!   condensed  seed 1 to 2000, and four answers. The dice give the small register, or, where 100
//!              divides the seed, the large one. Then throw below 4: at 0 the file is damaged once,
//!              as the generator tells. Then level and caps. With L the length that the first
//!              answer wrote, 0 if it was refused, the other three buffers have L − 1 bytes (0
//!              where L is 0), L bytes, and L + 3 bytes.
//! Level and caps from dice are thrown as the generator tells.

use crate::asking::sound_and_faulty_files;
use crate::caps::LevelAndCaps;
use crate::condense::summary_of;
use crate::families::BySeed;
use crate::generator::{damage, seeded_register, thrown_level_and_caps, Dice};
use crate::judging::{base_register, paired_register};
use crate::shapes::{labelled_register, register_a, SHAPES};
use crate::summary::MOST_LENGTH;
use crate::trial::Trial;

/// Eight bytes more than any summary has.
pub const ROOM: usize = MOST_LENGTH + 8;
pub const SMALL_ROOM: usize = 200;

pub fn run(trial: &mut Trial) {
    ranges(trial);
    wide(trial);
    rooms(trial);
    ranked(trial);
    sized(trial);
    shapes(trial);
    labelled(trial);
}

pub const CONDENSED: BySeed = BySeed {
    last: 2_000,
    line: condensed,
};

/// A line: which case it is, and one answer.
fn condensed_once(
    trial: &mut Trial,
    case: &str,
    register: &[u8],
    level_and_caps: LevelAndCaps,
    room: usize,
) {
    trial.text(case);
    trial.condense(register, level_and_caps, room);
    trial.end_line();
}

/// The answers of a call with that much room; then, by the length written there, with one byte
/// less, with just as many bytes, and with three more.
pub fn by_room(trial: &mut Trial, room: usize, call: impl Fn(&mut Trial, usize) -> usize) {
    let length = call(trial, room);
    for room in [length.saturating_sub(1), length, length + 3] {
        trial.text(" ");
        call(trial, room);
    }
}

/// "i, µ or ν out of range": each of them in range and on either side of it.
fn ranges(trial: &mut Trial) {
    let a = register_a().write();
    for i in 0..=5 {
        for mu in 0..=8 {
            for nu in 0..=16 {
                let case = format!("range {i} {mu} {nu} ");
                condensed_once(trial, &case, &a, (i, mu, nu), SMALL_ROOM);
            }
        }
    }
}

/// Numbers whose low byte is in range, or that are the highest of two bytes.
fn wide(trial: &mut Trial) {
    let a = register_a().write();
    let wide = [1, 257, 65_535];
    for i in wide {
        for mu in wide {
            for nu in wide {
                let case = format!("wide {i} {mu} {nu} ");
                condensed_once(trial, &case, &a, (i, mu, nu), SMALL_ROOM);
            }
        }
    }
}

/// A buffer too short, just long enough, and longer.
fn rooms(trial: &mut Trial) {
    let a = register_a().write();
    for room in 0..=130 {
        condensed_once(trial, &format!("room {room} "), &a, (1, 1, 1), room);
    }
}

/// A fault in the register, in level and caps and in the buffer, each with and without the others:
/// "condense 1, 2, 3 as above, 4, 9".
fn ranked(trial: &mut Trial) {
    let ones = (1, 1, 1);
    let whole = summary_of(&base_register(), 1, 1, 1).write();
    let rooms = [SMALL_ROOM, whole.len() - 1, 0];
    for (f, register) in sound_and_faulty_files().iter().enumerate() {
        for (r, level_and_caps) in [ones, (0, 1, 1), (1, 8, 1), (1, 1, 16)].iter().enumerate() {
            for (s, room) in rooms.iter().enumerate() {
                let case = format!("ranked {f} {r} {s} ");
                condensed_once(trial, &case, register, *level_and_caps, *room);
            }
        }
    }
}

/// Registers at the limits and one past them, at every level and one past either end.
fn sized(trial: &mut Trial) {
    for n in [0, 1, 1_024, 1_025] {
        for m in [0, 1, 2_048, 2_049] {
            let register = paired_register(n, m).write();
            for i in 0..=5 {
                let case = format!("sized {n} {m} {i} ");
                condensed_once(trial, &case, &register, (i, 7, 15), ROOM);
            }
        }
    }
}

/// Registers whose classes differ much from level to level and from cap to cap, or not at all.
fn shapes(trial: &mut Trial) {
    for (s, shape) in SHAPES.iter().enumerate() {
        for n in [1, 2, 3, 8, 50, 1_024] {
            let register = shape(n).write();
            for i in 1..=4 {
                for (mu, nu) in [(1, 1), (2, 3), (7, 15)] {
                    let case = format!("shape {s} {n} {i} {mu} {nu} ");
                    condensed_once(trial, &case, &register, (i, mu, nu), ROOM);
                }
            }
        }
    }
}

/// Registers with links by every label, up to as many as there may be.
fn labelled(trial: &mut Trial) {
    for seed in 1..=300 {
        let dice = &mut Dice::of_seed(seed);
        let register = labelled_register(dice).write();
        let case = format!("labelled {seed} ");
        condensed_once(trial, &case, &register, thrown_level_and_caps(dice), ROOM);
    }
}

/// Thrown registers, some of them damaged, with room to spare, too little, just enough, and a
/// little more.
fn condensed(trial: &mut Trial, seed: u64) {
    let dice = &mut Dice::of_seed(seed);
    let register = seeded_register(seed, dice);
    let mut file = register.write();
    if dice.below(4) == 0 {
        damage(&mut file, &register, dice);
    }
    let level_and_caps = thrown_level_and_caps(dice);
    trial.text(&format!("condensed {seed} "));
    by_room(trial, ROOM, |trial, room| {
        trial.condense(&file, level_and_caps, room)
    });
    trial.end_line();
}
