//! The inputs of the condensing program, sound and faulty, so that any program that has the same to
//! do can be held to this one on each of them. `second inputs DIR` writes each into a file of its
//! own in the folder DIR, and prints how many there are; `second condense` says what is to be
//! printed for it.
//!
//! Files. A family's name and the numbers told here, parted by hyphens, then `.in`. No two have the
//! same bytes.
//!
//! Inputs. Level, neighbour cap and class cap as two-byte numbers, in this order, and a register's
//! file. Steps 1 to 4 are the levels and caps 1 1 1, 2 2 3, 3 4 7 and 4 7 15. A is register A.
//! Families, in this order:
//!   cut       a length, 0 to 59: the first so many bytes of 1 1 1 and A, which are 60.
//!   header    0 to 2, a length of 11 to 13; 2 2 3. The numbers 0 0, 1025 0 or 0 2049, then 12, 12,
//!             12, 0 and a byte 0; of these the first so many bytes.
//!   range     level of 0, 1, 4, 5, neighbour cap of 0, 1, 7, 8, class cap of 0, 1, 15, 16; A.
//!   wide      level and caps each of 1, 257, 65535, but not all three 1; A.
//!   ranked    register, level and caps, each by its number from 0. The registers are the base
//!             register of the faults: as it is; cut to its first 41 bytes; with the number at place
//!             0 become 1025; with the number at place 38 become 16. Level and caps are 1 1 1;
//!             0 1 1; 1 8 1; 1 1 16.
//!   long      0 to 2, a length of 16401, 16402, 16403, 16404, 20000, 70000; 1 1 1. The large
//!             register of seed 4; the same with the number at place 0 become 1025; A. The input is
//!             cut to that length, or bytes 0 are added up to it.
//!   marked    0 to 1, step. Marks 10^k − 1 and 10^k for k from 0 to 9, and 2^32 − 1; marks 2^k for
//!             k from 0 to 31, and 0. From each item x to x + 1 by label x mod 16.
//!   sized     n of 0, 1, 1024, 1025, m of 0, 1, 2048, 2049, step of 1, 4; the register of the
//!             limits.
//!   shape     shape 0 to 8, its n of 50, 1024, step.
//!   spoilt    shape 0 to 8, damage 0 to 16. The shape of n = 50 items, damaged. Level is one more
//!             than (shape + damage) mod 4, neighbour cap one more than damage mod 7, class cap one
//!             more than shape. The damages:
//!               0 to 5  header field 0 to 5 grows by one.
//!               6       a byte 0 is added at the end.
//!               7       the last byte is cut off.
//!               8       the header alone is left.
//!               9       the item count field becomes 1025.
//!               10      the link count field becomes 2049.
//!             and, but for the crowd, which has no links:
//!               11      all links are cut off.
//!               12      the last link's source becomes n.
//!               13      its label becomes 16.
//!               14      its target becomes n.
//!               15      it becomes a copy of the link before it.
//!               16      it and the link before it change places.
//!   large     seed 1 to 3, step; the large register.
//!   labelled  seed 1 to 24: the labelled register, then, from the same dice, level and caps.
//!   thrown    seed 1 to 60, then 100, 200 and so on to 800: REG with level and caps of the call,
//!             as the generator of inputs for all five calls tells.

use crate::asking::sound_and_faulty_files;
use crate::bytes::{two_at, two_bytes_each, with_number};
use crate::caps::LevelAndCaps;
use crate::five_generator::Inputs;
use crate::generator::{large_register, link_offset, put, thrown_level_and_caps, Dice};
use crate::judging::paired_register;
use crate::register::{Register, HEADER};
use crate::shapes::{labelled_register, marked_chain, register_a, SHAPES};
use std::fs;
use std::io::{self, Write};
use std::path::Path;

const ONES: LevelAndCaps = (1, 1, 1);
const STEPS: [LevelAndCaps; 4] = [ONES, (2, 2, 3), (3, 4, 7), (4, 7, 15)];

/// Writes every input into the folder, which has to be there.
pub fn write(folder: &Path, out: &mut impl Write) -> io::Result<()> {
    let inputs = inputs();
    for input in &inputs {
        fs::write(folder.join(&input.name), &input.bytes)?;
    }
    writeln!(out, "{}", inputs.len())
}

pub struct Input {
    /// That of its file.
    pub name: String,
    pub bytes: Vec<u8>,
}

impl Input {
    fn new(family: &str, numbers: &[usize], bytes: Vec<u8>) -> Input {
        let numbers: Vec<String> = numbers.iter().map(usize::to_string).collect();
        let name = format!("{family}-{}.in", numbers.join("-"));
        Input { name, bytes }
    }
}

pub fn inputs() -> Vec<Input> {
    let families = [
        cut, header, range, wide, ranked, long, marked, sized, shape, spoilt, large, labelled,
        thrown,
    ];
    families.into_iter().flat_map(|family| family()).collect()
}

/// "The condensing program reads standard input: i, µ, ν as two-byte numbers, then the register."
fn input((level, neighbour_cap, class_cap): LevelAndCaps, register: &[u8]) -> Vec<u8> {
    let numbers = two_bytes_each(&[level, neighbour_cap, class_cap]);
    [&numbers, register].concat()
}

/// Every step with its number, from 1 on.
fn steps() -> impl Iterator<Item = (usize, LevelAndCaps)> {
    (1..).zip(STEPS)
}

/// "Input under six bytes is refused 1", and what ends within the header, the marks or the links.
fn cut() -> Vec<Input> {
    let whole = input(ONES, &register_a().write());
    let cut = |length| Input::new("cut", &[length], whole[..length].to_vec());
    (0..whole.len()).map(cut).collect()
}

/// "Under 12 bytes (1), then 2, then the rest of 1."
fn header() -> Vec<Input> {
    let mut inputs = Vec::new();
    for (which, (n, m)) in [(0, 0), (1_025, 0), (0, 2_049)].into_iter().enumerate() {
        let mut bytes = two_bytes_each(&[n, m, 12, 12, 12, 0]);
        bytes.push(0);
        for length in 11..=13 {
            let bytes = input(STEPS[1], &bytes[..length]);
            inputs.push(Input::new("header", &[which, length], bytes));
        }
    }
    inputs
}

/// "Level i is 1 to 4, neighbour cap µ is 1 to 7, class cap ν is 1 to 15": both sides of each end.
fn range() -> Vec<Input> {
    with_a("range", [[0, 1, 4, 5], [0, 1, 7, 8], [0, 1, 15, 16]])
}

/// Numbers whose low byte is in range, or that are the highest of two bytes.
fn wide() -> Vec<Input> {
    let mut inputs = with_a("wide", [[1, 257, 65_535]; 3]);
    inputs.remove(0);
    inputs
}

/// Register A with every level and caps that these numbers give.
fn with_a<const EACH: usize>(family: &str, [is, mus, nus]: [[usize; EACH]; 3]) -> Vec<Input> {
    let a = register_a().write();
    let mut inputs = Vec::new();
    for i in is {
        for mu in mus {
            for nu in nus {
                let bytes = input((i, mu, nu), &a);
                inputs.push(Input::new(family, &[i, mu, nu], bytes));
            }
        }
    }
    inputs
}

/// "Condense 1, 2, 3 as above, 4."
fn ranked() -> Vec<Input> {
    let mut inputs = Vec::new();
    for (f, register) in sound_and_faulty_files().iter().enumerate() {
        for (r, level_and_caps) in [ONES, (0, 1, 1), (1, 8, 1), (1, 1, 16)]
            .into_iter()
            .enumerate()
        {
            let bytes = input(level_and_caps, register);
            inputs.push(Input::new("ranked", &[f, r], bytes));
        }
    }
    inputs
}

/// "At most 16,403 bytes are read": with 16,402 the largest register is whole, and one more has to
/// be seen.
fn long() -> Vec<Input> {
    let large = large_register(&mut Dice::of_seed(4)).write();
    let one_more_item = with_number(&large, 0, 1_025);
    let registers = [large, one_more_item, register_a().write()];
    let mut inputs = Vec::new();
    for (which, register) in registers.iter().enumerate() {
        for length in [16_401, 16_402, 16_403, 16_404, 20_000, 70_000] {
            let mut bytes = input(ONES, register);
            bytes.resize(length, 0);
            inputs.push(Input::new("long", &[which, length], bytes));
        }
    }
    inputs
}

/// "Numbers are decimal": marks of one digit to ten, and each mark alone.
fn marked() -> Vec<Input> {
    let tens = (0..10).flat_map(|k| [10_u32.pow(k) - 1, 10_u32.pow(k)]);
    let tens: Vec<u32> = tens.chain([u32::MAX]).collect();
    let twos: Vec<u32> = (0..32).map(|k| 1 << k).chain([0]).collect();
    let mut inputs = Vec::new();
    for (which, marks) in [tens, twos].into_iter().enumerate() {
        let register = marked_chain(marks).write();
        for (step, level_and_caps) in steps() {
            let bytes = input(level_and_caps, &register);
            inputs.push(Input::new("marked", &[which, step], bytes));
        }
    }
    inputs
}

/// Registers at the limits and one past them, the empty one among them.
fn sized() -> Vec<Input> {
    let mut inputs = Vec::new();
    for n in [0, 1, 1_024, 1_025] {
        for m in [0, 1, 2_048, 2_049] {
            let register = paired_register(n, m).write();
            for (step, level_and_caps) in [(1, STEPS[0]), (4, STEPS[3])] {
                let bytes = input(level_and_caps, &register);
                inputs.push(Input::new("sized", &[n as usize, m, step], bytes));
            }
        }
    }
    inputs
}

/// Registers whose classes differ much from level to level and from cap to cap, or not at all.
fn shape() -> Vec<Input> {
    let mut inputs = Vec::new();
    for (s, shape) in SHAPES.iter().enumerate() {
        for n in [50, 1_024] {
            let register = shape(n).write();
            for (step, level_and_caps) in steps() {
                let bytes = input(level_and_caps, &register);
                inputs.push(Input::new("shape", &[s, n, step], bytes));
            }
        }
    }
    inputs
}

/// Every shape with one fault in it, each fault in its turn.
fn spoilt() -> Vec<Input> {
    let mut inputs = Vec::new();
    for (s, shape) in SHAPES.iter().enumerate() {
        let made = shape(50);
        let damages = if made.links.is_empty() { 11 } else { 17 };
        for damage in 0..damages {
            let level_and_caps = (1 + (s + damage) % 4, 1 + damage % 7, 1 + s);
            let bytes = input(level_and_caps, &damaged(&made, damage));
            inputs.push(Input::new("spoilt", &[s, damage], bytes));
        }
    }
    inputs
}

/// The file of the register with that damage done to it; for 11 and more it has two links or more.
fn damaged(made: &Register, damage: usize) -> Vec<u8> {
    let file = made.write();
    match damage {
        0..=5 => with_number(&file, 2 * damage, two_at(&file, 2 * damage) + 1),
        6 => [&file[..], &[0]].concat(),
        7 => file[..file.len() - 1].to_vec(),
        8 => file[..HEADER].to_vec(),
        9 => with_number(&file, 0, 1_025),
        10 => with_number(&file, 2, 2_049),
        11 => file[..link_offset(made, 0)].to_vec(),
        _ => with_last_link_damaged(made, file, damage),
    }
}

/// Damages 12 to 16.
fn with_last_link_damaged(made: &Register, mut file: Vec<u8>, damage: usize) -> Vec<u8> {
    let (n, m) = (made.marks.len(), made.links.len());
    let (before, last) = (link_offset(made, m - 2), link_offset(made, m - 1));
    match damage {
        12 => with_number(&file, last, n),
        13 => with_number(&file, last + 2, 16),
        14 => with_number(&file, last + 4, n),
        15 => {
            file.copy_within(before..last, last);
            file
        }
        _ => {
            let (one, other) = (file[before..last].to_vec(), file[last..].to_vec());
            put(&mut file, before, &[other, one].concat());
            file
        }
    }
}

/// 1,024 items and 2,048 links, thrown, at every level.
fn large() -> Vec<Input> {
    let mut inputs = Vec::new();
    for seed in 1..=3 {
        let register = large_register(&mut Dice::of_seed(seed)).write();
        for (step, level_and_caps) in steps() {
            let bytes = input(level_and_caps, &register);
            inputs.push(Input::new("large", &[seed as usize, step], bytes));
        }
    }
    inputs
}

/// Registers with links by every label, up to as many as there may be.
fn labelled() -> Vec<Input> {
    let of_seed = |seed| {
        let dice = &mut Dice::of_seed(seed);
        let register = labelled_register(dice).write();
        let bytes = input(thrown_level_and_caps(dice), &register);
        Input::new("labelled", &[seed as usize], bytes)
    };
    (1..=24).map(of_seed).collect()
}

/// Registers, levels and caps with one fault, with several, or with none, as they fall.
fn thrown() -> Vec<Input> {
    let of_seed = |seed| {
        let thrown = Inputs::of_seed(seed);
        let bytes = input(thrown.level_and_caps, &thrown.register);
        Input::new("thrown", &[seed as usize], bytes)
    };
    let seeds = (1..=60).chain((100..=800).step_by(100));
    seeds.map(of_seed).collect()
}
