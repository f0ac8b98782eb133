//! `soak`: the proved library against the second program. `soak COUNT [FIRST]` takes COUNT seeds
//! from FIRST on, or from 1 on. Each seed's inputs are those that the generator of inputs for all
//! five calls tells. Both make all five calls, and compared are what they return and every byte of
//! the buffer that was lent, with a few bytes behind it that were not. The first difference is
//! printed whole and ends the run with status 1.

mod answers;
mod bytes;
mod caps;
mod check;
mod condense;
mod five_generator;
mod generator;
mod lent;
mod library;
mod link;
mod neighbours;
mod numbers;
mod question;
mod question_generator;
mod refusal;
mod register;
mod summary;
mod summary_generator;
mod wellformed;

use five_generator::Inputs;
use lent::{buffer_after, filled_buffer};
use refusal::Refusal;
use std::env;
use std::ops::RangeInclusive;
use std::process::ExitCode;

/// The dice start from a number below 2^31.
const MOST_SEED: u64 = (1 << 31) - 1;

/// So many bytes stand behind every buffer that is lent.
const BEHIND: usize = 16;

fn main() -> ExitCode {
    let words: Vec<String> = env::args().skip(1).collect();
    let Some(seeds) = seeds_told(&words) else {
        eprintln!("usage: soak COUNT [FIRST], for seeds up to {MOST_SEED}");
        return ExitCode::from(2);
    };
    let count = 1 + seeds.end() - seeds.start();
    for seed in seeds {
        if let Some(difference) = first_difference(&Inputs::of_seed(seed)) {
            println!("seed {seed}, {difference}");
            return ExitCode::FAILURE;
        }
    }
    let calls = count * CALLS.len() as u64;
    println!("{calls} calls on {count} seeds: no difference");
    ExitCode::SUCCESS
}

/// One seed or more, and none that dice cannot start from.
fn seeds_told(words: &[String]) -> Option<RangeInclusive<u64>> {
    let numbers: Option<Vec<u64>> = words.iter().map(|word| word.parse().ok()).collect();
    let (count, first) = match numbers?[..] {
        [count] => (count, 1),
        [count, first] => (count, first),
        _ => return None,
    };
    let last = first.checked_add(count.checked_sub(1)?)?;
    (last <= MOST_SEED).then_some(first..=last)
}

/// A call, made of either program.
struct Call {
    name: &'static str,
    of_library: fn(&Inputs) -> Outcome,
    of_second: fn(&Inputs) -> Outcome,
}

/// What a call returned, and what its buffer holds after it; nothing where none was lent.
#[derive(PartialEq, Eq)]
struct Outcome {
    returned: i32,
    buffer: Vec<u8>,
}

const CALLS: [Call; 5] = [
    Call {
        name: "condense",
        of_library: |inputs| {
            let (level, neighbour_cap, class_cap) = inputs.level_and_caps;
            let numbers = [level, neighbour_cap, class_cap].map(two_byte_number);
            let call = |lent: &mut [u8]| library::condense(numbers, &inputs.register, lent);
            Outcome::with_lent(inputs.summary_room, call)
        },
        of_second: |inputs| Outcome::of_writing(inputs.summary_room, inputs.condense()),
    },
    Call {
        name: "check",
        of_library: |inputs| Outcome::of(library::check(&inputs.register, &inputs.summary)),
        of_second: |inputs| Outcome::of(yes_or_no(inputs.check())),
    },
    Call {
        name: "ask a register",
        of_library: |inputs| {
            let item = two_byte_number(inputs.item.0);
            let returned = library::ask_register(&inputs.register, &inputs.question, item);
            Outcome::of(returned)
        },
        of_second: |inputs| Outcome::of(yes_or_no(inputs.ask_register())),
    },
    Call {
        name: "ask a summary",
        of_library: |inputs| {
            let item = two_byte_number(inputs.item.0);
            let returned = library::ask_summary(&inputs.summary, &inputs.question, item);
            Outcome::of(returned)
        },
        of_second: |inputs| Outcome::of(yes_or_no(inputs.ask_summary())),
    },
    Call {
        name: "list",
        of_library: |inputs| {
            let call = |lent: &mut [u8]| library::list(&inputs.summary, &inputs.question, lent);
            Outcome::with_lent(inputs.list_room, call)
        },
        of_second: |inputs| Outcome::of_writing(inputs.list_room, inputs.list()),
    },
];

fn two_byte_number(number: usize) -> u16 {
    u16::try_from(number).expect("no thrown number is longer")
}

impl Outcome {
    fn of(returned: i32) -> Outcome {
        let buffer = vec![];
        Outcome { returned, buffer }
    }

    /// Of a call of the library that is lent so many bytes.
    fn with_lent(room: usize, call: impl Fn(&mut [u8]) -> i32) -> Outcome {
        let mut buffer = filled_buffer(room + BEHIND);
        let returned = call(&mut buffer[..room]);
        Outcome { returned, buffer }
    }

    /// Of a call of the second program, by what it gave to write.
    fn of_writing(room: usize, given: Result<Vec<u8>, Refusal>) -> Outcome {
        let buffer = buffer_after(room + BEHIND, &given);
        let returned = returned(given.map(|bytes| bytes.len() as i32));
        Outcome { returned, buffer }
    }
}

fn yes_or_no(answer: Result<bool, Refusal>) -> i32 {
    returned(answer.map(i32::from))
}

/// As the library returns it: minus the number of a refusal.
fn returned(answer: Result<i32, Refusal>) -> i32 {
    answer.unwrap_or_else(|refusal| -i32::from(refusal.number()))
}

fn first_difference(inputs: &Inputs) -> Option<String> {
    CALLS.iter().find_map(|call| {
        let (library, second) = ((call.of_library)(inputs), (call.of_second)(inputs));
        let differ = library != second;
        differ.then(|| format!("{}: {}", call.name, difference(&library, &second)))
    })
}

fn difference(library: &Outcome, second: &Outcome) -> String {
    let (one, other) = (library.returned, second.returned);
    let mut told = format!("the library returned {one}, the second program {other}");
    let mut bytes = library.buffer.iter().zip(&second.buffer);
    if let Some(place) = bytes.position(|(one, other)| one != other) {
        let (one, other) = (library.buffer[place], second.buffer[place]);
        told += &format!("; byte {place} of the buffer is {one}, by the second program {other}");
    }
    told
}
