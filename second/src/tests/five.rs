//! The printed cases of all five calls: the form of the lines, what the calls say of one another,
//! and what becomes of the lent buffers.

use super::listing::written;
use super::*;
use crate::check::check;
use crate::condense::summary_of;
use crate::five::FIVE;
use crate::five_generator::Inputs;
use crate::generator::{seeded_register, Dice};
use crate::lent::filled_buffer;
use crate::said::hash;
use std::sync::LazyLock;

/// A seed, its inputs, and what its line says. The two answers that write are their first two
/// words, and the hash.
struct Line {
    seed: u64,
    inputs: Inputs,
    condensed: (String, u32),
    letters: String,
    listed: (String, u32),
}

static LINES: LazyLock<Vec<Line>> = LazyLock::new(printed_lines);

fn printed_lines() -> Vec<Line> {
    let text = printed_by(|_| {}, &[FIVE]);
    text.lines().map(taken_apart).collect()
}

fn taken_apart(line: &str) -> Line {
    let words: Vec<&str> = line.split(' ').collect();
    let ["five", seed, a, b, c, letters, d, e, f] = words[..] else {
        panic!("{line}");
    };
    let seed = seed.parse().expect("a seed");
    let answer = |said: &str, what: &str, hash: &str| {
        let hash = hash.parse().expect("a hash");
        (format!("{said} {what}"), hash)
    };
    Line {
        seed,
        inputs: Inputs::of_seed(seed),
        condensed: answer(a, b, c),
        letters: letters.to_string(),
        listed: answer(d, e, f),
    }
}

#[test]
fn every_seed_in_its_turn() {
    assert!(LINES.iter().map(|line| line.seed).eq(1..=4_000));
    for line in LINES.iter() {
        let [checked, of_register, of_summary] = line.letters.as_bytes() else {
            panic!("seed {}", line.seed);
        };
        assert!(b"yn1236".contains(checked), "seed {}", line.seed);
        assert!(b"yn12358".contains(of_register), "seed {}", line.seed);
        assert!(b"yn6578".contains(of_summary), "seed {}", line.seed);
    }
}

/// "Register checks: under 12 bytes (1), then 2, then the rest of 1, then 3", of three calls alike.
#[test]
fn a_faulty_register_is_refused_alike() {
    for line in LINES.iter() {
        if let Err(refusal) = Register::read(&line.inputs.register) {
            let number = refusal.number().to_string();
            assert_eq!(line.condensed.0, format!("refused {number}"));
            assert_eq!(line.letters[..2], number.repeat(2), "seed {}", line.seed);
        }
    }
}

/// Whether asking the summary is refused for anything but the item number.
fn is_refused_whatever_the_item(line: &Line) -> bool {
    "567".contains(&line.letters[2..])
}

/// A summary that is not well formed, a malformed question and one out of reach are refused by
/// asking and by listing alike.
#[test]
fn a_faulty_summary_or_question_is_refused_alike() {
    for line in LINES.iter() {
        let said = line.listed.0.as_str();
        if is_refused_whatever_the_item(line) {
            let number = &line.letters[2..];
            assert_eq!(said, format!("refused {number}"), "seed {}", line.seed);
        } else {
            assert!(said.starts_with("wrote ") || said == "refused 9");
        }
    }
}

/// Where the list is not refused, it has the items at which asking says yes, whatever was done to
/// the summary; and it is refused for its room where these do not fit. Of small registers, all of
/// whose items are asked at.
#[test]
fn listed_as_asked() {
    let mut lists = 0;
    let small = LINES.iter().filter(|line| !line.seed.is_multiple_of(100));
    for line in small.filter(|line| !is_refused_whatever_the_item(line)) {
        let (summary, question) = (&line.inputs.summary, &line.inputs.question);
        let room = line.inputs.list_room;
        let holds = |item: &usize| ask_summary(summary, question, Item(*item)) == Ok(true);
        let n = read_summary(summary).map.len();
        let items: Vec<usize> = (0..n).filter(holds).collect();
        if 2 * items.len() <= room {
            assert_eq!(line.listed, written(&items, room), "seed {}", line.seed);
            lists += 1;
        } else {
            assert_eq!(line.listed.0, "refused 9", "seed {}", line.seed);
        }
    }
    assert!(lists > 500, "{lists}");
}

/// Whether neither of the two files was changed.
fn is_as_made(line: &Line) -> bool {
    let made = seeded_register(line.seed, &mut Dice::of_seed(line.seed));
    line.inputs.register == made.write()
        && Summary::read(&line.inputs.summary).is_ok_and(|read| {
            let (level, neighbour_cap) = (read.level, read.neighbour_cap);
            let whole = summary_of(&made, level, neighbour_cap, read.class_cap);
            line.inputs.summary == whole.write()
        })
}

/// Then the check says yes, and the summary answers as the register does, within its reach.
#[test]
fn unchanged_files_agree() {
    let mut answered = 0;
    for line in LINES.iter().filter(|line| is_as_made(line)) {
        let [checked, of_register, of_summary] = line.letters.as_bytes() else {
            panic!("seed {}", line.seed);
        };
        assert_eq!(*checked, b'y', "seed {}", line.seed);
        if *of_summary != b'7' {
            assert_eq!(of_register, of_summary, "seed {}", line.seed);
            answered += 1;
        }
    }
    assert!(answered > 300, "{answered}");
}

/// What condensing writes is right, and it is refused for its room exactly where it does not fit.
#[test]
fn condensed_where_there_is_room() {
    let mut lengths = 0;
    for line in LINES.iter() {
        let (level, neighbour_cap, class_cap) = line.inputs.level_and_caps;
        let (register, room) = (&line.inputs.register, line.inputs.summary_room);
        let Ok(whole) = condense(level, neighbour_cap, class_cap, register, MOST_LENGTH) else {
            continue;
        };
        assert_eq!(check(register, &whole), Ok(true), "seed {}", line.seed);
        if whole.len() <= room {
            let rest = &filled_buffer(room)[whole.len()..];
            let hash = hash(&[&whole, rest].concat());
            assert_eq!(line.condensed, (format!("wrote {}", whole.len()), hash));
            lengths += 1;
        } else {
            assert_eq!(line.condensed.0, "refused 9", "seed {}", line.seed);
        }
    }
    assert!(lengths > 200, "{lengths}");
}

/// "A refusal returns its number only, and no lent byte changes."
#[test]
fn refused_and_untouched() {
    for line in LINES.iter() {
        let rooms = [line.inputs.summary_room, line.inputs.list_room];
        for ((said, hashed), room) in [&line.condensed, &line.listed].into_iter().zip(rooms) {
            if said.starts_with("refused ") {
                assert_eq!(*hashed, hash(&filled_buffer(room)), "seed {}", line.seed);
            }
        }
    }
}

/// Of the throws that the generator tells of, both ends come up: registers of 11 bytes and of more,
/// each number out of range, rooms of none and rooms to spare.
#[test]
fn inputs_as_told() {
    let count = |wanted: &dyn Fn(&Inputs) -> bool| {
        let inputs = LINES.iter().map(|line| &line.inputs);
        inputs.filter(|inputs| wanted(inputs)).count()
    };
    assert_eq!(count(&|inputs| inputs.item.0 < 10), 4_000);
    assert!(count(&|inputs| inputs.list_room == 2 * 1_024 + 3) > 0);
    for length in [11, 12] {
        assert!(count(&|inputs| inputs.register.len() == length) > 0);
    }
    for wanted in [0, 1, 2, 3, 4, 5, 257, 258, 259, 260] {
        let of_level = |inputs: &Inputs| inputs.level_and_caps.0 == wanted;
        assert!(count(&of_level) > 0, "{wanted}");
    }
    for wanted in 0..=8 {
        let of_cap = |inputs: &Inputs| inputs.level_and_caps.1 == wanted;
        assert!(count(&of_cap) > 0, "{wanted}");
    }
    for wanted in 0..=16 {
        let of_cap = |inputs: &Inputs| inputs.level_and_caps.2 == wanted;
        assert!(count(&of_cap) > 0, "{wanted}");
    }
    for wanted in 0..=17 {
        let of_room = |inputs: &Inputs| inputs.list_room == wanted;
        assert!(count(&of_room) > 0, "{wanted}");
    }
}
