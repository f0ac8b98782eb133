//! The commands that `second cases` writes, carried out as docs/CASES.md tells and by nothing else
//! that the recorder has: what is printed is every line, byte for byte; every command of the page
//! occurs; and there are as many calls of each kind as the lines have answers. Lists that are none
//! stop as the page says.

use super::*;
use crate::bytes::two_at;
use crate::check::check;
use crate::families;
use crate::said;
use crate::trial::Trial;
use std::collections::BTreeMap;
use std::sync::LazyLock;

const MOST_FILE: usize = 65_535;

pub static TRIAL: LazyLock<Trial> = LazyLock::new(families::trial);

static REPLAYED: LazyLock<Replay> = LazyLock::new(|| replayed(TRIAL.commands()));

/// What is kept between commands, what was printed, and how often each command and call came.
#[derive(Default)]
struct Replay {
    register: Vec<u8>,
    other: Vec<u8>,
    summary: Vec<u8>,
    question: Vec<u8>,
    item: usize,
    level_and_caps: [usize; 3],
    room: usize,
    tally: Option<String>,
    printed: String,
    commands: BTreeMap<u8, usize>,
    calls: BTreeMap<u8, usize>,
}

/// The fields of commands, one behind the other. Nothing is given where the list is cut short.
struct Fields<'a>(&'a [u8]);

impl<'a> Fields<'a> {
    fn bytes(&mut self, count: usize) -> Option<&'a [u8]> {
        let (bytes, behind) = self.0.split_at_checked(count)?;
        self.0 = behind;
        Some(bytes)
    }

    fn byte(&mut self) -> Option<u8> {
        self.bytes(1).map(|bytes| bytes[0])
    }

    fn number(&mut self) -> Option<usize> {
        self.bytes(2).map(|bytes| two_at(bytes, 0))
    }
}

fn replayed(commands: &[u8]) -> Replay {
    let mut replay = Replay::default();
    let mut fields = Fields(commands);
    while !fields.0.is_empty() {
        if replay.carry_out(&mut fields).is_none() {
            replay.printed += "stopped\n";
            break;
        }
    }
    replay
}

fn printed(commands: &[u8]) -> String {
    replayed(commands).printed
}

impl Replay {
    fn carry_out(&mut self, fields: &mut Fields) -> Option<()> {
        let command = fields.byte()?;
        match command {
            b't' => {
                let count = usize::from(fields.byte()?);
                self.printed += str::from_utf8(fields.bytes(count)?).expect("plain text");
            }
            b'e' => self.printed.push('\n'),
            b'r' | b's' | b'q' => {
                let change = Change::read(fields)?;
                change.carry_out(self.file(command), change.bytes.to_vec())?;
            }
            b'R' | b'S' | b'Q' => {
                let change = Change::read(fields)?;
                let pairs = change.bytes.iter().flat_map(|byte| [0, *byte]);
                let file = self.file(command.to_ascii_lowercase());
                change.carry_out(file, pairs.collect())?;
            }
            b'1' | b'2' | b'3' => {
                let (place, byte) = (fields.number()?, fields.byte()?);
                let file = self.file(b"rsq"[usize::from(command - b'1')]);
                *file.get_mut(place)? = byte;
            }
            b'x' => std::mem::swap(&mut self.register, &mut self.other),
            b'i' => self.item = fields.number()?,
            b'c' => self.level_and_caps = [fields.number()?, fields.number()?, fields.number()?],
            b'o' => self.room = fields.number()?,
            b'm' => self.summary = self.condensed(MOST_LENGTH).unwrap_or_default(),
            b'[' => self.tally = Some(String::new()),
            b']' => self.printed += &said::tally(&self.tally.take().unwrap_or_default()),
            _ => self.call(command, fields)?,
        }
        *self.commands.entry(command).or_default() += 1;
        Some(())
    }

    fn call(&mut self, command: u8, fields: &mut Fields) -> Option<()> {
        match command {
            b'j' => {
                self.count(command);
                self.printed += &said::verdict(&Register::read(&self.register));
            }
            b'd' => {
                self.count(command);
                self.printed += &said::answer(self.room, &self.condensed(self.room));
            }
            b'k' => {
                let answer = check(&self.register, &self.summary);
                self.letter(command, answer);
            }
            b'a' | b'b' => {
                for nth in 0..usize::from(fields.byte()?) {
                    let item = Item((self.item + nth) % 65_536);
                    let answer = match command {
                        b'a' => ask_register(&self.register, &self.question, item),
                        _ => ask_summary(&self.summary, &self.question, item),
                    };
                    self.letter(command, answer);
                }
            }
            b'l' => {
                self.count(command);
                let given = list_from_summary(&self.summary, &self.question, self.room);
                self.printed += &said::answer(self.room, &given);
            }
            b'w' => {
                let place = fields.number()?;
                for byte in 0..=255 {
                    *self.question.get_mut(place)? = byte;
                    let answer = ask_register(&self.register, &self.question, Item(self.item));
                    self.letter(b'a', answer);
                }
            }
            _ => return None,
        }
        Some(())
    }

    fn file(&mut self, letter: u8) -> &mut Vec<u8> {
        match letter {
            b'r' => &mut self.register,
            b's' => &mut self.summary,
            _ => &mut self.question,
        }
    }

    fn condensed(&self, room: usize) -> Result<Vec<u8>, Refusal> {
        let [level, neighbour_cap, class_cap] = self.level_and_caps;
        condense(level, neighbour_cap, class_cap, &self.register, room)
    }

    fn count(&mut self, call: u8) {
        *self.calls.entry(call).or_default() += 1;
    }

    fn letter(&mut self, call: u8, answer: Result<bool, Refusal>) {
        self.count(call);
        let letters = self.tally.as_mut().unwrap_or(&mut self.printed);
        letters.push(said::letter(answer));
    }
}

struct Change<'a> {
    place: usize,
    out: usize,
    bytes: &'a [u8],
}

impl<'a> Change<'a> {
    fn read(fields: &mut Fields<'a>) -> Option<Change<'a>> {
        let (place, out, count) = (fields.number()?, fields.number()?, fields.number()?);
        let bytes = fields.bytes(count)?;
        Some(Change { place, out, bytes })
    }

    fn carry_out(&self, file: &mut Vec<u8>, bytes: Vec<u8>) -> Option<()> {
        let end = self.place + self.out;
        if end > file.len() || file.len() - self.out + bytes.len() > MOST_FILE {
            return None;
        }
        file.splice(self.place..end, bytes);
        Some(())
    }
}

/// In pieces, so that a difference is told by its line.
#[test]
fn the_commands_say_what_the_lines_say() {
    let lines = TRIAL.lines().lines().zip(REPLAYED.printed.lines());
    for (number, (line, printed)) in (1..).zip(lines) {
        assert_eq!(line, printed, "line {number}");
    }
    assert!(TRIAL.lines() == REPLAYED.printed);
}

#[test]
fn every_command_occurs() {
    let occurring: Vec<u8> = REPLAYED.commands.keys().copied().collect();
    let mut of_the_page = b"terRsSqQ123xicomjdkablw[]".to_vec();
    of_the_page.sort();
    assert_eq!(occurring, of_the_page);
}

/// As many as there were before the commands were written.
#[test]
fn calls_of_every_kind() {
    let calls = [
        (b'j', 3_211),
        (b'd', 14_179),
        (b'k', 149_607),
        (b'a', 222_645),
        (b'b', 26_804),
        (b'l', 12_328),
    ];
    assert_eq!(REPLAYED.calls, BTreeMap::from(calls));
}

#[test]
fn short_enough() {
    assert!(TRIAL.commands().len() < 4_000_000);
}

/// A text, and one list of commands behind the other.
fn behind_text(lists: &[&[u8]]) -> Vec<u8> {
    [b"t\x02ab", &lists.concat()[..]].concat()
}

fn assert_stops(lists: &[&[u8]]) {
    assert_eq!(printed(&behind_text(lists)), "abstopped\n", "{lists:?}");
}

fn assert_goes_on(lists: &[&[u8]]) {
    let lists = [lists, &[b"e"]].concat();
    assert_eq!(printed(&behind_text(&lists)), "ab\n", "{lists:?}");
}

#[test]
fn no_commands_at_all() {
    assert_eq!(printed(b""), "");
}

#[test]
fn an_unknown_command_stops() {
    let known = b"terRsSqQ123xicomjdkablw[]";
    for command in (0..=255).filter(|command| !known.contains(command)) {
        assert_stops(&[&[command], b"e"]);
    }
}

/// Every command with fields, cut at every place.
#[test]
fn a_command_cut_short_stops() {
    let whole: [&[u8]; 15] = [
        b"t\x03abc",
        b"r\0\0\0\0\0\x02ab",
        b"s\0\0\0\0\0\x02ab",
        b"q\0\0\0\0\0\x02ab",
        b"R\0\0\0\0\0\x02ab",
        b"S\0\0\0\0\0\x02ab",
        b"Q\0\0\0\0\0\x02ab",
        b"1\0\0\x01",
        b"2\0\0\x01",
        b"3\0\0\x01",
        b"i\0\x01",
        b"c\0\x01\0\x01\0\x01",
        b"o\0\x01",
        b"a\0",
        b"w\0\0",
    ];
    for command in whole {
        for length in 1..command.len() {
            assert_stops(&[&command[..length]]);
        }
    }
    assert_stops(&[b"b"]);
}

#[test]
fn a_place_beyond_the_end_stops() {
    let files: [[&[u8]; 3]; 3] = [[b"r", b"R", b"1"], [b"s", b"S", b"2"], [b"q", b"Q", b"3"]];
    for [change, numbers, byte] in files {
        let three_bytes = [change, b"\0\0\0\0\0\x03abc"].concat();
        for change in [change, numbers] {
            assert_goes_on(&[&three_bytes, change, b"\0\x03\0\0\0\x01d"]);
            assert_stops(&[&three_bytes, change, b"\0\x04\0\0\0\x01d"]);
            assert_goes_on(&[&three_bytes, change, b"\0\x01\0\x02\0\0"]);
            assert_stops(&[&three_bytes, change, b"\0\x01\0\x03\0\0"]);
            assert_stops(&[&three_bytes, change, b"\xff\xff\xff\xff\0\0"]);
        }
        assert_goes_on(&[&three_bytes, byte, b"\0\x02d"]);
        assert_stops(&[&three_bytes, byte, b"\0\x03d"]);
    }
    assert_stops(&[b"w\0\0"]);
    assert_stops(&[b"q\0\0\0\0\0\x03abc", b"w\0\x03"]);
}

#[test]
fn a_file_that_would_grow_too_long_stops() {
    let most = [b"r\0\0\0\0\xff\xff", &[7; MOST_FILE][..]].concat();
    assert_goes_on(&[&most]);
    assert_goes_on(&[&most, b"r\0\x05\0\x01\0\x01a"]);
    assert_stops(&[&most, b"r\0\x05\0\0\0\x01a"]);
    assert_goes_on(&[&most, b"R\0\x05\0\x02\0\x01a"]);
    assert_stops(&[&most, b"R\0\x05\0\x01\0\x01a"]);
    let numbers = [b"S\0\0\0\0\x80\0", &[7; 32_768][..]].concat();
    assert_stops(&[&numbers]);
}

/// "What asks past item 65,535 goes on at 0."
#[test]
fn items_go_on_at_0() {
    let register = [b"r\0\0\0\0\0\x36", &register_a()[..]].concat();
    let list = [
        &register[..],
        b"q\0\0\0\0\0\x04\0\0\0\0",
        b"i\xff\xff",
        b"a\x02",
    ]
    .concat();
    assert_eq!(printed(&list), "8y");
}
