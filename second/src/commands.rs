//! The commands of docs/CASES.md, as far as they are written, and what they leave kept. What a call
//! needs is asked for here, and commands are written only where it is kept otherwise.

use crate::bytes::two_bytes_each;
use crate::caps::LevelAndCaps;
use crate::condense::condense;
use crate::difference::{edits, Edit};
use crate::summary::MOST_LENGTH;
use std::mem::swap;

#[derive(Default)]
pub struct Commands {
    written: Vec<u8>,
    register: Kept,
    other: Kept,
    summary: Vec<u8>,
    question: Vec<u8>,
    item: usize,
    level_and_caps: LevelAndCaps,
    room: usize,
}

/// A register, and what condensing it at level and caps writes, once that was worked out.
#[derive(Default)]
struct Kept {
    file: Vec<u8>,
    made: Option<Vec<u8>>,
}

/// The letters of the commands that edit a file: by bytes, by numbers, one byte.
type Letters = [u8; 3];

const OF_REGISTER: Letters = *b"rR1";
const OF_SUMMARY: Letters = *b"sS2";
const OF_QUESTION: Letters = *b"qQ3";

impl Commands {
    pub fn written(&self) -> &[u8] {
        &self.written
    }

    /// A command that leaves what is kept as it is.
    pub fn write(&mut self, command: &[u8]) {
        self.written.extend(command);
    }

    pub fn text(&mut self, text: &[u8]) {
        for part in text.chunks(255) {
            self.write(&[b't', part.len() as u8]);
            self.write(part);
        }
    }

    /// The sweep leaves the highest byte at the place.
    pub fn sweep(&mut self, place: usize) {
        self.write_with_numbers(b'w', &[place]);
        self.question[place] = 255;
    }

    /// Of the two registers that are kept the one gives way that costs less. What is lost of it
    /// costs too, so that a large one stays for the next that is large.
    pub fn want_register(&mut self, wanted: &[u8]) {
        if self.register.file == wanted {
            return;
        }
        let of_register = edits(&self.register.file, wanted);
        let of_other = edits(&self.other.file, wanted);
        let loss = |file: &[u8]| file.len().saturating_sub(wanted.len()) / 32;
        let here = cost(&of_register) + loss(&self.register.file);
        let there = 1 + cost(&of_other) + loss(&self.other.file);
        if self.other.file == wanted || there < here {
            self.exchange();
            self.edit_register(&of_other, wanted);
        } else {
            self.edit_register(&of_register, wanted);
        }
    }

    /// The one is the register, and the other the other register.
    pub fn want_registers(&mut self, one: &[u8], other: &[u8]) {
        if self.register.file == other {
            self.exchange();
        } else if self.other.file != other {
            self.want_register(other);
            self.exchange();
        }
        if self.register.file != one {
            let edits = edits(&self.register.file, one);
            self.edit_register(&edits, one);
        }
    }

    /// It is made anew where that is nearer to what is wanted.
    pub fn want_summary(&mut self, wanted: &[u8]) {
        if self.summary == wanted {
            return;
        }
        let mut chosen = edits(&self.summary, wanted);
        let of_made = edits(self.made(), wanted);
        if 1 + cost(&of_made) < cost(&chosen) {
            self.write(b"m");
            chosen = of_made;
        }
        self.write_edits(&chosen, OF_SUMMARY);
        self.summary = wanted.to_vec();
    }

    pub fn want_question(&mut self, wanted: &[u8]) {
        let edits = edits(&self.question, wanted);
        self.write_edits(&edits, OF_QUESTION);
        self.question = wanted.to_vec();
    }

    pub fn want_item(&mut self, wanted: usize) {
        if self.item != wanted {
            self.item = wanted;
            self.write_with_numbers(b'i', &[wanted]);
        }
    }

    pub fn want_level_and_caps(&mut self, wanted: LevelAndCaps) {
        if self.level_and_caps != wanted {
            self.level_and_caps = wanted;
            self.register.made = None;
            self.other.made = None;
            let (level, neighbour_cap, class_cap) = wanted;
            self.write_with_numbers(b'c', &[level, neighbour_cap, class_cap]);
        }
    }

    pub fn want_room(&mut self, wanted: usize) {
        if self.room != wanted {
            self.room = wanted;
            self.write_with_numbers(b'o', &[wanted]);
        }
    }

    /// What condensing the register at level and caps writes, and empty where that is refused.
    pub fn made(&mut self) -> &[u8] {
        let (level, neighbour_cap, class_cap) = self.level_and_caps;
        let Kept { file, made } = &mut self.register;
        made.get_or_insert_with(|| {
            condense(level, neighbour_cap, class_cap, file, MOST_LENGTH).unwrap_or_default()
        })
    }

    fn exchange(&mut self) {
        swap(&mut self.register, &mut self.other);
        self.write(b"x");
    }

    /// By the edits that make of the register what is wanted.
    fn edit_register(&mut self, edits: &[Edit], wanted: &[u8]) {
        if !edits.is_empty() {
            self.write_edits(edits, OF_REGISTER);
            self.register = Kept {
                file: wanted.to_vec(),
                made: None,
            };
        }
    }

    fn write_edits(&mut self, edits: &[Edit], [by_bytes, by_numbers, one_byte]: Letters) {
        for edit in edits {
            match edit {
                Edit::Byte { place, byte } => {
                    self.write_with_numbers(one_byte, &[*place]);
                    self.write(&[*byte]);
                }
                Edit::Bytes { place, out, bytes } => {
                    self.write_with_numbers(by_bytes, &[*place, *out, bytes.len()]);
                    self.write(bytes);
                }
                Edit::Numbers {
                    place,
                    out,
                    numbers,
                } => {
                    self.write_with_numbers(by_numbers, &[*place, *out, numbers.len()]);
                    self.write(numbers);
                }
            }
        }
    }

    fn write_with_numbers(&mut self, letter: u8, numbers: &[usize]) {
        self.write(&[letter]);
        self.write(&two_bytes_each(numbers));
    }
}

fn cost(edits: &[Edit]) -> usize {
    edits.iter().map(Edit::cost).sum()
}
