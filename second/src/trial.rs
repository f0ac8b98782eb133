//! The recorder of the trial. Each family makes its calls here, and of one pass come both: the
//! commands, which the trial carries out, and the lines that have to come of them, by this
//! program's own answers.

use crate::answers::{ask_register, ask_summary, list_from_summary};
use crate::caps::LevelAndCaps;
use crate::check::check;
use crate::commands::Commands;
use crate::condense::condense;
use crate::numbers::Item;
use crate::refusal::Refusal;
use crate::register::Register;
use crate::said;
use std::mem::take;
use std::ops::Range;

#[derive(Default)]
pub struct Trial {
    commands: Commands,
    lines: String,
    /// The end of the lines, where it is text that is not yet in the commands.
    text: String,
    /// The letters since it was opened.
    tally: Option<String>,
}

impl Trial {
    pub fn commands(&self) -> &[u8] {
        self.commands.written()
    }

    /// What has to come of the commands.
    pub fn lines(&self) -> &str {
        &self.lines
    }

    pub fn text(&mut self, text: &str) {
        self.lines += text;
        self.text += text;
    }

    pub fn end_line(&mut self) {
        self.call(b"e");
        self.lines.push('\n');
    }

    pub fn judge(&mut self, register: &[u8]) {
        self.commands.want_register(register);
        self.call(b"j");
        self.lines += &said::verdict(&Register::read(register));
    }

    /// The length written, 0 where the call refuses.
    pub fn condense(&mut self, register: &[u8], numbers: LevelAndCaps, room: usize) -> usize {
        self.commands.want_register(register);
        self.commands.want_level_and_caps(numbers);
        self.commands.want_room(room);
        self.call(b"d");
        let (level, neighbour_cap, class_cap) = numbers;
        let given = condense(level, neighbour_cap, class_cap, register, room);
        self.answer(room, given)
    }

    pub fn check(&mut self, register: &[u8], summary: &[u8]) {
        self.commands.want_register(register);
        self.commands.want_summary(summary);
        self.call(b"k");
        self.letter(check(register, summary));
    }

    /// A letter for each of the items, which are at most 255.
    pub fn ask_register(&mut self, register: &[u8], question: &[u8], items: Range<usize>) {
        self.commands.want_register(register);
        self.commands.want_question(question);
        self.commands.want_item(items.start);
        self.call(&[b'a', items.len() as u8]);
        for item in items.map(Item) {
            self.letter(ask_register(register, question, item));
        }
    }

    /// A letter for each of the items, which are at most 255.
    pub fn ask_summary(&mut self, summary: &[u8], question: &[u8], items: Range<usize>) {
        self.commands.want_summary(summary);
        self.commands.want_question(question);
        self.commands.want_item(items.start);
        self.call(&[b'b', items.len() as u8]);
        for item in items.map(Item) {
            self.letter(ask_summary(summary, question, item));
        }
    }

    /// The length written, 0 where the call refuses.
    pub fn list(&mut self, summary: &[u8], question: &[u8], room: usize) -> usize {
        self.commands.want_summary(summary);
        self.commands.want_question(question);
        self.commands.want_room(room);
        self.call(b"l");
        self.answer(room, list_from_summary(summary, question, room))
    }

    /// A letter for each byte that there is, put at the place of the question, asked at the item.
    pub fn sweep(&mut self, register: &[u8], question: &[u8], place: usize, item: usize) {
        self.commands.want_register(register);
        self.commands.want_question(question);
        self.commands.want_item(item);
        self.write_text();
        self.commands.sweep(place);
        for byte in 0..=255 {
            let mut swept = question.to_vec();
            swept[place] = byte;
            self.letter(ask_register(register, &swept, Item(item)));
        }
    }

    /// The summary that condensing the register writes, from now on at hand.
    pub fn make(&mut self, register: &[u8], numbers: LevelAndCaps) -> Vec<u8> {
        self.commands.want_register(register);
        self.commands.want_level_and_caps(numbers);
        let made = self.commands.made().to_vec();
        self.commands.want_summary(&made);
        made
    }

    /// Both registers are at hand from now on, for calls with the one and the other by turns.
    pub fn hold(&mut self, [one, other]: &[Vec<u8>; 2]) {
        self.commands.want_registers(one, other);
    }

    /// Letters are counted from now on, until it is closed.
    pub fn open_tally(&mut self) {
        self.call(b"[");
        self.tally = Some(String::new());
    }

    pub fn close_tally(&mut self) {
        self.call(b"]");
        let letters = self.tally.take().unwrap_or_default();
        self.lines += &said::tally(&letters);
    }

    /// A command that prints comes behind the text.
    fn call(&mut self, command: &[u8]) {
        self.write_text();
        self.commands.write(command);
    }

    fn write_text(&mut self) {
        self.commands.text(take(&mut self.text).as_bytes());
    }

    fn letter(&mut self, answer: Result<bool, Refusal>) {
        let letters = self.tally.as_mut().unwrap_or(&mut self.lines);
        letters.push(said::letter(answer));
    }

    fn answer(&mut self, room: usize, given: Result<Vec<u8>, Refusal>) -> usize {
        self.lines += &said::answer(room, &given);
        given.map_or(0, |bytes| bytes.len())
    }
}
