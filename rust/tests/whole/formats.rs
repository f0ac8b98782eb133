//! The dumps in docs/FORMATS.md are the bytes that the library reads and writes.

use crate::samples::*;
use hestovane::{list, Question};

const PAGE: &str = include_str!("../../../docs/FORMATS.md");

/// The bytes of a dump. Each line has its offset, some bytes, and a bar before what they say.
fn dumped(dump: &str) -> Vec<u8> {
    let mut bytes = Vec::new();
    for line in dump.lines() {
        let (hexadecimal, _) = line
            .split_once('|')
            .expect("a bar before what the line says");
        let mut words = hexadecimal.split_whitespace();
        let offset = words.next().expect("an offset");
        assert_eq!(usize::from_str_radix(offset, 16), Ok(bytes.len()), "{line}");
        bytes.extend(words.map(|word| u8::from_str_radix(word, 16).unwrap()));
    }
    bytes
}

/// The dumps of the page, in its order: its blocks of code that start with an offset.
fn dumps() -> Vec<Vec<u8>> {
    let blocks = PAGE.split("```\n").skip(1).step_by(2);
    blocks
        .filter(|block| block.starts_with("0000 "))
        .map(dumped)
        .collect()
}

#[test]
fn the_page_shows_real_bytes() {
    let question = Question::has(HOIST)
        .and(out(1, Question::has(FAILED)))
        .unwrap();
    let summary = summary_a();
    let listed = list(&summary, question.as_bytes()).unwrap();
    let listed = listed
        .iter()
        .flat_map(|item| item.number().to_be_bytes())
        .collect();
    let expected = vec![register_a(), summary, question.as_bytes().to_vec(), listed];
    assert_eq!(dumps(), expected);
}
