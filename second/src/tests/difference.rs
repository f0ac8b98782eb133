//! The difference of two files: the edits make the new file of the old one, and cost no more than
//! to write it whole; and what they cost where that is known.

use crate::difference::{edits, Edit};
use crate::generator::{small_register, Dice};

fn cost(old: &[u8], new: &[u8]) -> usize {
    edits(old, new).iter().map(Edit::cost).sum()
}

fn edited(old: &[u8], new: &[u8]) -> Vec<u8> {
    let mut file = old.to_vec();
    for edit in edits(old, new) {
        match edit {
            Edit::Byte { place, byte } => file[place] = byte,
            Edit::Bytes { place, out, bytes } => {
                file.splice(place..place + out, bytes);
            }
            Edit::Numbers {
                place,
                out,
                numbers,
            } => {
                let bytes = numbers.iter().flat_map(|number| [0, *number]);
                file.splice(place..place + out, bytes);
            }
        }
    }
    file
}

fn assert_edited(old: &[u8], new: &[u8]) {
    assert_eq!(edited(old, new), new, "of {old:?}");
    assert!(cost(old, new) <= 7 + new.len(), "{new:?} of {old:?}");
}

/// Of few different bytes, so that much of them is the same.
#[test]
fn thrown_files() {
    let dice = &mut Dice::of_seed(1);
    for _ in 0..20_000 {
        let [old, new] = [0, 1].map(|_| {
            let length = dice.below(24);
            (0..length).map(|_| dice.below(3) as u8).collect::<Vec<_>>()
        });
        assert_edited(&old, &new);
    }
}

#[test]
fn thrown_registers() {
    let mut old = vec![];
    for seed in 1..=500 {
        let new = small_register(&mut Dice::of_seed(seed)).write();
        assert_edited(&old, &new);
        old = new;
    }
}

#[test]
fn costs_known_beforehand() {
    let file: Vec<u8> = (1..=60).collect();
    assert_eq!(cost(&file, &file), 0);
    let mut bytes = file.clone();
    bytes[7] = 0;
    assert_eq!(cost(&file, &bytes), 4);
    bytes[50] = 0;
    assert_eq!(cost(&file, &bytes), 8);
    assert_eq!(cost(&file, &file[..40]), 7);
    assert_eq!(cost(&file, &[&file[..30], &file[31..]].concat()), 7);
    assert_eq!(cost(&file, &[&file[..30], &[0], &file[30..]].concat()), 8);
    let numbers = [0, 9].repeat(20);
    assert_eq!(cost(&file, &numbers), 7 + 20);
    let one_is_high = [&numbers[..], &[1, 9], &numbers].concat();
    assert_eq!(cost(&file, &one_is_high), 7 + 41 + 4);
    let in_the_middle = [&bytes[..30], &numbers, &bytes[30..]].concat();
    assert_eq!(cost(&file, &in_the_middle), 8 + 7 + 20);
}
