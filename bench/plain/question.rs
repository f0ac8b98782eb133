//! A question, judged (5) and taken apart: each entry, and where its second operand stands.

#[derive(Clone, Copy)]
pub enum Entry {
    True,
    Literal { bit: u8, on: bool },
    Not,
    And { second: u8 },
    Or { second: u8 },
    AtLeast { way: u8, threshold: u8 },
}

const MOST_ENTRIES: usize = 64;

pub struct Question {
    entries: [Entry; MOST_ENTRIES],
    count: usize,
    pub depth: u8,
    pub threshold: u8,
}

/// A tree: its first entry, its depth.
type Tree = (u8, u8);

impl Question {
    /// From the last entry to the first. The trees that stand behind an entry wait, the nearest last; in the end one is left.
    pub fn judged(bytes: &[u8]) -> Option<Question> {
        let (records, rest) = bytes.as_chunks::<4>();
        if !rest.is_empty() || records.len() > MOST_ENTRIES {
            return None;
        }
        let mut entries = [Entry::True; MOST_ENTRIES];
        let mut waiting = [(0, 0); MOST_ENTRIES];
        let (mut trees, mut greatest) = (0, 0);
        for (at, record) in records.iter().enumerate().rev() {
            let mut entry = read(record)?;
            let (operands, depth) = joined(&mut entry, &waiting[..trees])?;
            if let Entry::AtLeast { threshold, .. } = entry {
                greatest = threshold.max(greatest);
            }
            trees -= operands;
            waiting[trees] = (at as u8, depth);
            trees += 1;
            entries[at] = entry;
        }
        (trees == 1).then_some(Question {
            entries,
            count: records.len(),
            depth: waiting[0].1,
            threshold: greatest,
        })
    }

    pub fn entries(&self) -> &[Entry] {
        &self.entries[..self.count]
    }
}

/// How many of the waiting trees the entry takes as operands, and the depth of the tree that it makes with them.
fn joined(entry: &mut Entry, waiting: &[Tree]) -> Option<(usize, u8)> {
    match (entry, waiting) {
        (Entry::True | Entry::Literal { .. }, _) => Some((0, 0)),
        (Entry::Not, [.., (_, depth)]) => Some((1, *depth)),
        (Entry::AtLeast { .. }, [.., (_, depth)]) => Some((1, depth + 1)),
        (Entry::And { second } | Entry::Or { second }, [.., (start, right), (_, left)]) => {
            *second = *start;
            Some((2, *left.max(right)))
        }
        _ => None,
    }
}

fn read(record: &[u8; 4]) -> Option<Entry> {
    Some(match *record {
        [0, 0, 0, 0] => Entry::True,
        [1, k, 0, 0] => literal(k as i8)?,
        [2, 0, 0, 0] => Entry::Not,
        [3, 0, 0, 0] => Entry::And { second: 0 },
        [4, 0, 0, 0] => Entry::Or { second: 0 },
        [code @ 16..=47, threshold @ 1..=8, 0, 0] => Entry::AtLeast {
            way: code - 16,
            threshold,
        },
        _ => return None,
    })
}

fn literal(k: i8) -> Option<Entry> {
    let bit = k.unsigned_abs().wrapping_sub(1);
    (bit < 32).then_some(Entry::Literal { bit, on: k > 0 })
}

pub fn shows(marks: u32, bit: u8, on: bool) -> bool {
    (marks >> bit & 1 == 1) == on
}
