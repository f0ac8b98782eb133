//! Checking a proposed summary against a register: 1, 2, 3, 6, or yes or no.

use super::field::{fields, find, made_starts, packed};
use super::register::Register;
use super::summary::Summary;

pub fn check(reg: &[u8], sum: &[u8]) -> i32 {
    let register = match Register::judged(reg) {
        Ok(register) => register,
        Err(refusal) => return -refusal,
    };
    let mut joined = Vec::with_capacity(2_048);
    let Some(summary) =
        Summary::judged(sum, |outgoing, incoming| joined.push([outgoing, incoming]))
    else {
        return -6;
    };
    let map: Vec<u16> = summary
        .map
        .iter()
        .map(|class| u16::from_be_bytes(*class))
        .collect();
    let yes = register.marks.len() == map.len()
        && marks_equal(&register, &summary, &map)
        && counts_equal(&summary, &map)
        && links_and_rows_equal(&register, &summary, &map, &joined);
    i32::from(yes)
}

fn marks_equal(register: &Register, summary: &Summary, map: &[u16]) -> bool {
    let equal = |(marks, class): (&[u8; 4], &u16)| {
        let [high, low, _, _] = summary.classes[usize::from(*class)];
        *marks == [high[0], high[1], low[0], low[1]]
    };
    register.marks.iter().zip(map).all(equal)
}

fn counts_equal(summary: &Summary, map: &[u16]) -> bool {
    let mut counts = vec![0u16; summary.classes.len()];
    map.iter()
        .for_each(|class| counts[usize::from(*class)] += 1);
    let most = summary.class_cap + 1;
    let equal =
        |(class, count): (&[[u8; 2]; 4], &u16)| u16::from_be_bytes(class[3]) == most.min(*count);
    summary.classes.iter().zip(&counts).all(equal)
}

/// Each link has its image among the class links, each class link is one, and each item has the neighbours that its class's
/// rows state. A class link knows its two rows, so each link counts at one row of either end.
fn links_and_rows_equal(
    register: &Register,
    summary: &Summary,
    map: &[u16],
    joined: &[[u16; 2]],
) -> bool {
    let row_starts = row_starts(summary);
    let most = 2 * register.links.len();
    let Some((to_tally, count)) = tally_starts(&row_starts, map, most) else {
        return false;
    };
    let images = Images::of(summary);
    let mut tally = vec![0u16; count];
    let mut found = vec![false; joined.len()];
    for link in register.links {
        let [source, label, target] = fields(link);
        let (near, far) = (map[usize::from(source)], map[usize::from(target)]);
        let Some(at) = images.find(near, label, far) else {
            return false;
        };
        found[at] = true;
        let [outgoing, incoming] = joined[at];
        for (item, row) in [(source, outgoing), (target, incoming)] {
            tally[usize::from(to_tally[usize::from(item)].wrapping_add(row))] += 1;
        }
    }
    found.iter().all(|found| *found) && tallies_equal(summary, map, &row_starts, &tally)
}

fn tallies_equal(summary: &Summary, map: &[u16], row_starts: &[u16], tally: &[u16]) -> bool {
    let most = summary.near_cap + 1;
    let mut tally = tally.iter();
    map.iter().all(|class| {
        let (from, to) = (
            row_starts[usize::from(*class)],
            row_starts[usize::from(*class) + 1],
        );
        let rows = &summary.rows[usize::from(from)..usize::from(to)];
        rows.iter()
            .zip(tally.by_ref())
            .all(|(row, count)| u16::from_be_bytes(row[3]) == most.min(*count))
    })
}

/// Where the rows of each class start.
fn row_starts(summary: &Summary) -> Vec<u16> {
    let mut starts = vec![0; summary.classes.len() + 1];
    for (j, key) in summary.keys.iter().enumerate() {
        starts[(key >> 15) as usize + 1] = j as u16 + 1;
    }
    made_starts(&mut starts);
    starts
}

/// What leads from a row's number to its tally, for each item, and how many tallies there are. A row states a neighbour or
/// more, so that there are no more rows to hold against than ends of links.
fn tally_starts(row_starts: &[u16], map: &[u16], most: usize) -> Option<(Vec<u16>, usize)> {
    let mut sum = 0;
    let mut starts = Vec::with_capacity(map.len());
    for class in map {
        let (from, to) = (
            row_starts[usize::from(*class)],
            row_starts[usize::from(*class) + 1],
        );
        starts.push((sum as u16).wrapping_sub(from));
        sum += usize::from(to - from);
        if sum > most {
            return None;
        }
    }
    Some((starts, sum))
}

/// The class links, found by their fields.
struct Images {
    keys: Vec<u32>,
    /// The first class link of a class and a label, at class << 4 | label; where there is none, any.
    blocks: Vec<u16>,
}

impl Images {
    fn of(summary: &Summary) -> Images {
        let keys: Vec<u32> = summary.links.iter().map(packed).collect();
        let mut blocks = vec![0; summary.classes.len() << 4];
        for (j, key) in keys.iter().enumerate().rev() {
            blocks[(key >> 10) as usize] = j as u16;
        }
        Images { keys, blocks }
    }

    #[inline(always)]
    fn find(&self, source: u16, label: u16, target: u16) -> Option<usize> {
        let block = usize::from(source) << 4 | usize::from(label);
        let first = usize::from(self.blocks[block]);
        let asked = (block as u32) << 10 | u32::from(target);
        find(&self.keys, first, asked)
    }
}
