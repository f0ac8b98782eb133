//! A summary, judged: well formed, or 6.

use super::field::{fields, find, links_right, records, Link};
use super::ground::Ground;

type Record = [[u8; 2]; 4];

pub struct Summary<'a> {
    pub level: u16,
    pub near_cap: u16,
    pub class_cap: u16,
    pub classes: &'a [Record],
    pub rows: &'a [Record],
    pub links: &'a [Link],
    pub map: &'a [[u8; 2]],
    /// The lowest class of each group.
    pub lowest: Vec<u16>,
    /// Each row's class << 15 | way << 10 | group.
    pub keys: Vec<u32>,
    /// The first row of a class and a way, at class << 5 | way; where there is none, any.
    pub blocks: Vec<u16>,
}

impl Summary<'_> {
    /// `joined` is told, for each class link in turn, the two rows that it asks for.
    pub fn judged(bytes: &[u8], mut joined: impl FnMut(u16, u16)) -> Option<Summary<'_>> {
        let (mut summary, groups) = parts(bytes)?;
        let right = summary.classes_right(groups)
            && summary.rows_right(groups)
            && links_right(summary.links, summary.classes.len() as u16)
            && summary.map_right()
            && summary.rows_match(&mut joined);
        right.then_some(summary)
    }

    fn classes_right(&mut self, groups: u16) -> bool {
        if usize::from(groups) > self.classes.len() {
            return false;
        }
        const NONE: u16 = u16::MAX;
        self.lowest = vec![NONE; usize::from(groups)];
        let mut wrong = false;
        for (k, class) in self.classes.iter().enumerate().rev() {
            let [_, _, group, count] = fields(class);
            wrong |= count.wrapping_sub(1) > self.class_cap;
            match self.lowest.get_mut(usize::from(group)) {
                Some(lowest) => *lowest = k as u16,
                None => return false,
            }
        }
        !wrong && !self.lowest.contains(&NONE)
    }

    fn rows_right(&mut self, groups: u16) -> bool {
        let c = self.classes.len() as u16;
        let (mut wrong, mut last) = (false, 0);
        let mut keys = vec![0; self.rows.len()];
        for (to, row) in keys.iter_mut().zip(self.rows) {
            let [class, way, group, count] = fields(row);
            let key = (u32::from(class) << 15) + (u32::from(way) << 10) + u32::from(group) + 1;
            wrong |= (class >= c)
                | (way > 31)
                | (group >= groups)
                | (count.wrapping_sub(1) > self.near_cap)
                | (key <= last);
            last = key;
            *to = key - 1;
        }
        self.keys = keys;
        !wrong
    }

    fn map_right(&self) -> bool {
        let c = self.classes.len() as u16;
        self.map.iter().fold(true, |right, class| {
            right & (u16::from_be_bytes(*class) < c)
        })
    }

    /// Each class link finds its two rows; all rows must be found.
    fn rows_match(&mut self, joined: &mut impl FnMut(u16, u16)) -> bool {
        self.blocks = vec![0; self.classes.len() << 5];
        for (j, key) in self.keys.iter().enumerate().rev() {
            self.blocks[(key >> 10) as usize] = j as u16;
        }
        let mut found = vec![false; self.keys.len()];
        for link in self.links {
            let [source, label, target] = fields(link);
            let outgoing = self.row(source, label, self.group(target));
            let incoming = self.row(target, 16 + label, self.group(source));
            let (Some(outgoing), Some(incoming)) = (outgoing, incoming) else {
                return false;
            };
            found[outgoing] = true;
            found[incoming] = true;
            joined(outgoing as u16, incoming as u16);
        }
        found.iter().fold(true, |all, found| all & found)
    }

    #[inline(always)]
    pub fn group(&self, class: u16) -> u16 {
        u16::from_be_bytes(self.classes[usize::from(class)][2])
    }

    /// The rows of a class that way: group and count.
    #[inline(always)]
    fn block(&self, class: usize, way: u8) -> impl Iterator<Item = (usize, u16)> + '_ {
        let block = class << 5 | usize::from(way);
        let first = usize::from(self.blocks[block]);
        let rows = self.keys[first..].iter().zip(&self.rows[first..]);
        let own = rows.take_while(move |(key, _)| (*key >> 10) as usize == block);
        own.map(|(key, row)| ((key & 0x3ff) as usize, u16::from_be_bytes(row[3])))
    }

    /// The row of a class, a way and a group.
    #[inline(always)]
    fn row(&self, class: u16, way: u16, group: u16) -> Option<usize> {
        let block = usize::from(class) << 5 | usize::from(way);
        let first = usize::from(self.blocks[block]);
        let asked = (block as u32) << 10 | u32::from(group);
        find(&self.keys, first, asked)
    }
}

/// The parts, where level, caps, sizes, offsets and length are right; and the group count.
fn parts(bytes: &[u8]) -> Option<(Summary<'_>, u16)> {
    let (head, rest) = bytes.split_first_chunk::<24>()?;
    let [level, near_cap, class_cap, c, groups, r, e, n, classes_at, rows_at, links_at, map_at] =
        fields(&records(head)[0]);
    let in_range =
        (1..=4).contains(&level) && (1..=7).contains(&near_cap) && (1..=15).contains(&class_cap);
    if !in_range || c > 1_024 || n > 1_024 || r > 4_096 || e > 2_048 {
        return None;
    }
    let right = [
        24,
        24 + 8 * c,
        24 + 8 * c + 8 * r,
        24 + 8 * c + 8 * r + 6 * e,
    ];
    if [classes_at, rows_at, links_at, map_at] != right
        || bytes.len() != usize::from(map_at) + 2 * usize::from(n)
    {
        return None;
    }
    let (classes, rest) = rest.split_at(8 * usize::from(c));
    let (rows, rest) = rest.split_at(8 * usize::from(r));
    let (links, map) = rest.split_at(6 * usize::from(e));
    let summary = Summary {
        level,
        near_cap,
        class_cap,
        classes: records(classes),
        rows: records(rows),
        links: records(links),
        map: map.as_chunks().0,
        lowest: Vec::new(),
        keys: Vec::new(),
        blocks: Vec::new(),
    };
    Some((summary, groups))
}

impl Ground for Summary<'_> {
    fn places(&self) -> usize {
        self.classes.len()
    }

    fn marks(&self, at: usize) -> u32 {
        let [high, low, _, _] = fields(&self.classes[at]);
        u32::from(high) << 16 | u32::from(low)
    }

    fn reaches(
        &self,
        at: usize,
        way: u8,
        threshold: u8,
        mut holds: impl FnMut(usize) -> bool,
    ) -> bool {
        let mut count = 0;
        for (group, neighbours) in self.block(at, way) {
            if holds(usize::from(self.lowest[group])) {
                count += neighbours;
                if count >= u16::from(threshold) {
                    return true;
                }
            }
        }
        false
    }

    fn all_reaching(&self, way: u8, threshold: u8, holds: &[bool]) -> Vec<bool> {
        let reaches = |at: usize| {
            let counted = |(group, neighbours): (usize, u16)| {
                neighbours * u16::from(holds[usize::from(self.lowest[group])])
            };
            self.block(at, way).map(counted).sum::<u16>() >= u16::from(threshold)
        };
        (0..self.classes.len()).map(reaches).collect()
    }
}
