//! The register file: a header of 12 bytes, the marks of n items, and m links.
//! Reading judges it and gives the number of its first fault; writing judges nothing.

use crate::bytes::{four_at, two_at, two_bytes_each};
use crate::link::{Link, MOST_LABEL};
use crate::numbers::Item;
use crate::refusal::Refusal;

pub const MOST_ITEMS: usize = 1_024;
pub const MOST_LINKS: usize = 2_048;

pub const HEADER: usize = 12;
const MARKS: usize = 4;
const LINK: usize = 6;

pub struct Register {
    pub marks: Vec<u32>,
    pub links: Vec<Link<Item>>,
}

impl Register {
    /// "Register checks: under 12 bytes (1), then 2, then the rest of 1, then 3."
    pub fn read(bytes: &[u8]) -> Result<Register, Refusal> {
        if bytes.len() < HEADER {
            return Err(Refusal::RegisterForm);
        }
        let (n, m) = (two_at(bytes, 0), two_at(bytes, 2));
        if n > MOST_ITEMS || m > MOST_LINKS {
            return Err(Refusal::RegisterLimits);
        }
        if !form_is_right(bytes, n, m) {
            return Err(Refusal::RegisterForm);
        }
        let links = links_from(bytes, links_offset(n), m);
        if !links_are_sound(&links, n) {
            return Err(Refusal::RegisterLinks);
        }
        let marks = (0..n).map(|x| four_at(bytes, HEADER + MARKS * x)).collect();
        Ok(Register { marks, links })
    }

    /// The file of these marks and links, in the order given, with an exact header.
    pub fn write(&self) -> Vec<u8> {
        let mut bytes = two_bytes_each(&header(self.marks.len(), self.links.len()));
        for marks in &self.marks {
            bytes.extend(marks.to_be_bytes());
        }
        for link in &self.links {
            bytes.extend(two_bytes_each(&[link.source.0, link.label, link.target.0]));
        }
        bytes
    }

    pub fn items(&self) -> impl Iterator<Item = Item> {
        (0..self.marks.len()).map(Item)
    }
}

/// Whether offsets, total, zero field and length of 12 bytes or more are those of n items and m
/// links.
pub fn form_is_right(bytes: &[u8], n: usize, m: usize) -> bool {
    let stated: [usize; 6] = std::array::from_fn(|k| two_at(bytes, 2 * k));
    stated == header(n, m) && bytes.len() == total_length(n, m)
}

/// Items below n, "labels 0 to 15", and links "strictly ascending in that order of fields".
pub fn links_are_sound(links: &[Link<Item>], n: usize) -> bool {
    let in_range =
        |link: &Link<Item>| link.source.0 < n && link.target.0 < n && link.label <= MOST_LABEL;
    links.iter().all(in_range) && links.is_sorted_by(|a, b| a < b)
}

fn links_offset(n: usize) -> usize {
    HEADER + MARKS * n
}

fn total_length(n: usize, m: usize) -> usize {
    links_offset(n) + LINK * m
}

/// "Item count n, link count m, offset of marks (12), offset of links (12 + 4n), total length
/// (12 + 4n + 6m), zero."
fn header(n: usize, m: usize) -> [usize; 6] {
    [n, m, HEADER, links_offset(n), total_length(n, m), 0]
}

/// Up to m links, the first at `start`, as far as they stand whole within the bytes.
pub fn links_from(bytes: &[u8], start: usize, m: usize) -> Vec<Link<Item>> {
    let behind = bytes.get(start..).unwrap_or(&[]);
    behind.chunks_exact(LINK).take(m).map(link_of).collect()
}

fn link_of(bytes: &[u8]) -> Link<Item> {
    Link {
        source: Item(two_at(bytes, 0)),
        label: two_at(bytes, 2),
        target: Item(two_at(bytes, 4)),
    }
}
