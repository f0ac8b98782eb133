//! Items numbered in order of the lowest item alike, through a hash table that holds numbers alone.

/// The class of each item, and of each class the lowest item and whether there are more.
#[derive(Clone)]
pub struct Classes {
    pub map: Vec<u16>,
    pub count: usize,
    lowest: Vec<u16>,
    more: Vec<bool>,
}

impl Classes {
    pub fn none_of(items: usize) -> Classes {
        Classes {
            map: vec![0; items],
            count: 0,
            lowest: vec![0; items],
            more: vec![false; items],
        }
    }

    /// The item put into a class, or into the next one.
    #[inline(always)]
    pub fn put(&mut self, item: usize, class: usize) {
        self.map[item] = class as u16;
        if class < self.count {
            self.more[class] = true;
        } else {
            self.lowest[class] = item as u16;
            self.count += 1;
        }
    }

    #[inline(always)]
    pub fn lowest(&self, class: usize) -> usize {
        usize::from(self.lowest[class])
    }

    #[inline(always)]
    pub fn one_item(&self, class: u16) -> bool {
        !self.more[usize::from(class)]
    }
}

pub struct Numbers {
    /// A part of the hash, and one more than the number; or 0 where a slot is free.
    slots: Vec<u32>,
    shift: u32,
}

const PART: u32 = 0xffff_0000;

impl Numbers {
    pub fn none_of(items: usize) -> Numbers {
        let size = (4 * items).next_power_of_two().max(2);
        Numbers {
            slots: vec![0; size],
            shift: 64 - size.trailing_zeros(),
        }
    }

    /// The number that has the hash and is alike, or else the next one.
    #[inline(always)]
    pub fn find(&mut self, hash: u64, next: usize, alike: impl Fn(usize) -> bool) -> usize {
        let hash = hash.wrapping_mul(0x9e37_79b9_7f4a_7c15);
        let part = hash as u32 & PART;
        let last = self.slots.len() - 1;
        let mut at = (hash >> self.shift) as usize;
        loop {
            let slot = &mut self.slots[at & last];
            if *slot == 0 {
                *slot = part | (next as u32 + 1);
                return next;
            }
            let number = (*slot & !PART) as usize - 1;
            if *slot & PART == part && alike(number) {
                return number;
            }
            at += 1;
        }
    }
}

/// A word's share of a hash, which is a sum of such.
#[inline(always)]
pub fn mixed(word: u32) -> u64 {
    let spread = u64::from(word).wrapping_mul(0x517c_c1b7_2722_0a95);
    spread ^ spread >> 32
}
