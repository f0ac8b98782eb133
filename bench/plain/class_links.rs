//! The class links, and how many items each class has.

use super::classes::Classes;
use super::neighbours::Neighbours;

pub struct ClassLinks {
    /// Each class << 14 | label << 10 | class, ascending.
    pub links: Vec<u32>,
    pub items: Vec<u16>,
}

impl ClassLinks {
    pub fn of(near: &Neighbours, classes: &Classes) -> ClassLinks {
        let following = following(classes);
        let mut links = vec![0; near.count() / 2];
        let mut items = vec![1; classes.count];
        let mut seen = vec![0; 16 * classes.count];
        let mut end = 0;
        for (k, items) in items.iter_mut().enumerate() {
            let room = &mut links[end..];
            if classes.one_item(k as u16) {
                end += put_of_item(near, classes, k, room);
            } else {
                let (count, members) = put_of_items(near, classes, k, &following, &mut seen, room);
                end += count;
                *items = members;
            }
        }
        links.truncate(end);
        ClassLinks { links, items }
    }
}

/// For each item the next one of its class, or a number past all items.
fn following(classes: &Classes) -> Vec<u16> {
    let n = classes.map.len();
    let mut first = vec![n as u16; classes.count];
    let mut following = vec![0; n];
    for (item, class) in classes.map.iter().enumerate().rev() {
        following[item] = std::mem::replace(&mut first[usize::from(*class)], item as u16);
    }
    following
}

/// The class links of a class with one item: its links, mostly in order already.
#[inline(always)]
fn put_of_item(near: &Neighbours, classes: &Classes, class: usize, links: &mut [u32]) -> usize {
    let (mut count, mut least, mut ascending) = (0, 0, true);
    for end in near.outgoing(classes.lowest(class)) {
        let link = class_link(class, *end, classes);
        ascending &= least <= link;
        least = link + 1;
        links[count] = link;
        count += 1;
    }
    if ascending {
        count
    } else {
        once_each(&mut links[..count])
    }
}

/// In order and without those that stand there twice: how many are left.
#[cold]
fn once_each(links: &mut [u32]) -> usize {
    links.sort_unstable();
    let mut count = 1;
    for at in 1..links.len() {
        if links[at] != links[count - 1] {
            links[count] = links[at];
            count += 1;
        }
    }
    count
}

/// The class links of a class with more items, each when it is first seen; and the number of items. Label and class that were
/// seen have the class's number, plus one.
#[inline(always)]
fn put_of_items(
    near: &Neighbours,
    classes: &Classes,
    class: usize,
    following: &[u16],
    seen: &mut [u16],
    links: &mut [u32],
) -> (usize, u16) {
    let (mut count, mut items, mut item) = (0, 0, classes.lowest(class));
    while item < following.len() {
        for end in near.outgoing(item) {
            let link = class_link(class, *end, classes);
            let label = (link >> 10 & 15) as usize;
            let seen = &mut seen[label * classes.count + (link & 0x3ff) as usize];
            if *seen != class as u16 + 1 {
                *seen = class as u16 + 1;
                links[count] = link;
                count += 1;
            }
        }
        items += 1;
        item = usize::from(following[item]);
    }
    links[..count].sort_unstable();
    (count, items)
}

#[inline(always)]
fn class_link(class: usize, end: u16, classes: &Classes) -> u32 {
    let far = classes.map[usize::from(end & 0x3ff)];
    (class as u32) << 14 | u32::from(end & !0x3ff | far)
}
