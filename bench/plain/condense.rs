//! Condensing: 1, 2, 3, 4, 9, or the summary's bytes.

use super::class_links::ClassLinks;
use super::field::records_mut;
use super::level::Level;
use super::neighbours::Neighbours;
use super::register::Register;

pub fn condense(i: u16, mu: u16, nu: u16, reg: &[u8], out: &mut [u8]) -> i32 {
    written(i, mu, nu, reg, out).unwrap_or_else(|refusal| -refusal)
}

fn written(i: u16, mu: u16, nu: u16, reg: &[u8], out: &mut [u8]) -> Result<i32, i32> {
    let register = Register::judged(reg)?;
    if !(1..=4).contains(&i) || !(1..=7).contains(&mu) || !(1..=15).contains(&nu) {
        return Err(4);
    }
    let near = Neighbours::of_register(&register);
    let level = Level::reached(&register, &near, i, mu);
    let links = ClassLinks::of(&near, &level.classes);
    let (classes, rows) = (&level.classes, level.rows.words());
    let (c, r, e) = (classes.count, rows.len(), links.links.len());
    let (rows_at, links_at) = (24 + 8 * c, 24 + 8 * c + 8 * r);
    let map_at = links_at + 6 * e;
    let total = map_at + 2 * classes.map.len();
    let out = out.get_mut(..total).ok_or(9)?;
    let (rest, map) = out.split_at_mut(map_at);
    let (rest, link_part) = rest.split_at_mut(links_at);
    let (rest, row_part) = rest.split_at_mut(rows_at);
    let (head, class_part) = rest.split_at_mut(24);
    let (g, n) = (level.groups.count, classes.map.len());
    put_numbers(head, &[i, mu, nu]);
    let sizes = [c, g, r, e, n, 24, rows_at, links_at, map_at];
    put_numbers(&mut head[6..], &sizes.map(|size| size as u16));
    put_classes(class_part, &register, &level, &links.items, nu + 1);
    put_rows(row_part, rows);
    put_links(link_part, &links.links);
    put_numbers(map, &classes.map);
    Ok(total as i32)
}

fn put_numbers(out: &mut [u8], numbers: &[u16]) {
    for (to, number) in out.as_chunks_mut().0.iter_mut().zip(numbers) {
        *to = number.to_be_bytes();
    }
}

fn put_classes(out: &mut [u8], register: &Register, level: &Level, items: &[u16], most: u16) {
    for (k, (to, count)) in records_mut(out).iter_mut().zip(items).enumerate() {
        let item = level.classes.lowest(k);
        let [a, b, c, d] = register.marks[item];
        let (group, count) = (level.groups.map[item], most.min(*count));
        *to = [[a, b], [c, d], group.to_be_bytes(), count.to_be_bytes()];
    }
}

fn put_rows(out: &mut [u8], rows: &[u32]) {
    for (to, row) in records_mut(out).iter_mut().zip(rows) {
        let fields = [row >> 19, row >> 14 & 31, row >> 4 & 0x3ff, row & 15];
        *to = fields.map(|field| (field as u16).to_be_bytes());
    }
}

fn put_links(out: &mut [u8], links: &[u32]) {
    for (to, link) in records_mut(out).iter_mut().zip(links) {
        let fields = [link >> 14, link >> 10 & 15, link & 0x3ff];
        *to = fields.map(|field| (field as u16).to_be_bytes());
    }
}
