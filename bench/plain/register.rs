//! A register, judged: 1, 2 and 3 in document 01's order.

use super::field::{fields, links_right, records, Link};

pub struct Register<'a> {
    pub marks: &'a [[u8; 4]],
    pub links: &'a [Link],
}

impl Register<'_> {
    pub fn judged(bytes: &[u8]) -> Result<Register<'_>, i32> {
        let (head, rest) = bytes.split_first_chunk::<12>().ok_or(1)?;
        let [n, m, marks_at, links_at, total, zero] = fields(&records(head)[0]);
        if n > 1_024 || m > 2_048 {
            return Err(2);
        }
        let right = [12, 12 + 4 * n, 12 + 4 * n + 6 * m, 0];
        if [marks_at, links_at, total, zero] != right || bytes.len() != usize::from(total) {
            return Err(1);
        }
        let (marks, links) = rest.split_at(4 * usize::from(n));
        let (marks, links) = (marks.as_chunks().0, records(links));
        if !links_right(links, n) {
            return Err(3);
        }
        Ok(Register { marks, links })
    }
}
