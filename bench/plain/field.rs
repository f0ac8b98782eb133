//! Numbers of two bytes, most significant byte first, and records of them.

pub type Number = [u8; 2];
pub type Link = [Number; 3];

#[inline(always)]
pub fn fields<const COUNT: usize>(record: &[Number; COUNT]) -> [u16; COUNT] {
    std::array::from_fn(|f| u16::from_be_bytes(record[f]))
}

/// Bytes as records of so many numbers.
pub fn records<const COUNT: usize>(bytes: &[u8]) -> &[[Number; COUNT]] {
    bytes.as_chunks().0.as_chunks().0
}

pub fn records_mut<const COUNT: usize>(bytes: &mut [u8]) -> &mut [[Number; COUNT]] {
    bytes.as_chunks_mut().0.as_chunks_mut().0
}

/// A link in range as one number: source << 14 | label << 10 | target.
#[inline(always)]
pub fn packed(link: &Link) -> u32 {
    let [source, label, target] = fields(link).map(u32::from);
    (source << 14) + (label << 10) + target
}

/// Links in range of so many ends, strictly ascending. Most files have good links: all are looked at, without a branch.
/// The key has room for numbers in range; where one is not, it does not matter.
#[inline(never)]
pub fn links_right(links: &[Link], ends: u16) -> bool {
    let (mut wrong, mut least) = (false, 0);
    for link in links {
        let [source, label, target] = fields(link);
        let key = (u32::from(source) << 14) + (u32::from(label) << 10) + u32::from(target) + 1;
        wrong |= (source >= ends) | (label > 15) | (target >= ends) | (key <= least);
        least = key;
    }
    !wrong
}

/// Where a key stands among ascending ones, looked for from a place on at which it is likely.
#[inline(always)]
pub fn find(keys: &[u32], from: usize, asked: u32) -> Option<usize> {
    const NEAR: usize = 8;
    let rest = keys.get(from..)?;
    if let Some(at) = rest.iter().take(NEAR).position(|key| *key == asked) {
        return Some(from + at);
    }
    let far = rest.get(NEAR..)?.binary_search(&asked).ok()?;
    Some(from + NEAR + far)
}

/// Where each block starts, from where it ends: that place, or 0 for a block without members.
pub fn made_starts(ends: &mut [u16]) {
    let mut last = 0;
    for end in ends {
        last = last.max(*end);
        *end = last;
    }
}
