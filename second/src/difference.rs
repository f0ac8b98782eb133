//! The difference of two files as edits, so that a file that is kept becomes the one that is wanted
//! by few bytes of commands (docs/CASES.md).
//!
//! Between a front and a back that both files have, the edits are of three parts: a front where old
//! and new stand place by place, one change where bytes are left out or put in, and a back where
//! they stand place by place again. Where both have the same length, the front is all there is.
//! Least costs of all fronts and of all backs are worked out first; then where to part them is
//! chosen.

/// An edit of a file. Places are those of the file as it is when its turn comes.
pub enum Edit {
    /// The byte at the place becomes this.
    Byte { place: usize, byte: u8 },
    /// From the place on `out` bytes give way to these.
    Bytes {
        place: usize,
        out: usize,
        bytes: Vec<u8>,
    },
    /// The same, but each of these stands for two bytes: 0 and itself.
    Numbers {
        place: usize,
        out: usize,
        numbers: Vec<u8>,
    },
}

/// What a command costs in bytes: a byte's, and a change's without the bytes that it puts in.
const BYTE: usize = 4;
const CHANGE: usize = 7;

/// More than any file costs.
const NEVER: usize = 1 << 30;

impl Edit {
    /// The length of its command.
    pub fn cost(&self) -> usize {
        match self {
            Edit::Byte { .. } => BYTE,
            Edit::Bytes { bytes, .. } => CHANGE + bytes.len(),
            Edit::Numbers { numbers, .. } => CHANGE + numbers.len(),
        }
    }
}

/// The edits that make the new file of the old one, from the back to the front, so that no edit
/// moves what a later one names.
pub fn edits(old: &[u8], new: &[u8]) -> Vec<Edit> {
    let front = common(old.iter().zip(new));
    let (old, new) = (&old[front..], &new[front..]);
    let back = common(old.iter().rev().zip(new.iter().rev()));
    let (old, new) = (&old[..old.len() - back], &new[..new.len() - back]);
    let mut edits = Vec::new();
    for stretch in stretches(old, new) {
        stretch.write(new, front, &mut edits);
    }
    edits
}

/// How many pairs are of equals, up to the first that is not.
fn common<'a>(pairs: impl Iterator<Item = (&'a u8, &'a u8)>) -> usize {
    pairs.take_while(|(old, new)| old == new).count()
}

#[derive(Clone, Copy, PartialEq, Eq)]
enum Kind {
    Byte,
    Bytes,
    Numbers,
}

/// Bytes of the new file, from `start` to `end`, that take the place of `out` bytes from `place`
/// on.
struct Stretch {
    kind: Kind,
    start: usize,
    end: usize,
    place: usize,
    out: usize,
}

impl Stretch {
    /// Its edits, where `front` bytes stand before the old file and the new. Behind a change by
    /// numbers the first byte of each pair that is not 0 is put right.
    fn write(&self, new: &[u8], front: usize, edits: &mut Vec<Edit>) {
        let (place, out) = (front + self.place, self.out);
        let bytes = &new[self.start..self.end];
        match self.kind {
            Kind::Byte => edits.push(Edit::Byte {
                place,
                byte: bytes[0],
            }),
            Kind::Bytes => edits.push(Edit::Bytes {
                place,
                out,
                bytes: bytes.to_vec(),
            }),
            Kind::Numbers => {
                let numbers = bytes.iter().skip(1).step_by(2).copied().collect();
                edits.push(Edit::Numbers {
                    place,
                    out,
                    numbers,
                });
                for at in (0..bytes.len()).step_by(2).filter(|at| bytes[*at] != 0) {
                    let (place, byte) = (place + at, bytes[at]);
                    edits.push(Edit::Byte { place, byte });
                }
            }
        }
    }
}

/// All stretches of a difference, the last first.
fn stretches(old: &[u8], new: &[u8]) -> Vec<Stretch> {
    let front = InStep::of(old, new, Pair::HighFirst);
    if old.len() == new.len() {
        return front.stretches(old.len());
    }
    let (old_back, new_back) = (reversed(old), reversed(new));
    let back = InStep::of(&old_back, &new_back, Pair::LowFirst);
    let parting = parting(old.len(), new, &front.closed, &back.closed);
    let mut stretches = back.stretches(parting.back);
    stretches.reverse();
    for stretch in &mut stretches {
        let (start, end) = (new.len() - stretch.end, new.len() - stretch.start);
        (stretch.start, stretch.end) = (start, end);
        stretch.place = start + old.len() - new.len();
    }
    stretches.push(Stretch {
        kind: parting.kind,
        start: parting.front,
        end: new.len() - parting.back,
        place: parting.front,
        out: old.len() - parting.front - parting.back,
    });
    stretches.extend(front.stretches(parting.front));
    stretches
}

fn reversed(bytes: &[u8]) -> Vec<u8> {
    bytes.iter().rev().copied().collect()
}

/// The two bytes of a number, as they come.
#[derive(Clone, Copy)]
enum Pair {
    HighFirst,
    LowFirst,
}

/// Old and new place by place, from the first on: for each count of places the least cost of
/// putting them right, and the least where the last of them is put right by a change, of bytes or
/// by numbers.
struct InStep<'a> {
    old: &'a [u8],
    new: &'a [u8],
    closed: Vec<usize>,
    bytes: Vec<usize>,
    numbers: Vec<usize>,
}

impl<'a> InStep<'a> {
    fn of(old: &'a [u8], new: &'a [u8], pair: Pair) -> InStep<'a> {
        let mut closed = vec![0];
        let mut bytes = vec![NEVER];
        let mut numbers = vec![NEVER];
        for count in 1..=old.len().min(new.len()) {
            let last = count - 1;
            let same = old[last] == new[last];
            let by_itself = closed[last] + if same { 0 } else { BYTE };
            bytes.push(1 + bytes[last].min(closed[last] + CHANGE));
            numbers.push(match count.checked_sub(2) {
                None => NEVER,
                Some(two_less) => {
                    let high = match pair {
                        Pair::HighFirst => new[two_less],
                        Pair::LowFirst => new[last],
                    };
                    cost_of_number(high) + numbers[two_less].min(closed[two_less] + CHANGE)
                }
            });
            closed.push(by_itself.min(bytes[count]).min(numbers[count]));
        }
        InStep {
            old,
            new,
            closed,
            bytes,
            numbers,
        }
    }

    /// The stretches that put so many places right, the last first.
    fn stretches(&self, count: usize) -> Vec<Stretch> {
        let mut stretches = Vec::new();
        let mut end = count;
        while end > 0 {
            let last = end - 1;
            let cost = self.closed[end];
            if self.old[last] == self.new[last] && cost == self.closed[last] {
                end = last;
                continue;
            }
            let (kind, start) = if cost == self.closed[last] + BYTE {
                (Kind::Byte, last)
            } else if cost == self.bytes[end] {
                (Kind::Bytes, self.start(&self.bytes, end, 1))
            } else {
                (Kind::Numbers, self.start(&self.numbers, end, 2))
            };
            stretches.push(Stretch {
                kind,
                start,
                end,
                place: start,
                out: end - start,
            });
            end = start;
        }
        stretches
    }

    /// Where the change begins that ends there, with so many bytes at a step.
    fn start(&self, open: &[usize], end: usize, step: usize) -> usize {
        let mut start = end - step;
        while open[start] <= self.closed[start] + CHANGE {
            start -= step;
        }
        start
    }
}

/// In a change by numbers.
fn cost_of_number(high: u8) -> usize {
    1 + if high == 0 { 0 } else { BYTE }
}

/// How much is taken place by place in front and at the back, and the kind of the change between.
struct Parting {
    kind: Kind,
    front: usize,
    back: usize,
}

/// The parting of the least cost. `fronts` and `backs` are the least costs of each count of places.
/// What stands between costs, by bytes, as many as there are; by numbers, what `from[front]` is
/// more than `from` where the back begins, if the two are an even number apart. So for each front
/// the best back is one of three: by bytes, and by numbers with an even and with an odd beginning.
fn parting(old_length: usize, new: &[u8], fronts: &[usize], backs: &[usize]) -> Parting {
    let length = new.len();
    let mut from = vec![0; length + 1];
    for at in (0..length.saturating_sub(1)).rev() {
        from[at] = cost_of_number(new[at]) + from[at + 2];
    }
    let most = old_length.min(length);
    let signed = |cost: usize| cost as isize;
    let mut best = (isize::MAX, Kind::Bytes, 0, 0);
    let mut by_bytes = (isize::MAX, 0);
    let mut by_numbers = [(isize::MAX, 0); 2];
    for back in 0..=most {
        let front = most - back;
        let begin = length - back;
        let left = signed(backs[back]) - signed(back);
        by_bytes = by_bytes.min((left, back));
        let left = signed(backs[back]) - signed(from[begin]);
        by_numbers[begin % 2] = by_numbers[begin % 2].min((left, back));
        let cost = signed(fronts[front]) + signed(length - front) + by_bytes.0;
        best = best_of(best, (cost, Kind::Bytes, front, by_bytes.1));
        if let (left @ ..isize::MAX, back) = by_numbers[front % 2] {
            let cost = signed(fronts[front]) + signed(from[front]) + left;
            best = best_of(best, (cost, Kind::Numbers, front, back));
        }
    }
    let (_, kind, front, back) = best;
    Parting { kind, front, back }
}

type Choice = (isize, Kind, usize, usize);

fn best_of(one: Choice, other: Choice) -> Choice {
    if other.0 < one.0 {
        other
    } else {
        one
    }
}
