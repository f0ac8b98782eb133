//! The items of a register as a question's ground. The first neighbours are searched for among all links; what makes many
//! searches quick is made when many are asked for.

use super::field::{fields, made_starts};
use super::ground::Ground;
use super::register::Register;
use std::cell::{Cell, OnceCell};

/// So many searches cost about as much as what makes them quick.
const OUTGOING_SEARCHES: u32 = 64;
const INCOMING_SEARCHES: u32 = 4;

pub struct Items<'a> {
    register: Register<'a>,
    searches: [Cell<u32>; 2],
    starts: OnceCell<Vec<u16>>,
    incoming: OnceCell<Incoming>,
    labelled: OnceCell<Labelled>,
}

impl Items<'_> {
    pub fn of(register: Register<'_>) -> Items<'_> {
        Items {
            register,
            searches: Default::default(),
            starts: OnceCell::new(),
            incoming: OnceCell::new(),
            labelled: OnceCell::new(),
        }
    }

    /// Whether a search is among the first.
    fn early(&self, way: usize, most: u32) -> bool {
        let searches = self.searches[way].get();
        self.searches[way].set(searches + 1);
        searches < most
    }

    /// The first link from the item by that label or a later one.
    fn first(&self, item: u16, label: u16) -> usize {
        let links = self.register.links;
        if self.early(0, OUTGOING_SEARCHES) {
            let asked = u32::from(item) << 16 | u32::from(label);
            return links.partition_point(|link| u32::from_be_bytes(leading(link)) < asked);
        }
        let starts = self.starts.get_or_init(|| starts(&self.register));
        let (from, to) = (starts[usize::from(item)], starts[usize::from(item) + 1]);
        let own = &links[usize::from(from)..usize::from(to)];
        usize::from(from) + own.partition_point(|link| fields(link)[1] < label)
    }

    /// Those to which a link of that label leads.
    fn outgoing(&self, item: usize, label: u8) -> impl Iterator<Item = usize> + '_ {
        let (item, label) = (item as u16, u16::from(label));
        let links = &self.register.links[self.first(item, label)..];
        let own = links
            .iter()
            .map(fields)
            .take_while(move |[source, by, _]| [*source, *by] == [item, label]);
        own.map(|[_, _, target]| usize::from(target))
    }

    /// Those from which a link of that label comes, found by going through all links.
    fn searched(&self, item: usize, label: u8) -> impl Iterator<Item = usize> + '_ {
        let asked = [u16::from(label).to_be_bytes(), (item as u16).to_be_bytes()];
        let own = self
            .register
            .links
            .iter()
            .filter(move |[_, by, target]| [*by, *target] == asked);
        own.map(|[source, _, _]| usize::from(u16::from_be_bytes(*source)))
    }

    /// The same, found by what was made for it.
    fn incoming(&self, item: usize, label: u8) -> impl Iterator<Item = usize> + '_ {
        let incoming = self.incoming.get_or_init(|| Incoming::of(&self.register));
        let (from, to) = (incoming.starts[item], incoming.starts[item + 1]);
        let ends = &incoming.ends[usize::from(from)..usize::from(to)];
        let own = ends
            .iter()
            .filter(move |end| **end >> 10 == u16::from(label));
        own.map(|end| usize::from(end & 0x3ff))
    }
}

/// So many of them, or more, hold.
#[inline(always)]
fn at_least(
    threshold: u8,
    places: impl Iterator<Item = usize>,
    holds: impl FnMut(usize) -> bool,
) -> bool {
    places
        .map(holds)
        .filter(|holds| *holds)
        .nth(usize::from(threshold) - 1)
        .is_some()
}

impl Ground for Items<'_> {
    fn places(&self) -> usize {
        self.register.marks.len()
    }

    fn marks(&self, at: usize) -> u32 {
        u32::from_be_bytes(self.register.marks[at])
    }

    fn reaches(&self, at: usize, way: u8, threshold: u8, holds: impl FnMut(usize) -> bool) -> bool {
        if way < 16 {
            at_least(threshold, self.outgoing(at, way), holds)
        } else if self.early(1, INCOMING_SEARCHES) {
            at_least(threshold, self.searched(at, way - 16), holds)
        } else {
            at_least(threshold, self.incoming(at, way - 16), holds)
        }
    }

    fn all_reaching(&self, way: u8, threshold: u8, holds: &[bool]) -> Vec<bool> {
        let labelled = self.labelled.get_or_init(|| Labelled::of(&self.register));
        let links = labelled.by(usize::from(way & 15)).iter();
        let counts = if way < 16 {
            counted(links.map(|[source, target]| (*source, *target)), holds)
        } else {
            counted(links.map(|[source, target]| (*target, *source)), holds)
        };
        let reached = counts.iter().map(|count| *count >= u16::from(threshold));
        reached.collect()
    }
}

/// At how many neighbours of each item the operand holds. Ends at one item often come one after the other.
#[inline(always)]
fn counted(ends: impl Iterator<Item = (u16, u16)>, holds: &[bool]) -> Vec<u16> {
    let mut counts = vec![0; holds.len()];
    let (mut at, mut count) = (0, 0);
    for (near, far) in ends {
        if near != at {
            counts[usize::from(at)] += count;
            (at, count) = (near, 0);
        }
        count += u16::from(holds[usize::from(far)]);
    }
    counts[usize::from(at)] += count;
    counts
}

fn leading([source, label, _]: &[[u8; 2]; 3]) -> [u8; 4] {
    [source[0], source[1], label[0], label[1]]
}

/// Where the links of each item start.
fn starts(register: &Register) -> Vec<u16> {
    let mut starts = vec![0; register.marks.len() + 1];
    for (k, link) in register.links.iter().enumerate() {
        starts[usize::from(fields(link)[0]) + 1] = k as u16 + 1;
    }
    made_starts(&mut starts);
    starts
}

/// Those of x are `ends[starts[x]..starts[x + 1]]`, each label << 10 | item.
struct Incoming {
    starts: Vec<u16>,
    ends: Vec<u16>,
}

impl Incoming {
    fn of(register: &Register) -> Incoming {
        let mut starts = vec![0; register.marks.len() + 2];
        for link in register.links {
            starts[usize::from(fields(link)[2]) + 2] += 1;
        }
        added_up(&mut starts);
        let mut ends = vec![0; register.links.len()];
        for link in register.links {
            let [source, label, target] = fields(link);
            let start = &mut starts[usize::from(target) + 1];
            ends[usize::from(*start)] = label << 10 | source;
            *start += 1;
        }
        Incoming { starts, ends }
    }
}

fn added_up(counts: &mut [u16]) {
    let mut sum = 0;
    for count in counts {
        sum += *count;
        *count = sum;
    }
}

/// The source and the target of each link, by label.
struct Labelled {
    starts: [u16; 18],
    links: Vec<[u16; 2]>,
}

impl Labelled {
    fn of(register: &Register) -> Labelled {
        let mut starts = [0; 18];
        for link in register.links {
            starts[usize::from(fields(link)[1]) + 2] += 1;
        }
        added_up(&mut starts);
        let mut links = vec![[0; 2]; register.links.len()];
        for link in register.links {
            let [source, label, target] = fields(link);
            let start = &mut starts[usize::from(label) + 1];
            links[usize::from(*start)] = [source, target];
            *start += 1;
        }
        Labelled { starts, links }
    }

    fn by(&self, label: usize) -> &[[u16; 2]] {
        &self.links[usize::from(self.starts[label])..usize::from(self.starts[label + 1])]
    }
}
