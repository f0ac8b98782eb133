//! How many neighbours an item has by each way in each group: what the rows of a summary say,
//! what the levels are refined by, and what the check counts again.

use crate::caps::capped;
use crate::link::Way;
use crate::numbers::{Group, Item};
use crate::register::Register;
use std::collections::BTreeMap;

/// Counts by way and group. "Zero counts have no row": what is not there is zero.
pub type Counts = BTreeMap<(Way, Group), usize>;

/// The item's neighbours by way and group, capped, where `groups` gives the group of each item.
pub fn neighbour_counts(register: &Register, item: Item, groups: &[Group], cap: usize) -> Counts {
    let mut counts = Counts::new();
    for link in &register.links {
        for (way, here, neighbour) in link.both_ways() {
            if here == item {
                *counts.entry((way, groups[neighbour.0])).or_insert(0) += 1;
            }
        }
    }
    for count in counts.values_mut() {
        *count = capped(*count, cap);
    }
    counts
}
