//! The whole trial: all families, in the order in which they are carried out. First those of each
//! file, one behind the other. Then those that go by seed, all at once: seed after seed, and within
//! a seed a line of each that has it. They throw the same register, which so is sent once, and
//! behind it only what a family changes in it.

use crate::asking::ASKED;
use crate::checking::CHECKED;
use crate::condensing::CONDENSED;
use crate::five::FIVE;
use crate::judging::SEEDED;
use crate::listing::FOUND;
use crate::trial::Trial;
use crate::{asking, checking, condensing, judging, limits_run, listing, wrecked};

/// A family with one line for each seed, from 1 on.
pub struct BySeed {
    pub last: u64,
    pub line: fn(&mut Trial, u64),
}

/// In the order within a seed. It makes few commands: first come those that need the register as it
/// was thrown, of these first the one that needs another beside it; then those that damage it.
const BY_SEED: [BySeed; 6] = [CHECKED, ASKED, FOUND, SEEDED, CONDENSED, FIVE];

pub fn trial() -> Trial {
    let mut trial = Trial::default();
    let parts = [
        judging::run,
        asking::run,
        condensing::run,
        checking::run,
        wrecked::run,
        listing::run,
        limits_run::run,
    ];
    for part in parts {
        part(&mut trial);
    }
    run_by_seed(&mut trial, &BY_SEED);
    trial
}

pub fn run_by_seed(trial: &mut Trial, families: &[BySeed]) {
    let last = families.iter().map(|family| family.last).max();
    for seed in 1..=last.unwrap_or(0) {
        for family in families.iter().filter(|family| seed <= family.last) {
            (family.line)(trial, seed);
        }
    }
}
