//! The trial as a whole: how many lines it has, and in which order those come that go by seed.

use super::replay::TRIAL;

/// A family that goes by seed, and its last seed, in the order within a seed.
const BY_SEED: [(&str, u64); 6] = [
    ("checked", 2_000),
    ("asked", 2_000),
    ("found", 2_000),
    ("seeded", 3_000),
    ("condensed", 2_000),
    ("five", 4_000),
];

#[test]
fn all_lines() {
    assert_eq!(TRIAL.lines().lines().count(), 19_430);
}

#[test]
fn seed_after_seed_behind_all_others() {
    let expected: Vec<String> = (1..=4_000)
        .flat_map(|seed| BY_SEED.map(|(family, last)| (family, seed, last)))
        .filter(|(_, seed, last)| seed <= last)
        .map(|(family, seed, _)| format!("{family} {seed} "))
        .collect();
    let lines: Vec<&str> = TRIAL.lines().lines().collect();
    let (others, by_seed) = lines.split_at(lines.len() - expected.len());
    for (line, case) in by_seed.iter().zip(&expected) {
        assert!(line.starts_with(case), "{line}");
    }
    for line in others {
        let (name, _) = line.split_once(' ').expect("a family first");
        assert!(BY_SEED.iter().all(|(family, _)| name != *family), "{line}");
    }
}
