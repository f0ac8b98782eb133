//! Capped counts, and the ranges of the level and the two caps. The value one above a cap says
//! "more than the cap" and never an exact number.

/// Level, neighbour cap and class cap, in range or not.
pub type LevelAndCaps = (usize, usize, usize);

/// "A count capped at k is the count itself up to k, and k + 1 for anything more."
pub fn capped(count: usize, cap: usize) -> usize {
    if count <= cap {
        count
    } else {
        cap + 1
    }
}

/// "Level i is 1 to 4, neighbour cap µ is 1 to 7, class cap ν is 1 to 15."
pub fn in_range(level: usize, neighbour_cap: usize, class_cap: usize) -> bool {
    (1..=4).contains(&level) && (1..=7).contains(&neighbour_cap) && (1..=15).contains(&class_cap)
}
