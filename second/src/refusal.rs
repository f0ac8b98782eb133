//! The numbers given when the tablet says no.
//! Each kind of refusal has its number as its value.

#[derive(Clone, Copy, PartialEq, Eq, Debug)]
pub enum Refusal {
    /// Register under 12 bytes; or wrong offsets, total, zero field or length.
    RegisterForm = 1,
    /// n > 1,024 or m > 2,048.
    RegisterLimits = 2,
    /// A link's item ≥ n, its label > 15, or order not strict.
    RegisterLinks = 3,
    /// i, µ or ν out of range.
    LevelOrCaps = 4,
    /// Question malformed.
    QuestionForm = 5,
    /// Summary not well formed.
    SummaryForm = 6,
    /// Question deeper than i, or a threshold above µ + 1.
    QuestionReach = 7,
    /// Item number ≥ n.
    ItemNumber = 8,
    /// Output buffer shorter than the answer.
    Room = 9,
}

impl Refusal {
    pub fn number(self) -> u8 {
        self as u8
    }
}
