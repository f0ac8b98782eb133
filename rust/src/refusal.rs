//! The refusals: document 01's "numbers given when the tablet says no", as one type with a name for
//! each number.

use std::error::Error;
use std::fmt;

/// Why a call refused. Each has document 01's number, and displays itself in plain words.
///
/// Of several faults a call names the first, in the order stated at the call. A refusal leaves
/// every lent byte as it was.
///
/// The list is complete on purpose: code that matches on it, and a later version that knows one
/// more number, meet in the compiler, and not on a site.
///
/// ```
/// use hestovane::{check, Refusal};
///
/// let refusal = check(b"no register", b"").unwrap_err();
/// assert_eq!(refusal, Refusal::Header);
/// assert_eq!(refusal.number(), 1);
/// println!("{refusal}"); // refused 1: the register is under 12 bytes, or ..
/// ```
#[derive(Clone, Copy, PartialEq, Eq, Hash, Debug)]
#[repr(u8)]
pub enum Refusal {
    /// 1: the register is under 12 bytes; or its offsets, total, zero field or length are wrong.
    Header = 1,
    /// 2: the register has more than 1,024 items or 2,048 links.
    Size = 2,
    /// 3: a link's item is not there, its label is above 15, or the order is not strict.
    Link = 3,
    /// 4: level or caps are out of range. [`Level`](crate::Level),
    /// [`NeighbourCap`](crate::NeighbourCap) and [`ClassCap`](crate::ClassCap) cannot be, so no
    /// function of this crate gives it.
    Range = 4,
    /// 5: the question is malformed.
    Question = 5,
    /// 6: the summary is not well formed.
    Summary = 6,
    /// 7: the question is deeper than the summary's level, or a threshold is above its neighbour
    /// cap plus one.
    Beyond = 7,
    /// 8: no item has that number.
    Item = 8,
    /// 9: the lent buffer is shorter than the answer.
    Room = 9,
}

impl Refusal {
    /// Document 01's number, 1 to 9.
    pub const fn number(self) -> u8 {
        self as u8
    }

    /// What a call's number below zero stands for.
    pub(crate) fn of_code(code: i32) -> Refusal {
        match code {
            -1 => Refusal::Header,
            -2 => Refusal::Size,
            -3 => Refusal::Link,
            -4 => Refusal::Range,
            -5 => Refusal::Question,
            -6 => Refusal::Summary,
            -7 => Refusal::Beyond,
            -8 => Refusal::Item,
            -9 => Refusal::Room,
            _ => panic!(
                "a call gave {code}, which stands for nothing: \
                 this is not the archive that the crate was made for"
            ),
        }
    }

    fn words(self) -> &'static str {
        match self {
            Refusal::Header => {
                "the register is under 12 bytes, or has a wrong offset, total, zero field or length"
            }
            Refusal::Size => "the register has more than 1,024 items or more than 2,048 links",
            Refusal::Link => {
                "a link of the register names an item that is not there or a label above 15, \
                 or links do not ascend strictly"
            }
            Refusal::Range => {
                "the level is not 1 to 4, the neighbour cap not 1 to 7 or the class cap not 1 to 15"
            }
            Refusal::Question => "the question is malformed",
            Refusal::Summary => "the summary is not well formed",
            Refusal::Beyond => {
                "the question is deeper than the summary's level, \
                 or has a threshold above its neighbour cap plus one"
            }
            Refusal::Item => "no item has that number",
            Refusal::Room => "the buffer is shorter than the answer",
        }
    }
}

impl fmt::Display for Refusal {
    fn fmt(&self, f: &mut fmt::Formatter<'_>) -> fmt::Result {
        write!(f, "refused {}: {}", self.number(), self.words())
    }
}

impl Error for Refusal {}

#[cfg(test)]
mod tests {
    use super::*;

    #[test]
    fn every_number_has_its_refusal() {
        for number in 1..=9 {
            let refusal = Refusal::of_code(-i32::from(number));
            assert_eq!(refusal.number(), number);
            assert!(refusal
                .to_string()
                .starts_with(&format!("refused {number}: ")));
        }
    }

    #[test]
    #[should_panic(expected = "this is not the archive")]
    fn an_unknown_number_is_no_refusal() {
        Refusal::of_code(-10);
    }
}
