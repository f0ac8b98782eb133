//! A capped count, as a summary states it: exact up to the cap, and beyond it only "more".

use std::fmt;

/// A number of neighbours or of items, counted up to a cap. Beyond the cap it is no figure, and
/// this type has none to offer: "more than 1" cannot be taken for 1, or for 2.
///
/// ```
/// use hestovane::Count;
///
/// fn told(hooks: Count) -> String {
///     match hooks {
///         Count::Exactly(n) => format!("{n} hooks"),
///         Count::MoreThan(cap) => format!("more than {cap} hooks"),
///     }
/// }
/// assert_eq!(told(Count::MoreThan(1)), "more than 1 hooks");
/// assert_eq!(Count::MoreThan(1).to_string(), ">1");
/// ```
#[derive(Clone, Copy, PartialEq, Eq, Hash, Debug)]
pub enum Count {
    /// Neither more nor fewer.
    Exactly(u8),
    /// More than this cap, and how many more is not known.
    MoreThan(u8),
}

impl Count {
    /// What a file's number stands for: the count itself up to the cap, and the value one above for
    /// anything more.
    pub(crate) fn stated(number: u16, cap: u8) -> Count {
        match u8::try_from(number) {
            Ok(exact) if exact <= cap => Count::Exactly(exact),
            _ => Count::MoreThan(cap),
        }
    }
}

impl fmt::Display for Count {
    fn fmt(&self, f: &mut fmt::Formatter<'_>) -> fmt::Result {
        match self {
            Count::Exactly(n) => write!(f, "{n}"),
            Count::MoreThan(cap) => write!(f, ">{cap}"),
        }
    }
}
