//! A call with its input, for the plain version and the proved library alike.

use crate::{plain, proved};

pub enum Call<'a> {
    Condense {
        i: u16,
        mu: u16,
        nu: u16,
        reg: &'a [u8],
    },
    Check {
        reg: &'a [u8],
        sum: &'a [u8],
    },
    AskRegister {
        reg: &'a [u8],
        q: &'a [u8],
        item: u16,
    },
    AskSummary {
        sum: &'a [u8],
        q: &'a [u8],
        item: u16,
    },
    List {
        sum: &'a [u8],
        q: &'a [u8],
    },
}

impl Call<'_> {
    pub fn plain(&self, out: &mut [u8]) -> i32 {
        match *self {
            Call::Condense { i, mu, nu, reg } => plain::condense(i, mu, nu, reg, out),
            Call::Check { reg, sum } => plain::check(reg, sum),
            Call::AskRegister { reg, q, item } => plain::ask_register(reg, q, item),
            Call::AskSummary { sum, q, item } => plain::ask_summary(sum, q, item),
            Call::List { sum, q } => plain::list(sum, q, out),
        }
    }

    pub fn proved(&self, out: &mut [u8]) -> i32 {
        match *self {
            Call::Condense { i, mu, nu, reg } => proved::condense(i, mu, nu, reg, out),
            Call::Check { reg, sum } => proved::check(reg, sum),
            Call::AskRegister { reg, q, item } => proved::ask_register(reg, q, item),
            Call::AskSummary { sum, q, item } => proved::ask_summary(sum, q, item),
            Call::List { sum, q } => proved::list(sum, q, out),
        }
    }
}
