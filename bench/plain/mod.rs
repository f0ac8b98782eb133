//! The five calls in plain Rust, for speed: the measure that the proved library is held against. They take the same bytes,
//! make every check that document 01 demands, in its order, and give the same numbers and the same bytes. No unsafe code and
//! no intrinsics; nothing is kept between calls.

mod ask;
mod check;
mod class_links;
mod classes;
mod condense;
mod field;
mod ground;
mod items;
mod level;
mod neighbours;
mod question;
mod register;
mod rows;
mod summary;

pub use ask::{ask_register, ask_summary, list};
pub use check::check;
pub use condense::condense;
