//! Crane registers condensed into summaries, and questions answered from them: the safe Rust side
//! of the proved library Hestovane.
//!
//! A register has items with marks, joined by labelled links. Its summary keeps, in its place, the
//! classes of items with like marks and like surroundings, and the numbers of their neighbours up
//! to a cap. **A missing entry does not mean a passed item**: no row means count zero, and one
//! above a cap means "more", and is no figure ([`Count`]).
//!
//! # The whole way
//!
//! Which hoists hang over a failed hook, from the summary alone:
//!
//! ```
//! use hestovane::{condense, list, ClassCap, Level, NeighbourCap};
//! use hestovane::{Direction, Label, Mark, Question, Register, Threshold};
//!
//! const HOIST: Mark = Mark::of(1);
//! const HOOK: Mark = Mark::of(2);
//! const PASSED: Mark = Mark::of(3);
//! const FAILED: Mark = Mark::of(4);
//! const CARRIES: Label = Label::of(0);
//!
//! let mut register = Register::new();
//! let first = register.add_item([HOIST])?;
//! let second = register.add_item([HOIST])?;
//! let good = register.add_item([HOOK, PASSED])?;
//! let bad = register.add_item([HOOK, FAILED])?;
//! register.add_link(first, CARRIES, good)?;
//! register.add_link(second, CARRIES, bad)?;
//!
//! let (level, near, class) = (Level::of(1), NeighbourCap::of(1), ClassCap::of(1));
//! let summary = condense(&register.to_bytes(), level, near, class)?;
//!
//! let (one, failed) = (Threshold::of(1), Question::has(FAILED));
//! let carries_failed = Question::at_least(one, Direction::Out, CARRIES, failed)?;
//! let question = Question::has(HOIST).and(carries_failed)?;
//! assert_eq!(list(&summary, question.as_bytes())?, [second]);
//! # Ok::<(), Box<dyn std::error::Error>>(())
//! ```
//!
//! # The calls
//!
//! [`condense`], [`check`], [`ask_register`], [`ask_summary`] and [`list`] are the proved library's
//! five calls. Each takes any bytes, judges them for itself, and gives an answer or a [`Refusal`]
//! with document 01's number. Registers, summaries and questions are handed over as the bytes of
//! their files, so that one that was sent or stored is as good as one built here; handing one over
//! for another is refused. [`condense_into`] and [`list_into`] write into a lent buffer.
//!
//! # What cannot be built
//!
//! [`Register`] and [`Question`] build files that no call refuses as malformed, and [`Summary`]
//! reads well-formed ones only:
//!
//! - A level, cap, label, mark or threshold out of range: their types have no such value. `new`
//!   gives [`BuildError::OutOfRange`]; `of` panics, and in a `const` does not compile.
//! - More than 1,024 items: [`Register::add_item`] gives [`BuildError::TooManyItems`].
//! - A link to or from an item that is not there, the same link twice, more than 2,048 links:
//!   [`Register::add_link`] gives [`BuildError::NoSuchItem`], [`BuildError::LinkTwice`],
//!   [`BuildError::TooManyLinks`].
//! - Links out of order, wrong offsets, a wrong length: there is no way to ask for them.
//! - A question of more than 64 entries: the step that would make it gives
//!   [`BuildError::TooManyEntries`].
//! - A question without entries, with an operand missing or left over, or with a literal that is no
//!   mark: there is no way to ask for it.
//! - A summary that is not well formed: [`Summary::read`] gives [`Refusal::Summary`].
//!
//! # Linking, stack and threads
//!
//! The crate links `libhestovane.a`, which `./library`, in the folder above, proves and builds into
//! `target/native`, for x86-64. An archive elsewhere is named by the whole path of its folder in
//! the environment variable `HESTOVANE_LIB_DIR`. An archive that answers as no call does is not
//! this library, and the crate panics rather than hand its answer on.
//!
//! A call takes up to 177 KiB of stack, its thread's start included, and not much less for a small
//! register: 177 KiB for [`check`] and [`Summary::read`], 152 for [`condense`], 134 for
//! [`ask_summary`] and [`list`], 91 for [`ask_register`], as measured.
//! Threads have 2 MiB unless told otherwise; lend one that calls in here 256 KiB or more. With too
//! little the process ends with a stack overflow, as it does in Rust's own code. The calls keep
//! nothing between them, so any number of threads may call at once.

#![deny(missing_docs, unsafe_code)]

mod bounded;
mod build_error;
mod bytes;
mod calls;
mod count;
mod marks;
mod names;
mod native;
mod question;
mod refusal;
mod register;
mod summary;

pub use bounded::{ClassCap, Direction, Label, Level, Mark, NeighbourCap, Threshold};
pub use build_error::BuildError;
pub use calls::{ask_register, ask_summary, check, condense, condense_into, list, list_into};
pub use count::Count;
pub use marks::Marks;
pub use names::{Class, Group, Item};
pub use question::Question;
pub use refusal::Refusal;
pub use register::Register;
pub use summary::{ClassLink, ClassRecord, Row, Summary};

/// No register is longer.
pub const REGISTER_MOST: usize = 16_396;

/// No summary is longer: a buffer of this many bytes has room for every one.
pub const SUMMARY_MOST: usize = 55_320;

/// No question is longer.
pub const QUESTION_MOST: usize = 256;

/// No list is longer: a buffer of this many bytes has room for every one.
pub const LIST_MOST: usize = 2_048;
