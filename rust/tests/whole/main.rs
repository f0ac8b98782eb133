//! The crate over the real archive: document 01's examples, the refusals of every call, the limits
//! of the builders, the reader, the stack that a call takes; and that include/hestovane.h and the
//! dumps in docs/FORMATS.md say the same.

mod examples;
mod formats;
mod header;
mod limits;
mod reader;
mod refusals;
mod samples;
mod stack;
