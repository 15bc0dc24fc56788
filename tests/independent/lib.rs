//! A second implementation of document 01, written from that document alone, to compare the product with. It shares nothing
//! with the crates: other data, other ways, no limits on memory.

pub mod compile;
pub mod fenced;
pub mod image;
pub mod interpret;
pub mod judge;
pub mod random;
pub mod rule;
pub mod samples;
pub mod stored;
pub mod texts;
pub mod tokens;
