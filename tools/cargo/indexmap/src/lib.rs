//! Maps and sets in the order of insertion, as the crate indexmap has them, over memory that may be refused.
//!
//! Entries stand in a vector, and their places in the table of std, which is that of hashbrown. Room is asked of both
//! before an entry goes in. (Version 1 of indexmap has no way to ask.)
#![forbid(unsafe_code)]

pub mod map;
pub mod set;

pub use map::IndexMap;
pub use set::IndexSet;
