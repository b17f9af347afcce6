//! The buffer of the crate itoa.

pub use real::{Buffer, Integer};
