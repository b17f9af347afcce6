//! JSON over memory that may be refused.
#![forbid(unsafe_code)]

mod parser;
mod value;

pub use value::{Error, Number, Value};

#[cfg(test)]
mod tests;
