//! The values that JSON is read into.
//!
//! The crates ask of a value whether it is null, a truth, a text, a whole number or an
//! array, so other numbers and the members of objects are not kept.
use crate::parser;
use rshim::alloc::{AllocError, Global};
use rshim::{String, Vec};

/// A value of JSON.
#[derive(Debug, PartialEq)]
pub enum Value {
    /// `null`.
    Null,
    /// `true` or `false`.
    Bool(bool),
    /// A number.
    Number(Number),
    /// A text.
    String(String),
    /// An array.
    Array(Vec<Value>),
    /// An object, whose members were read and are not kept.
    Object,
}

/// A number of JSON.
#[derive(Clone, Copy, Debug, PartialEq)]
pub enum Number {
    /// A whole number from 0 to 2^64 - 1, written with digits alone.
    U64(u64),
    /// Any other.
    Other,
}

/// Why there is no value.
#[derive(Clone, Copy, Debug, PartialEq)]
pub enum Error {
    /// There is no memory for it.
    Memory,
    /// The bytes are not JSON.
    Json,
}

impl Error {
    /// Whether memory was refused, which says nothing of the bytes.
    pub fn is_memory(&self) -> bool {
        matches!(self, Error::Memory)
    }
}

impl From<AllocError> for Error {
    fn from(_: AllocError) -> Error {
        Error::Memory
    }
}

impl Value {
    /// The value that bytes spell.
    ///
    /// # Errors
    /// `Json` where they are not JSON; there may be no memory.
    pub fn from_slice(alloc: Global, bytes: &[u8]) -> Result<Value, Error> {
        parser::read(alloc, bytes)
    }

    /// The text of JSON that a text is.
    ///
    /// # Errors
    /// There is no memory for it.
    pub fn to_string(&self, alloc: Global) -> Result<String, AllocError> {
        parser::written(alloc, self.as_str().unwrap_or_default())
    }

    /// The number, if it is a whole one from 0 to 2^64 - 1.
    pub fn as_u64(&self) -> Option<u64> {
        match self {
            Value::Number(Number::U64(number)) => Some(*number),
            _ => None,
        }
    }

    /// The text, if it is one.
    pub fn as_str(&self) -> Option<&str> {
        match self {
            Value::String(text) => Some(text),
            _ => None,
        }
    }

    /// The truth, if it is one.
    pub fn as_bool(&self) -> Option<bool> {
        match self {
            Value::Bool(truth) => Some(*truth),
            _ => None,
        }
    }

    /// The elements, if it is an array.
    pub fn as_array(&self) -> Option<&Vec<Value>> {
        match self {
            Value::Array(elements) => Some(elements),
            _ => None,
        }
    }

    /// Whether it is `null`.
    pub fn is_null(&self) -> bool {
        matches!(self, Value::Null)
    }

    /// A text as a value.
    ///
    /// # Errors
    /// There is no memory for it.
    pub fn try_from_str(alloc: Global, text: &str) -> Result<Value, AllocError> {
        Ok(Value::String(String::from_str(alloc, text)?))
    }
}
