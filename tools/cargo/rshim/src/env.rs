//! The runtime that `main` of Rattle is given: the words of the process, its allocator and its three ends.

use crate::alloc::{AllocError, Global};
use crate::io::End;
use crate::{String, Vec};
use std::io;

/// The process, as a value.
#[derive(Debug)]
pub struct HostRuntime;

/// What lends an allocator.
pub trait AllocGlobal {
    /// The allocator.
    fn alloc(&self) -> Global;
}

impl AllocGlobal for HostRuntime {
    fn alloc(&self) -> Global {
        Global
    }
}

/// What knows the words that the process was called with.
pub trait Env {}

impl Env for HostRuntime {}

impl HostRuntime {
    /// The allocator.
    pub fn alloc(&self) -> Global {
        Global
    }

    /// Standard input, without a buffer.
    pub fn stdin(&self) -> End {
        End::stdin()
    }

    /// Standard input, without a buffer.
    pub fn reader(&self) -> End {
        End::stdin()
    }

    /// Standard output, without a buffer.
    pub fn stdout(&self) -> End {
        End::stdout()
    }

    /// Standard error, without a buffer.
    pub fn stderr(&self) -> End {
        End::stderr()
    }
}

/// The words of the process, its own name first. Rust's std gathers them first, and ends the process where it has no
/// memory for that.
///
/// # Errors
/// `InvalidData` where a word is not UTF-8, `OutOfMemory` where there is no memory for the list.
pub fn args(_: &impl Env) -> io::Result<std::vec::IntoIter<String>> {
    let given = std::env::args_os();
    let mut words = Vec::with_capacity(Global, given.len())?;
    for word in given {
        let word = word.into_string().map_err(|_| io::ErrorKind::InvalidData)?;
        words.push(String::from(word)).map_err(AllocError::from)?;
    }
    Ok(words.into_iter())
}
