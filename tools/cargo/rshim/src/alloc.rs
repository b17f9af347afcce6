//! The allocator, refusals, and boxes.

use std::alloc::Layout;
use std::collections::TryReserveError;
use std::error::Error;
use std::{fmt, io};

/// The allocator of the process, as a value.
#[derive(Clone, Copy, Debug, Default)]
pub struct Global;

/// Memory was refused.
#[derive(Clone, Copy, PartialEq, Eq, Debug)]
pub struct AllocError;

impl fmt::Display for AllocError {
    fn fmt(&self, f: &mut fmt::Formatter<'_>) -> fmt::Result {
        f.write_str("out of memory")
    }
}

impl Error for AllocError {}

impl From<TryReserveError> for AllocError {
    fn from(_: TryReserveError) -> AllocError {
        AllocError
    }
}

impl From<AllocError> for io::Error {
    fn from(_: AllocError) -> io::Error {
        io::ErrorKind::OutOfMemory.into()
    }
}

impl From<AllocError> for fmt::Error {
    fn from(_: AllocError) -> fmt::Error {
        fmt::Error
    }
}

/// Memory was refused for a value, which comes back.
#[derive(Debug)]
pub struct AllocFailed<T> {
    /// The value that there was no room for.
    pub value: T,
    /// The refusal.
    pub error: AllocError,
}

impl<T> From<AllocFailed<T>> for AllocError {
    fn from(failed: AllocFailed<T>) -> AllocError {
        failed.error
    }
}

/// A value in a box. `Box::try_new` of std is not stable, so memory is asked of the allocator itself.
///
/// # Errors
/// There is no memory for it: the value comes back.
pub fn boxed<T>(_: Global, value: T) -> Result<Box<T>, AllocFailed<T>> {
    let layout = Layout::new::<T>();
    if layout.size() == 0 {
        return Ok(Box::new(value));
    }
    // SAFETY: the layout is not empty. The place is the global allocator's, of this layout, and is written before a box
    // is made of it, as `Box::from_raw` asks.
    unsafe {
        let place = std::alloc::alloc(layout).cast::<T>();
        if place.is_null() {
            let error = AllocError;
            return Err(AllocFailed { value, error });
        }
        place.write(value);
        Ok(Box::from_raw(place))
    }
}

/// The value of a box.
#[allow(clippy::boxed_local)]
pub fn unboxed<T>(value: Box<T>) -> T {
    *value
}

#[cfg(test)]
mod tests {
    use super::*;

    #[test]
    fn a_box_holds_its_value_and_gives_it_back() -> Result<(), AllocError> {
        let text = boxed(Global, std::string::String::from("held"))?;
        assert_eq!(text.as_str(), "held");
        assert_eq!(unboxed(text), "held");
        Ok(())
    }

    #[test]
    fn a_value_without_bytes_takes_no_memory() -> Result<(), AllocError> {
        unboxed(boxed(Global, ())?);
        Ok(())
    }

    #[test]
    fn a_refusal_is_told_as_text() {
        assert_eq!(AllocError.to_string(), "out of memory");
        assert_eq!(io::Error::from(AllocError).kind(), io::ErrorKind::OutOfMemory);
    }
}
