//! Texts whose room may be refused.

use crate::Vec;
use crate::alloc::{AllocError, Global};
use std::borrow::Borrow;
use std::fmt;
use std::ops::Deref;
use std::string::FromUtf8Error;

/// A string of std that answers a refusal. It lends itself as a `str`.
#[derive(PartialEq, Eq, PartialOrd, Ord, Hash)]
pub struct String {
    text: std::string::String,
}

impl String {
    /// The empty text. It takes no memory.
    pub const fn new(_: Global) -> String {
        String { text: std::string::String::new() }
    }

    /// An empty text with room for so many bytes.
    ///
    /// # Errors
    /// There is no memory for them.
    pub fn with_capacity(alloc: Global, count: usize) -> Result<String, AllocError> {
        let mut made = String::new(alloc);
        made.text.try_reserve_exact(count)?;
        Ok(made)
    }

    /// A copy of a `str`.
    ///
    /// # Errors
    /// There is no memory for it.
    // The name is that of Rattle's std; `FromStr` takes no allocator.
    #[allow(clippy::should_implement_trait)]
    pub fn from_str(alloc: Global, text: &str) -> Result<String, AllocError> {
        let mut made = String::with_capacity(alloc, text.len())?;
        made.text.push_str(text);
        Ok(made)
    }

    /// The text that bytes are, with no copy.
    ///
    /// # Errors
    /// They are not UTF-8.
    pub fn from_utf8(bytes: Vec<u8>) -> Result<String, FromUtf8Error> {
        let text = std::string::String::from_utf8(bytes.into_std())?;
        Ok(String { text })
    }

    /// The text as a `str`.
    pub fn as_str(&self) -> &str {
        &self.text
    }

    /// The bytes, with no copy.
    pub fn into_bytes(self) -> Vec<u8> {
        self.text.into_bytes().into()
    }

    /// Appends a text.
    ///
    /// # Errors
    /// There is no memory for it, and nothing has changed.
    pub fn push_str(&mut self, text: &str) -> Result<(), AllocError> {
        self.text.try_reserve(text.len())?;
        self.text.push_str(text);
        Ok(())
    }

    /// Appends a character.
    ///
    /// # Errors
    /// There is no memory for it, and nothing has changed.
    pub fn push(&mut self, character: char) -> Result<(), AllocError> {
        self.text.try_reserve(character.len_utf8())?;
        self.text.push(character);
        Ok(())
    }

    /// Takes the last character off.
    pub fn pop(&mut self) -> Option<char> {
        self.text.pop()
    }

    /// Lets the bytes from a place on go, which is one between characters.
    pub fn truncate(&mut self, count: usize) {
        self.text.truncate(count);
    }

    /// Lets all go.
    pub fn clear(&mut self) {
        self.text.clear();
    }

    /// Makes room for so many more bytes.
    ///
    /// # Errors
    /// There is no memory for them.
    pub fn reserve(&mut self, count: usize) -> Result<(), AllocError> {
        Ok(self.text.try_reserve(count)?)
    }

    /// The allocator.
    pub fn allocator(&self) -> &Global {
        &Global
    }

    /// What `write!` calls: appends a formatted text.
    ///
    /// # Errors
    /// There is no memory for it, and a front of it was appended.
    pub fn write_fmt(&mut self, arguments: fmt::Arguments<'_>) -> Result<(), AllocError> {
        fmt::Write::write_fmt(&mut Sink(self), arguments).map_err(|_| AllocError)
    }

    /// The string of std, with no copy.
    pub fn into_std(self) -> std::string::String {
        self.text
    }
}

/// A text as a writer. That of std ends the process where memory is refused.
struct Sink<'a>(&'a mut String);

impl fmt::Write for Sink<'_> {
    fn write_str(&mut self, text: &str) -> fmt::Result {
        Ok(self.0.push_str(text)?)
    }
}

/// What `format!` calls.
///
/// # Errors
/// There is no memory for the text.
pub fn formatted(alloc: Global, arguments: fmt::Arguments<'_>) -> Result<String, AllocError> {
    let mut made = String::new(alloc);
    made.write_fmt(arguments)?;
    Ok(made)
}

impl From<std::string::String> for String {
    fn from(text: std::string::String) -> String {
        String { text }
    }
}

impl Deref for String {
    type Target = str;

    fn deref(&self) -> &str {
        &self.text
    }
}

impl Borrow<str> for String {
    fn borrow(&self) -> &str {
        &self.text
    }
}

impl fmt::Debug for String {
    fn fmt(&self, f: &mut fmt::Formatter<'_>) -> fmt::Result {
        fmt::Debug::fmt(&self.text, f)
    }
}

impl fmt::Display for String {
    fn fmt(&self, f: &mut fmt::Formatter<'_>) -> fmt::Result {
        fmt::Display::fmt(&self.text, f)
    }
}

#[cfg(test)]
mod tests {
    use super::*;

    #[test]
    fn pieces_make_one_text() -> Result<(), AllocError> {
        let mut made = crate::format!(in Global; "{}:{:?}", 1, "a")?;
        made.push('é')?;
        write!(made, " {}", 2)?;
        assert_eq!(made.as_str(), "1:\"a\"é 2");
        assert_eq!((made.pop(), made.pop()), (Some('2'), Some(' ')));
        made.truncate(1);
        assert_eq!(made.into_bytes().as_slice(), b"1");
        Ok(())
    }

    #[test]
    fn bytes_that_are_no_text_are_told() {
        assert!(String::from_utf8(std::vec![0xff].into()).is_err());
    }

    #[test]
    fn a_text_hashes_as_its_str() {
        use std::hash::{BuildHasher, RandomState};
        let state = RandomState::new();
        let text = String::from(std::string::String::from("name"));
        assert_eq!(state.hash_one(&text), state.hash_one("name"));
    }
}
