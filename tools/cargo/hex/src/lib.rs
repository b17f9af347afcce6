//! Hexadecimal digits over memory that may be refused.
#![forbid(unsafe_code)]

mod digits;

use rshim::alloc::{AllocError, Global};
use rshim::{String, Vec, vec};

/// Why a text is no hexadecimal digits.
#[derive(Debug)]
pub enum FromHexError {
    /// There is no memory for the bytes.
    OutOfMemory,
    /// It has other characters, or an odd number of them.
    Wrong,
}

/// The bytes that a text of digits in either case spells.
///
/// # Errors
/// The text is something else, or there is no memory.
pub fn decode(alloc: Global, text: &str) -> Result<Vec<u8>, FromHexError> {
    let mut bytes = vec![in alloc; 0; text.len() / 2].map_err(|_| FromHexError::OutOfMemory)?;
    digits::decode(text.as_bytes(), &mut bytes).map_err(|()| FromHexError::Wrong)?;
    Ok(bytes)
}

/// Two lower-case digits for each byte.
///
/// # Errors
/// There is no memory for them.
pub fn encode(alloc: Global, bytes: &[u8]) -> Result<String, AllocError> {
    let mut text = vec![in alloc; 0; bytes.len() * 2]?;
    digits::encode(bytes, &mut text);
    String::from_utf8(text).map_err(|_| AllocError)
}

#[cfg(test)]
mod tests {
    use super::*;

    #[test]
    fn digits_are_read_in_either_case() -> Result<(), FromHexError> {
        assert_eq!(decode(Global, "")?.as_slice(), b"");
        assert_eq!(decode(Global, "00ff7EaB")?.as_slice(), b"\x00\xff\x7e\xab");
        for text in ["0", "0g", "é", "0 ", " 0", "+1", "0x"] {
            assert!(matches!(decode(Global, text), Err(FromHexError::Wrong)), "{text:?}");
        }
        Ok(())
    }

    #[test]
    fn bytes_are_written_in_lower_case() -> Result<(), AllocError> {
        assert_eq!(encode(Global, b"\x00\xff\x7e\xab")?.as_str(), "00ff7eab");
        Ok(())
    }
}
