//! Digits, into room that is there.

const DIGITS: &[u8; 16] = b"0123456789abcdef";

pub(crate) fn decode(text: &[u8], bytes: &mut [u8]) -> Result<(), ()> {
    if !text.len().is_multiple_of(2) {
        return Err(());
    }
    for (pair, byte) in text.chunks_exact(2).zip(bytes) {
        *byte = value(pair[0])? * 16 + value(pair[1])?;
    }
    Ok(())
}

/// The value of a digit in either case.
fn value(digit: u8) -> Result<u8, ()> {
    match digit {
        b'0'..=b'9' => Ok(digit - b'0'),
        b'a'..=b'f' => Ok(digit - b'a' + 10),
        b'A'..=b'F' => Ok(digit - b'A' + 10),
        _ => Err(()),
    }
}

/// Writes into twice as many bytes as are given.
pub(crate) fn encode(bytes: &[u8], text: &mut [u8]) {
    for (byte, pair) in bytes.iter().zip(text.chunks_exact_mut(2)) {
        pair[0] = DIGITS[usize::from(byte / 16)];
        pair[1] = DIGITS[usize::from(byte % 16)];
    }
}
