//! Numbers as decimal digits, without memory.
#![forbid(unsafe_code)]

mod buffer;

pub use buffer::{Buffer, Integer};

/// Writes the digits of a number so that they end before `end`, and gives where they begin.
///
/// # Panics
/// There is no room for them.
pub fn write_digits(number: u64, buffer: &mut [u8], end: usize) -> usize {
    let mut digits = Buffer::new();
    let digits = digits.format(number).as_bytes();
    let start = end - digits.len();
    buffer[start..end].copy_from_slice(digits);
    start
}

#[cfg(test)]
mod tests {
    use super::*;

    #[test]
    fn numbers_are_written_as_std_writes_them() {
        for number in [0, 1, 9, 10, 99, 100, u64::MAX / 2, u64::MAX] {
            assert_eq!(Buffer::new().format(number), number.to_string());
        }
        for number in [0, -1, 7, i128::MIN, i128::MAX] {
            assert_eq!(Buffer::new().format(number), number.to_string());
        }
    }

    #[test]
    fn digits_end_where_they_are_wanted() {
        let mut buffer = *b"........";
        assert_eq!(write_digits(1234, &mut buffer, 6), 2);
        assert_eq!(&buffer, b"..1234..");
    }
}
