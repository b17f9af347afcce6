//! A buffer that holds the digits of one number.

/// As many bytes as the least number of 128 bits has.
const ROOM: usize = 40;

/// A number with a sign and a size.
pub trait Integer: Copy {
    /// Whether it is below 0.
    fn is_negative(self) -> bool;
    /// Its size.
    fn size(self) -> u128;
}

macro_rules! integers {
    ($($unsigned:ty, $signed:ty;)*) => {$(
        impl Integer for $unsigned {
            fn is_negative(self) -> bool {
                false
            }

            fn size(self) -> u128 {
                self as u128
            }
        }

        impl Integer for $signed {
            fn is_negative(self) -> bool {
                self < 0
            }

            fn size(self) -> u128 {
                self.unsigned_abs() as u128
            }
        }
    )*};
}

integers! {
    u8, i8;
    u16, i16;
    u32, i32;
    u64, i64;
    u128, i128;
    usize, isize;
}

/// Room for the digits of a number.
#[derive(Debug)]
pub struct Buffer {
    bytes: [u8; ROOM],
}

impl Buffer {
    /// A buffer without digits.
    #[allow(clippy::new_without_default)]
    pub fn new() -> Buffer {
        Buffer { bytes: [0; ROOM] }
    }

    /// The number in decimal digits.
    pub fn format<I: Integer>(&mut self, number: I) -> &str {
        let mut at = ROOM;
        let mut rest = number.size();
        // Numbers are mostly small, and a division of 128 bits is slow.
        while rest > u128::from(u64::MAX) {
            at -= 1;
            self.bytes[at] = b'0' + (rest % 10) as u8;
            rest /= 10;
        }
        let mut rest = rest as u64;
        loop {
            at -= 1;
            self.bytes[at] = b'0' + (rest % 10) as u8;
            rest /= 10;
            if rest == 0 {
                break;
            }
        }
        if number.is_negative() {
            at -= 1;
            self.bytes[at] = b'-';
        }
        str::from_utf8(&self.bytes[at..]).unwrap_or_default()
    }
}
