//! Sets of flags beside those of the crate bitflags.

use bitflags::{Flag, Flags};

real::bitflags! {
    struct Theirs: u8 {
        const ONE = 1;
        const TWO = 2;
        const FOUR = 4;
    }
}

struct Ours(u8);

impl Flags for Ours {
    type Bits = u8;

    fn flags<'a>() -> &'a [Flag<Ours>] {
        &[]
    }

    fn bits(&self) -> u8 {
        self.0
    }

    fn from_bits_retain(bits: u8) -> Ours {
        Ours(bits)
    }
}

#[test]
fn sets_answer_as_those_of_bitflags() {
    for bits in 0..8 {
        let (ours, theirs) = (Ours::from_bits_retain(bits), Theirs::from_bits_truncate(bits));
        assert_eq!((ours.bits(), ours.is_empty()), (theirs.bits(), theirs.is_empty()));
        for others in 0..8 {
            assert_eq!(ours.contains(Ours(others)), theirs.contains(Theirs::from_bits_truncate(others)));
            assert_eq!(ours.intersects(Ours(others)), theirs.intersects(Theirs::from_bits_truncate(others)));
        }
    }
}
