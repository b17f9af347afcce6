//! The trait of sets of flags. That of the crate bitflags, from its version 2 on, names its flags by a constant, and the
//! crates do it by a function.
#![forbid(unsafe_code)]

use std::ops::BitAnd;

/// A flag and its name.
#[derive(Debug)]
pub struct Flag<F> {
    /// The name.
    pub name: &'static str,
    /// The set of this flag alone.
    pub value: F,
}

/// What holds the bits of a set.
pub trait Bits: Copy + PartialEq + Default + BitAnd<Output = Self> {}

impl<B: Copy + PartialEq + Default + BitAnd<Output = B>> Bits for B {}

/// A set of flags.
pub trait Flags: Sized {
    /// What holds the bits.
    type Bits: Bits;

    /// The flags that have names.
    fn flags<'a>() -> &'a [Flag<Self>]
    where
        Self: 'a;

    /// The bits.
    fn bits(&self) -> Self::Bits;

    /// The set that these bits are, whether they have names or not.
    fn from_bits_retain(bits: Self::Bits) -> Self;

    /// Whether all of these are in it.
    fn contains(&self, other: Self) -> bool {
        self.bits() & other.bits() == other.bits()
    }

    /// Whether one of these is in it.
    fn intersects(&self, other: Self) -> bool {
        self.bits() & other.bits() != Self::Bits::default()
    }

    /// Whether none is in it.
    fn is_empty(&self) -> bool {
        self.bits() == Self::Bits::default()
    }
}

#[cfg(test)]
mod tests {
    use super::*;

    struct Two(u8);

    impl Flags for Two {
        type Bits = u8;

        fn flags<'a>() -> &'a [Flag<Two>] {
            &[Flag { name: "LOW", value: Two(1) }, Flag { name: "HIGH", value: Two(2) }]
        }

        fn bits(&self) -> u8 {
            self.0
        }

        fn from_bits_retain(bits: u8) -> Two {
            Two(bits)
        }
    }

    #[test]
    fn sets_are_compared_by_their_bits() {
        let both = Two::from_bits_retain(3);
        assert!(both.contains(Two(1)) && both.intersects(Two(2)) && !both.is_empty());
        assert!(!Two(1).contains(both) && Two(1).intersects(Two(3)) && !Two(1).intersects(Two(2)));
        assert!(Two(0).is_empty());
        assert_eq!(Two::flags().iter().map(|flag| (flag.name, flag.value.0)).collect::<Vec<_>>(), [("LOW", 1), ("HIGH", 2)]);
    }
}
