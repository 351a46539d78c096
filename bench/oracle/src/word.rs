//! The element types.

use fastlanes::{BitPackingCompare, FastLanesComparable, Transpose};

use crate::calls::Calls;

/// An element type with its name, and with numbers as its values.
pub trait Word: Calls + BitPackingCompare + Transpose + Value<Self> + Into<u64> {
    const NAME: &'static str;

    /// The number modulo `2^T`.
    fn of(number: u64) -> Self;
}

/// What the words of a type are compared as: themselves, or signed numbers.
pub trait Value<E>: FastLanesComparable<Bitpacked = E> + PartialOrd {}

impl<E, V: FastLanesComparable<Bitpacked = E> + PartialOrd> Value<E> for V {}

macro_rules! words {
    ($($E:ident)*) => {
        $(impl Word for $E {
            const NAME: &'static str = stringify!($E);

            fn of(number: u64) -> $E {
                number as $E
            }
        })*
    };
}

words!(u8 u16 u32 u64);

/// A base for each lane: `3 * lane + 1`.
pub fn bases<E: Word, const LANES: usize>() -> [E; LANES] {
    std::array::from_fn(|lane| E::of(3 * lane as u64 + 1))
}
