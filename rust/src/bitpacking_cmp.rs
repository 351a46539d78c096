//! Comparison of packed blocks.

use crate::conditions::assert_width;
use crate::ffi::{CComparisons, CFunctions};
use crate::macros::{first_word, index_of, packed_value, read_word};
use crate::{Comparison, FastLanes, FastLanesComparable, seq_t};
use core::array;

/// Comparison of each value of a packed block with one value.
///
/// Bit `lane * T + row` of the output is the result for that row of that lane. Bit i is bit `i % 64` of word `i / 64`, on every
/// machine. [`transpose_bits`](crate::transpose_bits), of the same type, reorders the mask to logical order.
///
/// A closure is called once for each packed value: for all rows of lane 0, then of lane 1, and so on. The mask of a closure is made
/// by this package, and tested. At a run-time width the proved library unpacks the values. At a constant width this package reads them
/// by the formula of the layout, so that the compiler joins reading and comparing. The proved library makes the whole mask in
/// `unpack_cmp_lt` and in the calls of [`Filter`](crate::Filter), which have named comparisons.
pub trait BitPackingCompare: FastLanes {
    /// Compares each packed value, converted to V, with `value`.
    ///
    /// ```
    /// use fastlanes::{BitPacking, BitPackingCompare, transpose_bits};
    ///
    /// let temperatures: [i16; 1024] = core::array::from_fn(|i| i as i16 - 512);
    /// let mut packed = [0; 1024];
    /// BitPacking::pack::<16, 1024>(&temperatures.map(|it| it as u16), &mut packed);
    ///
    /// let (mut mask, mut frosty) = ([0; 16], [0; 16]);
    /// BitPackingCompare::unpack_cmp::<16, 1024, _, _>(&packed, &mut mask, |it, zero| it < zero, 0i16);
    /// transpose_bits::<u16>(&mask, &mut frosty);
    /// assert_eq!(frosty, core::array::from_fn(|word| if word < 8 { u64::MAX } else { 0 }));
    /// ```
    fn unpack_cmp<const W: usize, const B: usize, V, F>(
        input: &[Self; B],
        output: &mut [u64; 16],
        comparison: F,
        value: V,
    ) where
        V: FastLanesComparable<Bitpacked = Self>,
        F: Fn(V, V) -> bool;

    /// [`unpack_cmp`](BitPackingCompare::unpack_cmp) at a run-time width.
    ///
    /// # Panics
    ///
    /// Panics if the width is above T or the input does not have LANES * width words.
    ///
    /// ```
    /// use fastlanes::BitPackingCompare;
    ///
    /// let mut mask = [0; 16];
    /// u32::unchecked_unpack_cmp(0, &[], &mut mask, |packed, value| packed != value, 1u32);
    /// assert_eq!(mask, [u64::MAX; 16]);
    /// ```
    #[track_caller]
    fn unchecked_unpack_cmp<V, F>(width: usize, input: &[Self], output: &mut [u64; 16], comparison: F, value: V)
    where
        V: FastLanesComparable<Bitpacked = Self>,
        F: Fn(V, V) -> bool;

    /// Compares as unsigned numbers: each bit is 1 if the packed value is less than `value`. The crate `fastlanes` does not have this
    /// call.
    ///
    /// ```
    /// use fastlanes::BitPackingCompare;
    ///
    /// let mut mask = [0; 16];
    /// u64::unpack_cmp_lt::<1, 16>(&[5; 16], &mut mask, 1);
    /// // One word per lane: rows 0 and 2 have the packed value 1.
    /// assert_eq!(mask, [!5; 16]);
    /// ```
    fn unpack_cmp_lt<const W: usize, const B: usize>(input: &[Self; B], output: &mut [u64; 16], value: Self);

    /// [`unpack_cmp_lt`](BitPackingCompare::unpack_cmp_lt) at a run-time width.
    ///
    /// # Panics
    ///
    /// Panics if the width is above T or the input does not have LANES * width words.
    ///
    /// ```
    /// use fastlanes::BitPackingCompare;
    ///
    /// let mut mask = [0; 16];
    /// u8::unchecked_unpack_cmp_lt(8, &[100; 1024], &mut mask, 101);
    /// assert_eq!(mask, [u64::MAX; 16]);
    /// ```
    #[track_caller]
    fn unchecked_unpack_cmp_lt(width: usize, input: &[Self], output: &mut [u64; 16], value: Self);
}

impl<E: FastLanes + CFunctions + CComparisons<E> + LaneWords> BitPackingCompare for E {
    fn unpack_cmp<const W: usize, const B: usize, V, F>(
        input: &[Self; B],
        output: &mut [u64; 16],
        comparison: F,
        value: V,
    ) where
        V: FastLanesComparable<Bitpacked = Self>,
        F: Fn(V, V) -> bool,
    {
        assert_width!(Self, W, B);
        *output = Self::mask_of_packed::<W, B>(input, |packed| comparison(V::as_unpacked(packed), value));
    }

    fn unchecked_unpack_cmp<V, F>(width: usize, input: &[Self], output: &mut [u64; 16], comparison: F, value: V)
    where
        V: FastLanesComparable<Bitpacked = Self>,
        F: Fn(V, V) -> bool,
    {
        compared(width, input, output, comparison, value)
    }

    fn unpack_cmp_lt<const W: usize, const B: usize>(input: &[Self; B], output: &mut [u64; 16], value: Self) {
        assert_width!(Self, W, B);
        Self::fl_unpack_cmp(W, input, Comparison::Less, value, output)
    }

    fn unchecked_unpack_cmp_lt(width: usize, input: &[Self], output: &mut [u64; 16], value: Self) {
        Self::fl_unpack_cmp(width, input, Comparison::Less, value, output)
    }
}

#[track_caller]
fn compared<E, V, F>(width: usize, input: &[E], output: &mut [u64; 16], comparison: F, value: V)
where
    E: FastLanes + CFunctions + LaneWords,
    V: FastLanesComparable<Bitpacked = E>,
    F: Fn(V, V) -> bool,
{
    let values = E::unpacked(width, input);
    *output = E::mask_of_indices(|index| comparison(V::as_unpacked(values[index]), value));
}

/// Masks in lane order: bit `lane * T + row` is the result of a predicate for that row of that lane. Results are gathered in one word
/// per lane.
pub trait LaneWords: Sized {
    /// Returns the mask of a predicate on indices.
    fn mask_of_indices(predicate: impl Fn(usize) -> bool) -> [u64; 16];
    /// Returns the mask of a predicate on packed values, at a constant width.
    fn mask_of_packed<const W: usize, const B: usize>(
        packed: &[Self; B],
        predicate: impl Fn(Self) -> bool,
    ) -> [u64; 16];
}

macro_rules! lane_words {
    ($E:ident) => {
        impl LaneWords for $E {
            fn mask_of_indices(predicate: impl Fn(usize) -> bool) -> [u64; 16] {
                let mut lanes = [0; $E::LANES];
                for (lane, word) in lanes.iter_mut().enumerate() {
                    let mut bits = 0;
                    seq_t!(row in $E {
                        bits |= $E::from(predicate(index_of(row, lane))) << row;
                    });
                    *word = bits;
                }
                mask(lanes.map($E::to_le_bytes))
            }

            fn mask_of_packed<const W: usize, const B: usize>(packed: &[$E; B], predicate: impl Fn($E) -> bool) -> [u64; 16] {
                let mut lanes = [0; $E::LANES];
                for (lane, word) in lanes.iter_mut().enumerate() {
                    let mut current = first_word::<$E>(W, lane).map_or(0, |first| packed[first]);
                    let mut bits = 0;
                    seq_t!(row in $E {
                        let previous = current;
                        if let Some(next) = read_word::<$E>(W, row, lane) {
                            current = packed[next];
                        }
                        bits |= $E::from(predicate(packed_value(W, row, previous, current))) << row;
                    });
                    let _ = current;
                    *word = bits;
                }
                mask(lanes.map($E::to_le_bytes))
            }
        }
    };
}

/// Converts the little-endian bytes of the lanes' words to words of 64 bits.
fn mask<const LANES: usize, const BYTES: usize>(lanes: [[u8; BYTES]; LANES]) -> [u64; 16] {
    let bytes = lanes.as_flattened();
    array::from_fn(|word| u64::from_le_bytes(array::from_fn(|byte| bytes[word * 8 + byte])))
}

lane_words!(u8);
lane_words!(u16);
lane_words!(u32);
lane_words!(u64);
