//! Named comparisons of packed blocks, which the library computes.

use crate::conditions::assert_width;
use crate::ffi::CComparisons;
use crate::{FastLanes, FastLanesComparable};

/// A comparison. On the left is the value of a block or a column, on the right the value that is passed to the call.
#[derive(Clone, Copy, PartialEq, Eq, Hash, Debug)]
pub enum Comparison {
    /// The left is equal to the right.
    Equal = 0,
    /// The left is not equal to the right.
    NotEqual = 1,
    /// The left is less than the right.
    Less = 2,
    /// The left is at most the right.
    AtMost = 3,
    /// The left is greater than the right.
    Greater = 4,
    /// The left is at least the right.
    AtLeast = 5,
}

/// Comparison of packed blocks with a value of this type: `u8`, `u16`, `u32`, `u64` or the signed type of the same size. Packed
/// values are converted to this type by [`FastLanesComparable`]. The proved library makes the whole mask. The crate `fastlanes`
/// does not have these calls.
pub trait Filter: FastLanesComparable {
    /// Compares each packed value with `value`: bit `lane * T + row` of the output is the result for that row of that lane, as in
    /// [`BitPackingCompare::unpack_cmp`](crate::BitPackingCompare::unpack_cmp).
    ///
    /// ```
    /// use fastlanes::{Comparison, Filter};
    ///
    /// let mut mask = [0; 16];
    /// u64::unpack_mask::<1, 16>(&[5; 16], Comparison::AtLeast, 1, &mut mask);
    /// // One word per lane: rows 0 and 2 have the packed value 1.
    /// assert_eq!(mask, [5; 16]);
    /// ```
    fn unpack_mask<const W: usize, const B: usize>(
        input: &[Self::Bitpacked; B],
        comparison: Comparison,
        value: Self,
        output: &mut [u64; 16],
    );

    /// [`unpack_mask`](Filter::unpack_mask) at a run-time width.
    ///
    /// # Panics
    ///
    /// Panics if the width is above T or the input does not have LANES * width words.
    ///
    /// ```
    /// use fastlanes::{Comparison, Filter};
    ///
    /// let mut mask = [0; 16];
    /// u32::unchecked_unpack_mask(0, &[], Comparison::NotEqual, 1, &mut mask);
    /// assert_eq!(mask, [u64::MAX; 16]);
    /// ```
    #[track_caller]
    fn unchecked_unpack_mask(
        width: usize,
        input: &[Self::Bitpacked],
        comparison: Comparison,
        value: Self,
        output: &mut [u64; 16],
    );

    /// Compares each packed value with `value`: bit i of the output, in logical order, is the result for the packed value at index
    /// i.
    ///
    /// ```
    /// use fastlanes::{BitPacking, Comparison, Filter};
    ///
    /// let temperatures: [i16; 1024] = core::array::from_fn(|i| i as i16 - 512);
    /// let mut packed = [0; 1024];
    /// BitPacking::pack::<16, 1024>(&temperatures.map(|it| it as u16), &mut packed);
    ///
    /// let mut frosty = [0; 16];
    /// i16::unpack_filter::<16, 1024>(&packed, Comparison::Less, 0, &mut frosty);
    /// assert_eq!(frosty, core::array::from_fn(|word| if word < 8 { u64::MAX } else { 0 }));
    /// ```
    fn unpack_filter<const W: usize, const B: usize>(
        input: &[Self::Bitpacked; B],
        comparison: Comparison,
        value: Self,
        output: &mut [u64; 16],
    );

    /// [`unpack_filter`](Filter::unpack_filter) at a run-time width.
    ///
    /// # Panics
    ///
    /// Panics if the width is above T or the input does not have LANES * width words.
    ///
    /// ```
    /// use fastlanes::{Comparison, Filter};
    ///
    /// let mut mask = [0; 16];
    /// i8::unchecked_unpack_filter(8, &[200; 1024], Comparison::AtMost, -56, &mut mask);
    /// assert_eq!(mask, [u64::MAX; 16]);
    /// ```
    #[track_caller]
    fn unchecked_unpack_filter(
        width: usize,
        input: &[Self::Bitpacked],
        comparison: Comparison,
        value: Self,
        output: &mut [u64; 16],
    );
}

impl<V: FastLanesComparable + CComparisons<V::Bitpacked>> Filter for V {
    fn unpack_mask<const W: usize, const B: usize>(
        input: &[Self::Bitpacked; B],
        comparison: Comparison,
        value: Self,
        output: &mut [u64; 16],
    ) {
        assert_width!(Self::Bitpacked, W, B);
        Self::unchecked_unpack_mask(W, input, comparison, value, output)
    }

    fn unchecked_unpack_mask(
        width: usize,
        input: &[Self::Bitpacked],
        comparison: Comparison,
        value: Self,
        output: &mut [u64; 16],
    ) {
        Self::fl_unpack_cmp(width, input, comparison, value, output)
    }

    fn unpack_filter<const W: usize, const B: usize>(
        input: &[Self::Bitpacked; B],
        comparison: Comparison,
        value: Self,
        output: &mut [u64; 16],
    ) {
        assert_width!(Self::Bitpacked, W, B);
        Self::fl_unpack_filter(W, input, comparison, value, output)
    }

    fn unchecked_unpack_filter(
        width: usize,
        input: &[Self::Bitpacked],
        comparison: Comparison,
        value: Self,
        output: &mut [u64; 16],
    ) {
        Self::fl_unpack_filter(width, input, comparison, value, output)
    }
}
