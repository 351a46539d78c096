//! Frame of reference (FOR).

use crate::conditions::{assert_width, block_mut};
use crate::ffi::CFunctions;
use crate::{BitPacking, FastLanes};

/// Frame of reference (FOR): packing of differences from a reference value.
pub trait FoR: BitPacking {
    /// Packs the difference of each value from the reference, modulo 2^W.
    ///
    /// ```
    /// use fastlanes::FoR;
    ///
    /// let mut packed = [0u8; 128];
    /// FoR::for_pack::<1, 128>(&[8; 1024], 7, &mut packed);
    /// assert_eq!(packed, [255; 128]);
    /// ```
    fn for_pack<const W: usize, const B: usize>(input: &[Self; 1024], reference: Self, output: &mut [Self; B]);

    /// Unpacks a FOR block: each value is the reference plus the packed value at its index, modulo 2^T. Accepts arbitrary words.
    ///
    /// ```
    /// use fastlanes::FoR;
    ///
    /// let mut values = [0u64; 1024];
    /// FoR::unfor_pack::<1, 16>(&[1; 16], 1000, &mut values);
    /// assert_eq!([values[0], values[128]], [1001, 1000]);
    /// ```
    fn unfor_pack<const W: usize, const B: usize>(input: &[Self; B], reference: Self, output: &mut [Self; 1024]);

    /// [`unfor_pack`](FoR::unfor_pack) at a run-time width.
    ///
    /// # Panics
    ///
    /// Panics if the width is above T, the input does not have LANES * width words, or the output does not have 1024 values.
    ///
    /// ```
    /// use fastlanes::FoR;
    ///
    /// let mut values = [0u16; 1024];
    /// u16::unchecked_unfor_pack(2, &[0xffff; 128], u16::MAX, &mut values);
    /// assert_eq!(values, [2; 1024]);
    /// ```
    #[track_caller]
    fn unchecked_unfor_pack(width: usize, input: &[Self], reference: Self, output: &mut [Self]);
}

impl<E: FastLanes + CFunctions> FoR for E {
    fn for_pack<const W: usize, const B: usize>(input: &[Self; 1024], reference: Self, output: &mut [Self; B]) {
        assert_width!(Self, W, B);
        Self::fl_for_pack(W, input, reference, output)
    }

    fn unfor_pack<const W: usize, const B: usize>(input: &[Self; B], reference: Self, output: &mut [Self; 1024]) {
        assert_width!(Self, W, B);
        Self::fl_unfor_pack(W, input, reference, output)
    }

    fn unchecked_unfor_pack(width: usize, input: &[Self], reference: Self, output: &mut [Self]) {
        Self::fl_unfor_pack(width, input, reference, block_mut(output))
    }
}
