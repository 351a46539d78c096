//! Packing of consecutive blocks at one width.

use crate::FastLanes;
use crate::ffi::CFunctions;

/// Packing of consecutive blocks at one width. The crate `fastlanes` does not have these calls.
///
/// A call dispatches on the width once for all blocks. It packs each block as
/// [`unchecked_pack`](crate::BitPacking::unchecked_pack) does, and unpacks each as
/// [`unchecked_unpack`](crate::BitPacking::unchecked_unpack) does. The loop over the blocks is in the library, and proved.
pub trait BitPackingBlocks: FastLanes {
    /// Packs consecutive blocks of 1024 values. The packed blocks, of LANES * width words each, are consecutive, too. There may be
    /// any number of blocks, including none.
    ///
    /// # Panics
    ///
    /// Panics if the width is above T, the length of the input is not a multiple of 1024, or the output does not have
    /// LANES * width words for each block.
    ///
    /// ```
    /// use fastlanes::{BitPacking, BitPackingBlocks, FastLanes};
    ///
    /// let width = 12;
    /// let values: Vec<u16> = (0..3 * 1024).collect();
    /// let words = u16::LANES * width;
    /// let mut packed = vec![0; words * 3];
    /// u16::pack_blocks(width, &values, &mut packed);
    /// assert_eq!(u16::unchecked_unpack_single(width, &packed[words * 2..], 5), 2053);
    /// ```
    #[track_caller]
    fn pack_blocks(width: usize, input: &[Self], output: &mut [Self]);

    /// Unpacks consecutive packed blocks, of LANES * width words each, to consecutive blocks of 1024 values. Accepts arbitrary
    /// words. There may be any number of blocks, including none.
    ///
    /// # Panics
    ///
    /// Panics if the width is above T, the length of the output is not a multiple of 1024, or the input does not have
    /// LANES * width words for each block.
    ///
    /// ```
    /// use fastlanes::BitPackingBlocks;
    ///
    /// let mut packed = [0b11_10_01_00u8; 512];
    /// packed[256..].fill(0b00_01_10_11);
    /// let mut values = [9; 2048];
    /// u8::unpack_blocks(2, &packed, &mut values);
    /// // In each block, row 0 of lane 0 is at index 0, and row 1 at index 128.
    /// assert_eq!([values[0], values[128], values[1024], values[1152]], [0, 1, 3, 2]);
    /// ```
    #[track_caller]
    fn unpack_blocks(width: usize, input: &[Self], output: &mut [Self]);
}

impl<E: FastLanes + CFunctions> BitPackingBlocks for E {
    fn pack_blocks(width: usize, input: &[Self], output: &mut [Self]) {
        Self::fl_pack_blocks(width, input, output)
    }

    fn unpack_blocks(width: usize, input: &[Self], output: &mut [Self]) {
        Self::fl_unpack_blocks(width, input, output)
    }
}
