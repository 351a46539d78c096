//! Reordering of mask bits.

use crate::FastLanes;
use crate::ffi::CFunctions;

/// Reorders a mask from lane order to logical order. Bit `lane * T + row` moves to the index of row `row` of lane `lane`, with the
/// rows and lanes of `E`. Bit i is bit `i % 64` of word `i / 64`.
///
/// For `u64`, bit i of the output is bit [`transpose(i)`](crate::transpose()) of the input.
///
/// ```
/// use fastlanes::transpose_bits;
///
/// // Row 9 of lane 3 of a block of u16 is at index 195.
/// let (mut lanes, mut logical) = ([0; 16], [0; 16]);
/// lanes[0] = 1 << (3 * 16 + 9);
/// transpose_bits::<u16>(&lanes, &mut logical);
/// assert_eq!(logical[195 / 64], 1 << (195 % 64));
/// ```
pub fn transpose_bits<E: FastLanes>(input: &[u64; 16], output: &mut [u64; 16]) {
    match E::T {
        8 => u8::fl_transpose_bits(input, output),
        16 => u16::fl_transpose_bits(input, output),
        32 => u32::fl_transpose_bits(input, output),
        _ => u64::fl_transpose_bits(input, output),
    }
}

/// Inverts `transpose_bits::<u64>`: moves bit i to bit [`transpose(i)`](crate::transpose()).
///
/// ```
/// use fastlanes::{transpose, untranspose_bits};
///
/// let (mut input, mut output) = ([0; 16], [0; 16]);
/// input[0] = 1 << 17;
/// untranspose_bits(&input, &mut output);
/// assert_eq!(output[transpose(17) / 64], 1 << (transpose(17) % 64));
/// ```
pub fn untranspose_bits(input: &[u64; 16], output: &mut [u64; 16]) {
    untranspose_bits_of::<u64>(input, output)
}

/// Inverts `transpose_bits::<E>`: reorders a mask from logical order to lane order. The crate `fastlanes` does not have this call.
///
/// ```
/// use fastlanes::{transpose_bits, untranspose_bits_of};
///
/// let (mask, mut logical, mut inverted) = ([0x1234_5678_9abc_def0; 16], [0; 16], [0; 16]);
/// transpose_bits::<u8>(&mask, &mut logical);
/// untranspose_bits_of::<u8>(&logical, &mut inverted);
/// assert_eq!(inverted, mask);
/// ```
pub fn untranspose_bits_of<E: FastLanes>(input: &[u64; 16], output: &mut [u64; 16]) {
    match E::T {
        8 => u8::fl_untranspose_bits(input, output),
        16 => u16::fl_untranspose_bits(input, output),
        32 => u32::fl_untranspose_bits(input, output),
        _ => u64::fl_untranspose_bits(input, output),
    }
}

/// Re-exports the same calls, which have one implementation.
pub mod scalar {
    pub use super::{transpose_bits, untranspose_bits, untranspose_bits_of};
}
