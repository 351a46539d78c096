//! Transposition.

use crate::ffi::CFunctions;
use crate::same_type::{block_as, block_as_mut};
use crate::{FL_ORDER, FastLanes};

/// Transposition: makes adjacent values adjacent rows of a lane.
pub trait Transpose: FastLanes {
    /// Transposes a block: `output[i] = input[transpose(i)]`.
    ///
    /// ```
    /// use fastlanes::Transpose;
    ///
    /// let mut output = [0; 1024];
    /// u16::transpose(&core::array::from_fn(|i| i as u16), &mut output);
    /// // The first three rows of lane 0.
    /// assert_eq!([output[0], output[128], output[256]], [0, 1, 2]);
    /// ```
    fn transpose(input: &[Self; 1024], output: &mut [Self; 1024]);

    /// Inverts [`transpose`](Transpose::transpose): `output[transpose(i)] = input[i]`.
    ///
    /// ```
    /// use fastlanes::Transpose;
    ///
    /// let block: [u64; 1024] = core::array::from_fn(|i| i as u64);
    /// let (mut transposed, mut output) = ([0; 1024], [0; 1024]);
    /// u64::transpose(&block, &mut transposed);
    /// u64::untranspose(&transposed, &mut output);
    /// assert_eq!(output, block);
    /// ```
    fn untranspose(input: &[Self; 1024], output: &mut [Self; 1024]);
}

impl<E: FastLanes> Transpose for E {
    fn transpose(input: &[Self; 1024], output: &mut [Self; 1024]) {
        let moved = moved_as(u8::fl_transpose, input, output)
            || moved_as(u16::fl_transpose, input, output)
            || moved_as(u32::fl_transpose, input, output)
            || moved_as(u64::fl_transpose, input, output);
        assert!(moved, "unreachable: FastLanes has four types");
    }

    fn untranspose(input: &[Self; 1024], output: &mut [Self; 1024]) {
        let moved = moved_as(u8::fl_untranspose, input, output)
            || moved_as(u16::fl_untranspose, input, output)
            || moved_as(u32::fl_untranspose, input, output)
            || moved_as(u64::fl_untranspose, input, output);
        assert!(moved, "unreachable: FastLanes has four types");
    }
}

/// Makes the call, if `E` is its type `C`. Returns whether it did.
fn moved_as<E, C: 'static>(call: fn(&[C; 1024], &mut [C; 1024]), input: &[E; 1024], output: &mut [E; 1024]) -> bool {
    match (block_as(input), block_as_mut(output)) {
        (Some(input), Some(output)) => {
            call(input, output);
            true
        }
        _ => false,
    }
}

/// Returns the index of the value that [`Transpose::transpose`] moves to index `idx`.
///
/// ```
/// use fastlanes::transpose;
///
/// assert_eq!([0, 1, 16, 128, 1023].map(transpose), [0, 64, 32, 1, 1023]);
/// ```
#[must_use]
pub const fn transpose(idx: usize) -> usize {
    idx % 16 * 64 + FL_ORDER[idx / 16 % 8] * 8 + idx / 128
}
