//! Delta encoding.

use crate::conditions::assert_width;
use crate::ffi::CFunctions;
use crate::{BitPacking, FastLanes};

/// Delta encoding along the lanes of a block. [`Transpose`](crate::Transpose) first makes adjacent values adjacent rows of a lane.
pub trait Delta: BitPacking {
    /// Computes differences along lanes, modulo 2^T. Each value is reduced by the value in the previous row of its lane, and row 0
    /// by the base of the lane.
    ///
    /// ```
    /// use fastlanes::{Delta, Transpose};
    ///
    /// // A lane of a transposed block of u16 has 16 adjacent values.
    /// let values: [u16; 1024] = core::array::from_fn(|i| i as u16 / 8);
    /// let (mut transposed, mut differences) = ([0; 1024], [0; 1024]);
    /// Transpose::transpose(&values, &mut transposed);
    /// Delta::delta::<64>(&transposed, &[0; 64], &mut differences);
    /// assert_eq!([differences[1], differences[129], differences[65]], [8, 0, 1]);
    /// ```
    fn delta<const LANES: usize>(input: &[Self; 1024], base: &[Self; LANES], output: &mut [Self; 1024]);

    /// Inverts [`delta`](Delta::delta): each value is the base of its lane plus the differences in the rows up to it, modulo 2^T.
    ///
    /// ```
    /// use fastlanes::Delta;
    ///
    /// let mut values = [0u8; 1024];
    /// Delta::undelta::<128>(&[1; 1024], &[100; 128], &mut values);
    /// assert_eq!([values[0], values[128], values[1023]], [101, 102, 108]);
    /// ```
    fn undelta<const LANES: usize>(input: &[Self; 1024], base: &[Self; LANES], output: &mut [Self; 1024]);

    /// Unpacks differences and sums them along lanes: [`unpack`](BitPacking::unpack) and [`undelta`](Delta::undelta) in one pass.
    ///
    /// ```
    /// use fastlanes::Delta;
    ///
    /// let mut values = [0u8; 1024];
    /// Delta::undelta_pack::<128, 1, 128>(&[0b1010_1010; 128], &[100; 128], &mut values);
    /// assert_eq!([values[0], values[128], values[1023]], [100, 101, 104]);
    /// ```
    fn undelta_pack<const LANES: usize, const W: usize, const B: usize>(
        input: &[Self; B],
        base: &[Self; LANES],
        output: &mut [Self; 1024],
    );
}

/// Compiles only if LANES is the number of lanes of the type.
macro_rules! assert_lanes {
    ($E:ty, $LANES:ident) => {
        const { assert!($LANES == <$E>::LANES, "length LANES is wrong: expected 1024 / T") }
    };
}

impl<E: FastLanes + CFunctions> Delta for E {
    fn delta<const LANES: usize>(input: &[Self; 1024], base: &[Self; LANES], output: &mut [Self; 1024]) {
        assert_lanes!(Self, LANES);
        Self::fl_delta(input, base, output)
    }

    fn undelta<const LANES: usize>(input: &[Self; 1024], base: &[Self; LANES], output: &mut [Self; 1024]) {
        assert_lanes!(Self, LANES);
        Self::fl_undelta(input, base, output)
    }

    fn undelta_pack<const LANES: usize, const W: usize, const B: usize>(
        input: &[Self; B],
        base: &[Self; LANES],
        output: &mut [Self; 1024],
    ) {
        assert_lanes!(Self, LANES);
        assert_width!(Self, W, B);
        Self::fl_undelta_pack(W, input, base, output)
    }
}
