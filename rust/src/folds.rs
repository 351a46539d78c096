//! Folds of packed blocks, without unpacking them to memory.

use crate::conditions::{assert_width, check_packed};
use crate::ffi::CFunctions;
use crate::macros::index_of;
use crate::{FastLanes, seq_t};

/// Folds of packed blocks, without unpacking them to memory. The crate `fastlanes` does not have these calls.
///
/// `fold` calls a kernel once for each packed value, with its index: for all rows of lane 0, then of lane 1, and so on. This is the
/// order of `unpack_cmp`, too. This package reads the values by the formula of the layout, in safe Rust that is compiled for each
/// width, so that the compiler joins reading and folding. That is tested, not proved. The sum, minimum and maximum are computed by
/// the proved library.
pub trait BitFolding: FastLanes {
    /// Folds a packed block: `state = kernel(state, index, packed_value)` for each packed value. Returns the last state.
    ///
    /// The compiler vectorizes kernels whose order does not matter, such as wrapping sums, if the state has no more bits than a value.
    /// A count of type `u16` holds all 1024 values. A kernel that changes a variable that it captures may have the state `()`.
    ///
    /// Each kernel is compiled for every width of the type, which is slow for `u64`. If the width is a constant,
    /// [`fold_constant`](BitFolding::fold_constant) compiles it once.
    ///
    /// # Panics
    ///
    /// Panics if the width is above T or the packed block does not have LANES * width words.
    ///
    /// ```
    /// use fastlanes::{BitFolding, BitPacking};
    ///
    /// let values: [u16; 1024] = core::array::from_fn(|i| i as u16 % 1000);
    /// let mut packed = [0; 640];
    /// BitPacking::pack::<10, 640>(&values, &mut packed);
    ///
    /// let above = u16::fold(10, &packed, 0u16, |count, _index, value| count + u16::from(value > 900));
    /// assert_eq!(above, 99);
    ///
    /// let last = u16::fold(10, &packed, 0, |last, index, value| if value == 7 { index.max(last) } else { last });
    /// assert_eq!(last, 1007);
    /// ```
    #[track_caller]
    fn fold<S, F>(width: usize, packed: &[Self], state: S, kernel: F) -> S
    where
        F: FnMut(S, usize, Self) -> S;

    /// [`fold`](BitFolding::fold) at a constant width.
    ///
    /// ```
    /// use fastlanes::BitFolding;
    ///
    /// let mut order = vec![];
    /// u64::fold_constant::<4, 64, _, _>(&[0xfedc_ba98_7654_3210; 64], (), |(), index, value| order.push((index, value)));
    /// // Row 8 of lane 0 is at index 64.
    /// assert_eq!(order[..3], [(0, 0), (128, 1), (256, 2)]);
    /// assert_eq!(order[7..9], [(896, 7), (64, 8)]);
    /// // Lane 1 follows the 64 rows of lane 0.
    /// assert_eq!(order[64], (1, 0));
    /// ```
    ///
    /// A wrong length B does not compile:
    ///
    /// ```compile_fail
    /// fastlanes::BitFolding::fold_constant::<3, 191, _, _>(&[0u16; 191], 0, |sum, _, value| sum + value);
    /// ```
    fn fold_constant<const W: usize, const B: usize, S, F>(packed: &[Self; B], state: S, kernel: F) -> S
    where
        F: FnMut(S, usize, Self) -> S;

    /// Returns the sum of the packed values, modulo 2^64. Sums of `u8`, `u16` and `u32` values do not wrap.
    ///
    /// # Panics
    ///
    /// Panics if the width is above T or the packed block does not have LANES * width words.
    ///
    /// ```
    /// use fastlanes::BitFolding;
    ///
    /// assert_eq!(u8::unpack_sum(2, &[0b11_10_01_00; 256]), 256 * 6);
    /// assert_eq!(u64::unpack_sum(64, &[u64::MAX; 1024]), 0u64.wrapping_sub(1024));
    /// ```
    #[track_caller]
    fn unpack_sum(width: usize, packed: &[Self]) -> u64;

    /// Returns the minimum and the maximum of the packed values.
    ///
    /// # Panics
    ///
    /// Panics if the width is above T or the packed block does not have LANES * width words.
    ///
    /// ```
    /// use fastlanes::BitFolding;
    ///
    /// assert_eq!(u32::unpack_range(4, &[0x9876_5432; 128]), (2, 9));
    /// assert_eq!(u16::unpack_range(0, &[]), (0, 0));
    /// ```
    #[track_caller]
    fn unpack_range(width: usize, packed: &[Self]) -> (Self, Self);
}

impl<E: FastLanes + CFunctions + FoldPacked> BitFolding for E {
    fn fold<S, F>(width: usize, packed: &[Self], state: S, kernel: F) -> S
    where
        F: FnMut(S, usize, Self) -> S,
    {
        check_packed(Self::T as u32, width, packed.len());
        Self::fold_packed_at(width, packed, state, kernel)
    }

    fn fold_constant<const W: usize, const B: usize, S, F>(packed: &[Self; B], state: S, kernel: F) -> S
    where
        F: FnMut(S, usize, Self) -> S,
    {
        assert_width!(Self, W, B);
        Self::fold_packed::<W, B, S, F>(packed, state, kernel)
    }

    fn unpack_sum(width: usize, packed: &[Self]) -> u64 {
        Self::fl_unpack_sum(width, packed)
    }

    fn unpack_range(width: usize, packed: &[Self]) -> (Self, Self) {
        Self::fl_unpack_range(width, packed)
    }
}

/// Folds of packed values, lane by lane and row by row.
pub trait FoldPacked: Sized {
    /// Folds at a constant width.
    fn fold_packed<const W: usize, const B: usize, S, F>(packed: &[Self; B], state: S, kernel: F) -> S
    where
        F: FnMut(S, usize, Self) -> S;
    /// Folds at a run-time width of the type. Requires the words of a packed block of this width.
    fn fold_packed_at<S, F>(width: usize, packed: &[Self], state: S, kernel: F) -> S
    where
        F: FnMut(S, usize, Self) -> S;
}

macro_rules! fold_packed {
    ($E:ident) => {
        impl FoldPacked for $E {
            // A separate function for each width compiles faster than one function of all widths.
            #[inline(never)]
            fn fold_packed<const W: usize, const B: usize, S, F>(packed: &[$E; B], mut state: S, mut kernel: F) -> S
            where
                F: FnMut(S, usize, $E) -> S,
            {
                for lane in 0..$E::LANES {
                    seq_t!(row in $E {
                        state = kernel(state, index_of(row, lane), packed_value::<$E, W, B>(packed, row, lane));
                    });
                }
                state
            }

            fn fold_packed_at<S, F>(width: usize, packed: &[$E], state: S, kernel: F) -> S
            where
                F: FnMut(S, usize, $E) -> S,
            {
                seq_t!(W in $E {
                    match width {
                        #(W => $E::fold_packed::<W, { $E::LANES * W }, S, F>(words(packed), state, kernel),)*
                        _ => $E::fold_packed::<{ $E::T }, 1024, S, F>(words(packed), state, kernel),
                    }
                })
            }
        }
    };
}

fold_packed!(u8);
fold_packed!(u16);
fold_packed!(u32);
fold_packed!(u64);

/// Returns the packed value of a row of a lane: the W bits from bit `row * W` on of the words of the lane, which are LANES apart.
#[inline(always)]
fn packed_value<E: FastLanes, const W: usize, const B: usize>(packed: &[E; B], row: usize, lane: usize) -> E {
    if W == 0 {
        return E::zero();
    }
    let (word, shift) = (E::LANES * (row * W / E::T) + lane, row * W % E::T);
    let mut bits = packed[word] >> shift;
    if shift + W > E::T {
        bits = bits | packed[word + E::LANES] << (E::T - shift);
    }
    bits & E::max_value() >> (E::T - W)
}

/// Converts a slice of length B, which the caller has checked, to an array.
fn words<E, const B: usize>(packed: &[E]) -> &[E; B] {
    packed.try_into().expect("the length was checked")
}
