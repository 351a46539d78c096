#![doc = include_str!("../README.md")]
#![no_std]
#![deny(unsafe_code)]
#![warn(missing_docs)]

#[cfg(feature = "alloc")]
extern crate alloc;

mod bit_transpose;
mod bitpacking;
mod bitpacking_cmp;
mod blocks;
pub mod column;
mod conditions;
mod delta;
mod element;
mod ffi;
mod ffor;
mod filter;
mod folds;
mod macros;
mod numbers;
mod rle;
mod same_type;
mod transpose;

pub use bit_transpose::{scalar, transpose_bits, untranspose_bits, untranspose_bits_of};
pub use bitpacking::BitPacking;
pub use bitpacking_cmp::BitPackingCompare;
pub use blocks::BitPackingBlocks;
pub use delta::Delta;
pub use element::{FastLanes, FastLanesComparable};
pub use ffor::FoR;
pub use filter::{Comparison, Filter};
pub use folds::BitFolding;
pub use rle::RLE;
pub use transpose::{Transpose, transpose};

/// The order of the groups of eight rows in a lane: row `row` of lane `lane` is at index
/// `FL_ORDER[row / 8] * 16 + row % 8 * 128 + lane`. This permutation is its own inverse.
///
/// ```
/// use fastlanes::FL_ORDER;
///
/// // The index of row 9 of lane 3.
/// assert_eq!(FL_ORDER[9 / 8] * 16 + 9 % 8 * 128 + 3, 195);
/// assert!((0..8).all(|group| FL_ORDER[FL_ORDER[group]] == group));
/// ```
pub const FL_ORDER: [usize; 8] = [0, 4, 2, 6, 1, 5, 3, 7];

/// Functions in the expansions of the macros of this package.
#[doc(hidden)]
pub mod macro_support {
    pub use crate::macros::*;
}
