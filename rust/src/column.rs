//! Columns: encoded columns, and FOR and delta blocks in memory. The crate `fastlanes` does not have these calls.
//!
//! # Encoded columns
//!
//! The bytes of a column hold any number of values and everything that a reader needs, with an optional checksum for each page of
//! 65536 values. Each block of 1024 values is the shorter of the FOR block at its minimum and the delta block of adjacent values.
//! [`decode`] and [`Column::open`] accept arbitrary bytes and reject malformed columns.
//!
//! ```
//! use fastlanes::column::{Column, decode, encode};
//!
//! let values: Vec<u32> = (0..100_000).map(|i| 1000 + i).collect();
//! let bytes = encode(&values);
//! assert_eq!(decode(&bytes), Ok(values));
//! let column = Column::<u32>::open(&bytes)?;
//! assert_eq!(column.get(70_000), 71_000);
//! # Ok::<(), fastlanes::column::FormatError>(())
//! ```
//!
//! # Blocks in memory
//!
//! `column_write` packs consecutive FOR blocks, each at its minimum bit width. Values are read by index, without unpacking. The caller
//! keeps the head of each block.
//!
//! ```
//! use fastlanes::column::{column_get, column_len, column_write, frame_head};
//!
//! let blocks = [[300u32; 1024], core::array::from_fn(|i| 1000 + i as u32)];
//! let heads = blocks.each_ref().map(frame_head);
//! let mut words = vec![0; column_len(&heads)];
//! column_write(&heads, &blocks, &mut words);
//! assert_eq!(words.len(), 320);
//! assert_eq!(column_get(&heads, &words, 1031), 1007);
//! ```
//!
//! The calls of one block are calls of the proved library. The loops over blocks of the calls whose names begin with `column_` are in
//! this package, and tested.

mod bytes;
mod messages;

pub use bytes::{Column, FormatError, FormatErrorKind, Iter, Options, Stored, decode_into, encode_bound, encode_into};
#[cfg(feature = "alloc")]
pub use bytes::{decode, encode, encode_with};

use crate::conditions::{check_blocks, check_column, check_index, check_part, check_starts, check_width, packed_len};
use crate::ffi::CFunctions;
use crate::{Delta, FastLanes, FoR};

/// The parameters of a FOR block: it packs the differences from `reference`, at `width` bits each.
///
/// ```
/// use fastlanes::column::FrameHead;
///
/// // Modulo 2^8, the values 254, 255, 0 and 1 differ from 254 by 0 to 3.
/// let head = FrameHead { width: 2, reference: 254u8 };
/// assert_eq!(head.width, 2);
/// ```
#[derive(Clone, Copy, Debug, PartialEq, Eq)]
pub struct FrameHead<E> {
    /// The number of bits of a difference.
    pub width: usize,
    /// The value that differences are relative to.
    pub reference: E,
}

/// A value type of columns: `u8`, `u16`, `u32` or `u64`. Each function is the call of this module that has its name.
///
/// ```
/// use fastlanes::column::{ColumnElement, frame_head};
///
/// /// Returns the number of words of a FOR block at its minimum bit width.
/// fn minimum_len<E: ColumnElement>(block: &[E; 1024]) -> usize {
///     E::LANES * frame_head(block).width
/// }
///
/// assert_eq!(minimum_len(&core::array::from_fn(|i| i as u16)), 640);
/// ```
pub trait ColumnElement: FoR + Delta {
    /// [`frame_head`]
    fn frame_head(block: &[Self; 1024]) -> FrameHead<Self>;
    /// [`frame_write`]
    #[track_caller]
    fn frame_write(head: &FrameHead<Self>, block: &[Self; 1024], output: &mut [Self]);
    /// [`frame_read`]
    #[track_caller]
    fn frame_read(head: &FrameHead<Self>, input: &[Self], output: &mut [Self; 1024]);
    /// [`frame_get`]
    #[track_caller]
    fn frame_get(head: &FrameHead<Self>, input: &[Self], index: usize) -> Self;
    /// [`delta_width`]
    #[track_caller]
    fn delta_width(block: &[Self; 1024], base: &[Self]) -> usize;
    /// [`delta_write`]
    #[track_caller]
    fn delta_write(width: usize, block: &[Self; 1024], base: &[Self], output: &mut [Self]);
    /// [`delta_read`]
    #[track_caller]
    fn delta_read(width: usize, input: &[Self], base: &[Self], output: &mut [Self; 1024]);
}

impl<E: FastLanes + CFunctions> ColumnElement for E {
    fn frame_head(block: &[Self; 1024]) -> FrameHead<Self> {
        let (width, reference) = Self::fl_frame_head(block);
        FrameHead { width, reference }
    }

    fn frame_write(head: &FrameHead<Self>, block: &[Self; 1024], output: &mut [Self]) {
        Self::fl_for_pack(head.width, block, head.reference, output)
    }

    fn frame_read(head: &FrameHead<Self>, input: &[Self], output: &mut [Self; 1024]) {
        Self::fl_unfor_pack(head.width, input, head.reference, output)
    }

    fn frame_get(head: &FrameHead<Self>, input: &[Self], index: usize) -> Self {
        Self::fl_frame_get(head.width, head.reference, input, index)
    }

    fn delta_width(block: &[Self; 1024], base: &[Self]) -> usize {
        Self::fl_delta_width(block, base)
    }

    fn delta_write(width: usize, block: &[Self; 1024], base: &[Self], output: &mut [Self]) {
        Self::fl_delta_write(width, block, base, output)
    }

    fn delta_read(width: usize, input: &[Self], base: &[Self], output: &mut [Self; 1024]) {
        Self::fl_delta_read(width, input, base, output)
    }
}

/// Chooses the parameters of a FOR block: the minimum of the block, and the minimum bit width of the differences from it. No other
/// reference at or below the minimum allows a smaller width.
///
/// ```
/// use fastlanes::column::frame_head;
///
/// let head = frame_head(&core::array::from_fn(|i| 1000 + i as u32));
/// assert_eq!((head.reference, head.width), (1000, 10));
/// ```
pub fn frame_head<E: ColumnElement>(block: &[E; 1024]) -> FrameHead<E> {
    E::frame_head(block)
}

/// Packs a FOR block: the differences from the reference of the head, modulo 2^width. [`frame_read`] inverts this if the width holds
/// each difference, as with [`frame_head`].
///
/// # Panics
///
/// Panics if the width is above T, or the output does not have LANES * width words.
///
/// ```
/// use fastlanes::column::{FrameHead, frame_write};
///
/// let mut words = [0u8; 128];
/// frame_write(&FrameHead { width: 1, reference: 7 }, &[8; 1024], &mut words);
/// assert_eq!(words, [255; 128]);
/// ```
#[track_caller]
pub fn frame_write<E: ColumnElement>(head: &FrameHead<E>, block: &[E; 1024], output: &mut [E]) {
    E::frame_write(head, block, output)
}

/// Unpacks a FOR block: each value is the reference plus the packed value at its index, modulo 2^T. Accepts arbitrary words.
///
/// # Panics
///
/// Panics if the width is above T, or the input does not have LANES * width words.
///
/// ```
/// use fastlanes::column::{FrameHead, frame_read};
///
/// let mut block = [0u64; 1024];
/// frame_read(&FrameHead { width: 1, reference: 1000 }, &[1; 16], &mut block);
/// assert_eq!([block[0], block[128]], [1001, 1000]);
/// ```
#[track_caller]
pub fn frame_read<E: ColumnElement>(head: &FrameHead<E>, input: &[E], output: &mut [E; 1024]) {
    E::frame_read(head, input, output)
}

/// Returns the value at an index of a FOR block, without unpacking the others.
///
/// # Panics
///
/// Panics if the width is above T, the input does not have LANES * width words, or the index is not below 1024.
///
/// ```
/// use fastlanes::column::{FrameHead, frame_get};
///
/// assert_eq!(frame_get(&FrameHead { width: 1, reference: 1000u64 }, &[1; 16], 15), 1001);
/// ```
#[track_caller]
pub fn frame_get<E: ColumnElement>(head: &FrameHead<E>, input: &[E], index: usize) -> E {
    E::frame_get(head, input, index)
}

/// Returns the minimum bit width of the differences of adjacent values, modulo 2^T. These are the differences along the lanes of the
/// transposed block. `base` has the value before each lane.
///
/// # Panics
///
/// Panics if `base` does not have LANES values.
///
/// ```
/// use fastlanes::column::delta_width;
///
/// // The maximum is the difference of the first value of a lane, 126, from its base, 0. Others are 0 or 1.
/// assert_eq!(delta_width(&core::array::from_fn(|i| i as u16 / 8), &[0; 64]), 7);
/// ```
#[track_caller]
pub fn delta_width<E: ColumnElement>(block: &[E; 1024], base: &[E]) -> usize {
    E::delta_width(block, base)
}

/// Packs the differences of adjacent values, modulo 2^width, along the lanes of the transposed block. `base` has the value before each
/// lane. [`delta_read`] inverts this if the width holds each difference, as with [`delta_width`].
///
/// # Panics
///
/// Panics if the width is above T, the output does not have LANES * width words, or `base` does not have LANES values.
///
/// ```
/// use fastlanes::column::{delta_read, delta_write};
///
/// let block = core::array::from_fn(|i| i as u16 / 8);
/// let (mut words, mut output) = ([0; 448], [0; 1024]);
/// delta_write(7, &block, &[0; 64], &mut words);
/// delta_read(7, &words, &[0; 64], &mut output);
/// assert_eq!(output, block);
/// ```
#[track_caller]
pub fn delta_write<E: ColumnElement>(width: usize, block: &[E; 1024], base: &[E], output: &mut [E]) {
    E::delta_write(width, block, base, output)
}

/// Unpacks differences of adjacent values and sums them, modulo 2^T. Accepts arbitrary words.
///
/// # Panics
///
/// Panics if the width is above T, the input does not have LANES * width words, or `base` does not have LANES values.
///
/// ```
/// use fastlanes::column::delta_read;
///
/// // At width 0 each value is the base of its lane.
/// let mut block = [0u8; 1024];
/// delta_read(0, &[], &[5; 128], &mut block);
/// assert_eq!(block, [5; 1024]);
/// ```
#[track_caller]
pub fn delta_read<E: ColumnElement>(width: usize, input: &[E], base: &[E], output: &mut [E; 1024]) {
    E::delta_read(width, input, base, output)
}

/// Returns the number of words of a column with these heads: LANES * width for each.
///
/// # Panics
///
/// Panics if a width is above T.
///
/// ```
/// use fastlanes::column::{column_len, frame_head};
///
/// assert_eq!(column_len(&[frame_head(&[300u32; 1024]), frame_head(&core::array::from_fn(|i| i as u32))]), 320);
/// ```
#[track_caller]
pub fn column_len<E: FastLanes>(heads: &[FrameHead<E>]) -> usize {
    let mut widths = 0;
    for head in heads {
        check_width(E::T, head.width);
        widths += head.width;
    }
    E::LANES * widths
}

/// Packs consecutive FOR blocks, each with its head.
///
/// # Panics
///
/// Panics if the numbers of blocks and heads differ, a width is above T, or the output does not have [`column_len`] words.
///
/// ```
/// use fastlanes::column::{FrameHead, column_write};
///
/// let mut words = [0u8; 384];
/// let heads = [FrameHead { width: 1, reference: 7 }, FrameHead { width: 2, reference: 5 }];
/// column_write(&heads, &[[8; 1024], [7; 1024]], &mut words);
/// // Each difference is 1 in the first block, and 2 in the second.
/// assert_eq!([words[0], words[127], words[128]], [0b1111_1111, 0b1111_1111, 0b1010_1010]);
/// ```
#[track_caller]
pub fn column_write<E: ColumnElement>(heads: &[FrameHead<E>], blocks: &[[E; 1024]], output: &mut [E]) {
    check_blocks(heads.len(), blocks.len());
    check_column(column_len(heads), output.len());
    let mut left = output;
    for (head, block) in heads.iter().zip(blocks) {
        let (words, rest) = left.split_at_mut(part_len(head));
        E::frame_write(head, block, words);
        left = rest;
    }
}

/// Returns the value at `index` of a column. Sums the widths of all heads before the one of its block. [`column_get_at`] uses stored
/// block offsets instead.
///
/// # Panics
///
/// Panics if the index is not below 1024 times the number of heads, a width up to the one of its block is above T, or the words of the
/// block are not in the input.
///
/// ```
/// use fastlanes::column::{FrameHead, column_get};
///
/// let heads = [FrameHead { width: 0, reference: 300u32 }, FrameHead { width: 1, reference: 7 }];
/// assert_eq!([5, 1029].map(|i| column_get(&heads, &[u32::MAX; 32], i)), [300, 8]);
/// ```
#[track_caller]
pub fn column_get<E: ColumnElement>(heads: &[FrameHead<E>], input: &[E], index: usize) -> E {
    check_index(1024 * heads.len() as u64, index as u64);
    let block = index / 1024;
    value_at(&heads[block], input, column_len(&heads[..block]), index % 1024)
}

/// Writes the offset of each block in the words of a column.
///
/// # Panics
///
/// Panics if the numbers of starts and heads differ, or a width is above T.
///
/// ```
/// use fastlanes::column::{FrameHead, column_starts};
///
/// let mut starts = [9; 2];
/// let heads = [FrameHead { width: 10, reference: 1000u32 }, FrameHead { width: 0, reference: 300 }];
/// column_starts(&heads, &mut starts);
/// assert_eq!(starts, [0, 320]);
/// ```
#[track_caller]
pub fn column_starts<E: FastLanes>(heads: &[FrameHead<E>], starts: &mut [usize]) {
    check_starts(heads.len(), starts.len());
    let mut next = 0;
    for (head, start) in heads.iter().zip(starts) {
        *start = next;
        next += part_len(head);
    }
}

/// Returns the value at `index` of a column, as [`column_get`] does, in constant time. [`column_starts`] writes the `starts`.
///
/// # Panics
///
/// Panics if the numbers of starts and heads differ, the index is not below 1024 times the number of heads, the width of its block is
/// above T, or the words of the block are not in the input.
///
/// ```
/// use fastlanes::column::{FrameHead, column_get_at};
///
/// let heads = [FrameHead { width: 0, reference: 300u32 }, FrameHead { width: 1, reference: 7 }];
/// assert_eq!(column_get_at(&heads, &[0, 0], &[u32::MAX; 32], 1029), 8);
/// ```
#[track_caller]
pub fn column_get_at<E: ColumnElement>(heads: &[FrameHead<E>], starts: &[usize], input: &[E], index: usize) -> E {
    check_starts(heads.len(), starts.len());
    check_index(1024 * heads.len() as u64, index as u64);
    let block = index / 1024;
    value_at(&heads[block], input, starts[block], index % 1024)
}

/// Returns the value at an index of the block whose words begin at `start`.
#[track_caller]
fn value_at<E: ColumnElement>(head: &FrameHead<E>, input: &[E], start: usize, index: usize) -> E {
    let len = part_len(head);
    check_part(input.len(), start, len);
    E::frame_get(head, &input[start..start + len], index)
}

/// Returns the number of words of a block.
#[track_caller]
fn part_len<E: FastLanes>(head: &FrameHead<E>) -> usize {
    packed_len(E::T as u32, head.width)
}
