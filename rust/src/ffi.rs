//! The C functions. Each has one safe function, which first checks the preconditions: array types fix lengths, and the checks of
//! `conditions` do the rest. Outputs are `&mut`, so that they do not overlap other memory.

#![allow(unsafe_code)]

use crate::Comparison;
use crate::column::FormatError;
use crate::conditions::{
    block_count, block_count_output, check_bases, check_block_index, check_entries, check_index, check_mask,
    check_outputs, check_packed, check_packed_blocks, check_packed_blocks_output, check_packed_index,
    check_packed_indices, check_packed_output, check_range,
};
#[cfg(feature = "alloc")]
use alloc::vec::Vec;
use core::marker::PhantomData;
use core::mem::MaybeUninit;
use core::ptr;

/// The suffix of function names. Programs that are compiled for x86-64-v3 call its code directly, without run-time CPU dispatch.
#[cfg(fastlanes_v3)]
macro_rules! level {
    () => {
        "_v3"
    };
}
#[cfg(not(fastlanes_v3))]
macro_rules! level {
    () => {
        ""
    };
}

/// An opened column of the C functions: `fl_column_E`, which is the same struct for each value type.
#[derive(Clone)]
#[repr(C)]
struct CColumn {
    bytes: *const u8,
    bytes_len: usize,
    len: u64,
    stride: usize,
    starts: [usize; 256],
}

impl CColumn {
    /// The initial value.
    const ZEROS: CColumn = CColumn {
        bytes: ptr::null(),
        bytes_len: 0,
        len: 0,
        stride: 0,
        starts: [0; 256],
    };
}

/// An opened column of values of type `E`. It borrows the bytes:
///
/// ```compile_fail,E0505
/// use fastlanes::column::{Column, encode};
///
/// let bytes = encode(&[7u16]);
/// let column = Column::<u16>::open(&bytes).unwrap();
/// drop(bytes);
/// column.get(0);
/// ```
#[derive(Clone)]
pub struct Opened<'a, E> {
    column: CColumn,
    len: u64,
    borrowed: PhantomData<(&'a [u8], E)>,
}

impl<E> Opened<'_, E> {
    /// Returns the number of values.
    #[inline]
    pub fn len(&self) -> u64 {
        self.len
    }
}

// SAFETY: the pointer is to bytes that are borrowed as a shared slice, which is `Send`. Other members are numbers. The C functions
// do not write to an opened column or to its bytes.
unsafe impl<E: Send> Send for Opened<'_, E> {}
// SAFETY: as above. No call writes to a shared column.
unsafe impl<E: Sync> Sync for Opened<'_, E> {}

/// The C functions of a value type. The location of a panic is the line of the caller. Users cannot call these functions:
///
/// ```compile_fail
/// fn moved<E: fastlanes::FastLanes>(input: &[E; 1024], output: &mut [E; 1024]) {
///     E::fl_transpose(input, output)
/// }
/// ```
pub trait CFunctions: Copy + 'static {
    #[track_caller]
    fn fl_pack(width: usize, input: &[Self; 1024], output: &mut [Self]);
    #[track_caller]
    fn fl_unpack(width: usize, input: &[Self], output: &mut [Self; 1024]);
    /// Unpacks to a new block, which is not initialized first.
    #[track_caller]
    fn unpacked(width: usize, input: &[Self]) -> [Self; 1024];
    #[track_caller]
    fn fl_pack_blocks(width: usize, input: &[Self], output: &mut [Self]);
    #[track_caller]
    fn fl_unpack_blocks(width: usize, input: &[Self], output: &mut [Self]);
    #[track_caller]
    fn fl_unpack_single(width: usize, input: &[Self], index: usize) -> Self;
    #[track_caller]
    fn fl_unpack_indices(width: usize, input: &[Self], indices: &[usize], output: &mut [MaybeUninit<Self>]);
    #[track_caller]
    fn fl_unpack_sum(width: usize, input: &[Self]) -> u64;
    #[track_caller]
    fn fl_unpack_range(width: usize, input: &[Self]) -> (Self, Self);
    #[track_caller]
    fn fl_for_pack(width: usize, input: &[Self; 1024], reference: Self, output: &mut [Self]);
    #[track_caller]
    fn fl_unfor_pack(width: usize, input: &[Self], reference: Self, output: &mut [Self; 1024]);
    fn fl_frame_head(input: &[Self; 1024]) -> (usize, Self);
    #[track_caller]
    fn fl_frame_get(width: usize, reference: Self, input: &[Self], index: usize) -> Self;
    #[track_caller]
    fn fl_delta(input: &[Self; 1024], base: &[Self], output: &mut [Self; 1024]);
    #[track_caller]
    fn fl_undelta(input: &[Self; 1024], base: &[Self], output: &mut [Self; 1024]);
    #[track_caller]
    fn fl_undelta_pack(width: usize, input: &[Self], base: &[Self], output: &mut [Self; 1024]);
    #[track_caller]
    fn fl_delta_width(input: &[Self; 1024], base: &[Self]) -> usize;
    #[track_caller]
    fn fl_delta_write(width: usize, input: &[Self; 1024], base: &[Self], output: &mut [Self]);
    #[track_caller]
    fn fl_delta_read(width: usize, input: &[Self], base: &[Self], output: &mut [Self; 1024]);
    fn fl_transpose(input: &[Self; 1024], output: &mut [Self; 1024]);
    fn fl_untranspose(input: &[Self; 1024], output: &mut [Self; 1024]);
    fn fl_transpose_bits(input: &[u64; 16], output: &mut [u64; 16]);
    fn fl_untranspose_bits(input: &[u64; 16], output: &mut [u64; 16]);
    fn fl_rle_encode(input: &[Self; 1024], values: &mut [Self; 1024], indices: &mut [u16; 1024]) -> usize;
    #[track_caller]
    fn fl_rle_decode(values: &[Self], indices: &[u16; 1024], output: &mut [Self; 1024]);
    fn fl_column_encode_bound(values: usize) -> usize;
    /// Returns the number of bytes written, or `None` if the buffer is shorter than the bound.
    fn fl_column_encode(values: &[Self], flags: u32, bytes: &mut [u8]) -> Option<usize>;
    /// Encodes to a new vector, which is not initialized first.
    #[cfg(feature = "alloc")]
    fn encoded(values: &[Self], flags: u32) -> Vec<u8>;
    fn fl_column_decode(bytes: &[u8], values: &mut [Self]) -> Result<usize, FormatError>;
    fn fl_column_open(bytes: &[u8]) -> Result<Opened<'_, Self>, FormatError>;
    #[track_caller]
    fn fl_column_get(column: &Opened<'_, Self>, index: u64) -> Self;
    #[track_caller]
    fn fl_column_read(column: &Opened<'_, Self>, start: u64, values: &mut [Self]);
    /// Appends all values to a vector, in memory that is not initialized first.
    #[cfg(feature = "alloc")]
    fn append_values(column: &Opened<'_, Self>, values: &mut Vec<Self>);
    #[track_caller]
    fn fl_column_filter(column: &Opened<'_, Self>, comparison: Comparison, value: Self, mask: &mut [u64]) -> u64;
    fn fl_column_count(column: &Opened<'_, Self>, comparison: Comparison, value: Self) -> u64;
}

macro_rules! c_functions {
    ($E:ident) => {
        const _: () = {
            unsafe extern "C" {
                #[link_name = concat!("fl_pack_", stringify!($E), level!())]
                fn pack(width: usize, input: *const $E, output: *mut $E, output_len: usize);
                #[link_name = concat!("fl_unpack_", stringify!($E), level!())]
                fn unpack(width: usize, input: *const $E, input_len: usize, output: *mut $E);
                #[link_name = concat!("fl_pack_blocks_", stringify!($E), level!())]
                fn pack_blocks(
                    width: usize,
                    count: usize,
                    input: *const $E,
                    input_len: usize,
                    output: *mut $E,
                    output_len: usize,
                );
                #[link_name = concat!("fl_unpack_blocks_", stringify!($E), level!())]
                fn unpack_blocks(
                    width: usize,
                    count: usize,
                    input: *const $E,
                    input_len: usize,
                    output: *mut $E,
                    output_len: usize,
                );
                #[link_name = concat!("fl_unpack_single_", stringify!($E), level!())]
                fn unpack_single(width: usize, input: *const $E, input_len: usize, index: usize) -> $E;
                #[link_name = concat!("fl_unpack_indices_", stringify!($E), level!())]
                fn unpack_indices(
                    width: usize,
                    input: *const $E,
                    input_len: usize,
                    indices: *const usize,
                    indices_len: usize,
                    output: *mut $E,
                    output_len: usize,
                );
                #[link_name = concat!("fl_unpack_sum_", stringify!($E), level!())]
                fn unpack_sum(width: usize, input: *const $E, input_len: usize) -> u64;
                #[link_name = concat!("fl_unpack_range_", stringify!($E), level!())]
                fn unpack_range(width: usize, input: *const $E, input_len: usize, minimum: *mut $E, maximum: *mut $E);
                #[link_name = concat!("fl_for_pack_", stringify!($E), level!())]
                fn for_pack(width: usize, input: *const $E, reference: $E, output: *mut $E, output_len: usize);
                #[link_name = concat!("fl_unfor_pack_", stringify!($E), level!())]
                fn unfor_pack(width: usize, input: *const $E, input_len: usize, reference: $E, output: *mut $E);
                #[link_name = concat!("fl_frame_head_", stringify!($E), level!())]
                fn frame_head(input: *const $E, reference: *mut $E) -> usize;
                #[link_name = concat!("fl_frame_get_", stringify!($E), level!())]
                fn frame_get(width: usize, reference: $E, input: *const $E, input_len: usize, index: usize) -> $E;
                #[link_name = concat!("fl_delta_", stringify!($E), level!())]
                fn delta(input: *const $E, base: *const $E, output: *mut $E);
                #[link_name = concat!("fl_undelta_", stringify!($E), level!())]
                fn undelta(input: *const $E, base: *const $E, output: *mut $E);
                #[link_name = concat!("fl_undelta_pack_", stringify!($E), level!())]
                fn undelta_pack(width: usize, input: *const $E, input_len: usize, base: *const $E, output: *mut $E);
                #[link_name = concat!("fl_delta_width_", stringify!($E), level!())]
                fn delta_width(input: *const $E, base: *const $E) -> usize;
                #[link_name = concat!("fl_delta_write_", stringify!($E), level!())]
                fn delta_write(width: usize, input: *const $E, base: *const $E, output: *mut $E, output_len: usize);
                #[link_name = concat!("fl_delta_read_", stringify!($E), level!())]
                fn delta_read(width: usize, input: *const $E, input_len: usize, base: *const $E, output: *mut $E);
                #[link_name = concat!("fl_transpose_", stringify!($E), level!())]
                fn transpose(input: *const $E, output: *mut $E);
                #[link_name = concat!("fl_untranspose_", stringify!($E), level!())]
                fn untranspose(input: *const $E, output: *mut $E);
                #[link_name = concat!("fl_transpose_bits_", stringify!($E), level!())]
                fn transpose_bits(input: *const u64, output: *mut u64);
                #[link_name = concat!("fl_untranspose_bits_", stringify!($E), level!())]
                fn untranspose_bits(input: *const u64, output: *mut u64);
                #[link_name = concat!("fl_rle_encode_", stringify!($E), level!())]
                fn rle_encode(input: *const $E, values: *mut $E, indices: *mut u16) -> usize;
                #[link_name = concat!("fl_rle_decode_", stringify!($E), level!())]
                fn rle_decode(values: *const $E, values_len: usize, indices: *const u16, output: *mut $E);
                #[link_name = concat!("fl_column_encode_bound_", stringify!($E), level!())]
                fn column_encode_bound(values_len: usize) -> usize;
                #[link_name = concat!("fl_column_encode_", stringify!($E), level!())]
                fn column_encode(
                    values: *const $E,
                    values_len: usize,
                    flags: u32,
                    bytes: *mut u8,
                    bytes_len: usize,
                ) -> usize;
                #[link_name = concat!("fl_column_decode_", stringify!($E), level!())]
                fn column_decode(
                    bytes: *const u8,
                    bytes_len: usize,
                    values: *mut $E,
                    values_len: usize,
                    count: *mut usize,
                    error_offset: *mut usize,
                ) -> u32;
                #[link_name = concat!("fl_column_open_", stringify!($E), level!())]
                fn column_open(
                    bytes: *const u8,
                    bytes_len: usize,
                    flags: u32,
                    column: *mut CColumn,
                    error_offset: *mut usize,
                ) -> u32;
                #[link_name = concat!("fl_column_len_", stringify!($E), level!())]
                fn column_len(column: *const CColumn) -> u64;
                #[link_name = concat!("fl_column_get_", stringify!($E), level!())]
                fn column_get(column: *const CColumn, index: u64) -> $E;
                #[link_name = concat!("fl_column_read_", stringify!($E), level!())]
                fn column_read(column: *const CColumn, start: u64, values: *mut $E, values_len: usize);
                #[link_name = concat!("fl_column_filter_", stringify!($E), level!())]
                fn column_filter(
                    column: *const CColumn,
                    comparison: u32,
                    value: $E,
                    mask: *mut u64,
                    mask_len: usize,
                ) -> u64;
                #[link_name = concat!("fl_column_count_", stringify!($E), level!())]
                fn column_count(column: *const CColumn, comparison: u32, value: $E) -> u64;
            }

            impl CFunctions for $E {
                #[inline]
                fn fl_pack(width: usize, input: &[Self; 1024], output: &mut [Self]) {
                    check_packed_output(Self::BITS, width, output.len());
                    // SAFETY: the input is a block, and the output a packed block of this width.
                    unsafe { pack(width, input.as_ptr(), output.as_mut_ptr(), output.len()) }
                }

                #[inline]
                fn fl_unpack(width: usize, input: &[Self], output: &mut [Self; 1024]) {
                    check_packed(Self::BITS, width, input.len());
                    // SAFETY: the input is a packed block of this width, and the output a block.
                    unsafe { unpack(width, input.as_ptr(), input.len(), output.as_mut_ptr()) }
                }

                #[inline]
                fn unpacked(width: usize, input: &[Self]) -> [Self; 1024] {
                    check_packed(Self::BITS, width, input.len());
                    let mut output = MaybeUninit::<[Self; 1024]>::uninit();
                    // SAFETY: the input is a packed block of this width, and the output a block. The function writes each element of
                    // it.
                    unsafe {
                        unpack(width, input.as_ptr(), input.len(), output.as_mut_ptr().cast());
                        output.assume_init()
                    }
                }

                #[inline]
                fn fl_pack_blocks(width: usize, input: &[Self], output: &mut [Self]) {
                    let count = block_count(input.len());
                    check_packed_blocks_output(Self::BITS, width, count, output.len());
                    // SAFETY: the input is `count` blocks, and the output `count` packed blocks of this width.
                    unsafe {
                        pack_blocks(
                            width,
                            count,
                            input.as_ptr(),
                            input.len(),
                            output.as_mut_ptr(),
                            output.len(),
                        )
                    }
                }

                #[inline]
                fn fl_unpack_blocks(width: usize, input: &[Self], output: &mut [Self]) {
                    let count = block_count_output(output.len());
                    check_packed_blocks(Self::BITS, width, count, input.len());
                    // SAFETY: the input is `count` packed blocks of this width, and the output `count` blocks.
                    unsafe {
                        unpack_blocks(
                            width,
                            count,
                            input.as_ptr(),
                            input.len(),
                            output.as_mut_ptr(),
                            output.len(),
                        )
                    }
                }

                #[inline]
                fn fl_unpack_single(width: usize, input: &[Self], index: usize) -> Self {
                    check_packed(Self::BITS, width, input.len());
                    check_packed_index(width, index);
                    // SAFETY: the input is a packed block of this width, and the index is below 1024 or not read.
                    unsafe { unpack_single(width, input.as_ptr(), input.len(), index) }
                }

                #[inline]
                fn fl_unpack_indices(
                    width: usize,
                    input: &[Self],
                    indices: &[usize],
                    output: &mut [MaybeUninit<Self>],
                ) {
                    check_packed(Self::BITS, width, input.len());
                    check_outputs(output.len(), indices.len());
                    check_packed_indices(width, indices);
                    // SAFETY: the input is a packed block of this width, and each index is below 1024 or not read. There is
                    // an output for each index. Outputs are written and never read.
                    unsafe {
                        unpack_indices(
                            width,
                            input.as_ptr(),
                            input.len(),
                            indices.as_ptr(),
                            indices.len(),
                            output.as_mut_ptr().cast(),
                            output.len(),
                        )
                    }
                }

                #[inline]
                fn fl_unpack_sum(width: usize, input: &[Self]) -> u64 {
                    check_packed(Self::BITS, width, input.len());
                    // SAFETY: the input is a packed block of this width.
                    unsafe { unpack_sum(width, input.as_ptr(), input.len()) }
                }

                #[inline]
                fn fl_unpack_range(width: usize, input: &[Self]) -> (Self, Self) {
                    check_packed(Self::BITS, width, input.len());
                    let (mut minimum, mut maximum) = (0, 0);
                    // SAFETY: the input is a packed block of this width, and minimum and maximum are one value each.
                    unsafe { unpack_range(width, input.as_ptr(), input.len(), &mut minimum, &mut maximum) }
                    (minimum, maximum)
                }

                #[inline]
                fn fl_for_pack(width: usize, input: &[Self; 1024], reference: Self, output: &mut [Self]) {
                    check_packed_output(Self::BITS, width, output.len());
                    // SAFETY: the input is a block, and the output a packed block of this width.
                    unsafe {
                        for_pack(
                            width,
                            input.as_ptr(),
                            reference,
                            output.as_mut_ptr(),
                            output.len(),
                        )
                    }
                }

                #[inline]
                fn fl_unfor_pack(width: usize, input: &[Self], reference: Self, output: &mut [Self; 1024]) {
                    check_packed(Self::BITS, width, input.len());
                    // SAFETY: the input is a packed block of this width, and the output a block.
                    unsafe { unfor_pack(width, input.as_ptr(), input.len(), reference, output.as_mut_ptr()) }
                }

                #[inline]
                fn fl_frame_head(input: &[Self; 1024]) -> (usize, Self) {
                    let mut reference = 0;
                    // SAFETY: the input is a block, and the reference one value.
                    let width = unsafe { frame_head(input.as_ptr(), &mut reference) };
                    (width, reference)
                }

                #[inline]
                fn fl_frame_get(width: usize, reference: Self, input: &[Self], index: usize) -> Self {
                    check_packed(Self::BITS, width, input.len());
                    check_block_index(index);
                    // SAFETY: the input is a packed block of this width, and the index is below 1024.
                    unsafe { frame_get(width, reference, input.as_ptr(), input.len(), index) }
                }

                #[inline]
                fn fl_delta(input: &[Self; 1024], base: &[Self], output: &mut [Self; 1024]) {
                    check_bases(Self::BITS, base.len());
                    // SAFETY: input and output are blocks, and each lane has a base.
                    unsafe { delta(input.as_ptr(), base.as_ptr(), output.as_mut_ptr()) }
                }

                #[inline]
                fn fl_undelta(input: &[Self; 1024], base: &[Self], output: &mut [Self; 1024]) {
                    check_bases(Self::BITS, base.len());
                    // SAFETY: input and output are blocks, and each lane has a base.
                    unsafe { undelta(input.as_ptr(), base.as_ptr(), output.as_mut_ptr()) }
                }

                #[inline]
                fn fl_undelta_pack(width: usize, input: &[Self], base: &[Self], output: &mut [Self; 1024]) {
                    check_packed(Self::BITS, width, input.len());
                    check_bases(Self::BITS, base.len());
                    // SAFETY: the input is a packed block of this width, each lane has a base, and the output is a
                    // block.
                    unsafe {
                        undelta_pack(
                            width,
                            input.as_ptr(),
                            input.len(),
                            base.as_ptr(),
                            output.as_mut_ptr(),
                        )
                    }
                }

                #[inline]
                fn fl_delta_width(input: &[Self; 1024], base: &[Self]) -> usize {
                    check_bases(Self::BITS, base.len());
                    // SAFETY: the input is a block, and each lane has a base.
                    unsafe { delta_width(input.as_ptr(), base.as_ptr()) }
                }

                #[inline]
                fn fl_delta_write(width: usize, input: &[Self; 1024], base: &[Self], output: &mut [Self]) {
                    check_packed_output(Self::BITS, width, output.len());
                    check_bases(Self::BITS, base.len());
                    // SAFETY: the input is a block, each lane has a base, and the output is a packed block of this
                    // width.
                    unsafe {
                        delta_write(
                            width,
                            input.as_ptr(),
                            base.as_ptr(),
                            output.as_mut_ptr(),
                            output.len(),
                        )
                    }
                }

                #[inline]
                fn fl_delta_read(width: usize, input: &[Self], base: &[Self], output: &mut [Self; 1024]) {
                    check_packed(Self::BITS, width, input.len());
                    check_bases(Self::BITS, base.len());
                    // SAFETY: the input is a packed block of this width, each lane has a base, and the output is a
                    // block.
                    unsafe {
                        delta_read(
                            width,
                            input.as_ptr(),
                            input.len(),
                            base.as_ptr(),
                            output.as_mut_ptr(),
                        )
                    }
                }

                #[inline]
                fn fl_transpose(input: &[Self; 1024], output: &mut [Self; 1024]) {
                    // SAFETY: input and output are blocks.
                    unsafe { transpose(input.as_ptr(), output.as_mut_ptr()) }
                }

                #[inline]
                fn fl_untranspose(input: &[Self; 1024], output: &mut [Self; 1024]) {
                    // SAFETY: input and output are blocks.
                    unsafe { untranspose(input.as_ptr(), output.as_mut_ptr()) }
                }

                #[inline]
                fn fl_transpose_bits(input: &[u64; 16], output: &mut [u64; 16]) {
                    // SAFETY: input and output have 16 words.
                    unsafe { transpose_bits(input.as_ptr(), output.as_mut_ptr()) }
                }

                #[inline]
                fn fl_untranspose_bits(input: &[u64; 16], output: &mut [u64; 16]) {
                    // SAFETY: input and output have 16 words.
                    unsafe { untranspose_bits(input.as_ptr(), output.as_mut_ptr()) }
                }

                #[inline]
                fn fl_rle_encode(input: &[Self; 1024], values: &mut [Self; 1024], indices: &mut [u16; 1024]) -> usize {
                    // SAFETY: each array has 1024 elements.
                    unsafe { rle_encode(input.as_ptr(), values.as_mut_ptr(), indices.as_mut_ptr()) }
                }

                #[inline]
                fn fl_rle_decode(values: &[Self], indices: &[u16; 1024], output: &mut [Self; 1024]) {
                    check_entries(values.len(), indices);
                    // SAFETY: each index is below the number of values, and the output is a block.
                    unsafe {
                        rle_decode(
                            values.as_ptr(),
                            values.len(),
                            indices.as_ptr(),
                            output.as_mut_ptr(),
                        )
                    }
                }

                #[inline]
                fn fl_column_encode_bound(values: usize) -> usize {
                    // SAFETY: there is no precondition.
                    unsafe { column_encode_bound(values) }
                }

                #[inline]
                fn fl_column_encode(values: &[Self], flags: u32, bytes: &mut [u8]) -> Option<usize> {
                    // SAFETY: both slices have the stated lengths.
                    let len = unsafe {
                        column_encode(
                            values.as_ptr(),
                            values.len(),
                            flags,
                            bytes.as_mut_ptr(),
                            bytes.len(),
                        )
                    };
                    // 0 is an error: each column has a header.
                    (len > 0).then_some(len)
                }

                #[cfg(feature = "alloc")]
                #[inline]
                fn encoded(values: &[Self], flags: u32) -> Vec<u8> {
                    let mut bytes = Vec::with_capacity(Self::fl_column_encode_bound(values.len()));
                    // SAFETY: the buffer has the stated capacity. The function reads only bytes that it has written, and
                    // returns the number of bytes written.
                    unsafe {
                        let len = column_encode(
                            values.as_ptr(),
                            values.len(),
                            flags,
                            bytes.as_mut_ptr(),
                            bytes.capacity(),
                        );
                        bytes.set_len(len);
                    }
                    bytes.shrink_to_fit();
                    bytes
                }

                #[inline]
                fn fl_column_decode(bytes: &[u8], values: &mut [Self]) -> Result<usize, FormatError> {
                    let (mut count, mut offset) = (0, 0);
                    // SAFETY: both slices have the stated lengths, and count and offset are one number each.
                    let error = unsafe {
                        column_decode(
                            bytes.as_ptr(),
                            bytes.len(),
                            values.as_mut_ptr(),
                            values.len(),
                            &mut count,
                            &mut offset,
                        )
                    };
                    match error {
                        0 => Ok(count),
                        _ => Err(FormatError::from_c(error, offset)),
                    }
                }

                #[inline]
                fn fl_column_open(bytes: &[u8]) -> Result<Opened<'_, Self>, FormatError> {
                    let (mut column, mut offset) = (CColumn::ZEROS, 0);
                    // SAFETY: the slice has the stated length, the struct is zeros, and the offset is one number.
                    let error = unsafe { column_open(bytes.as_ptr(), bytes.len(), 0, &mut column, &mut offset) };
                    if error != 0 {
                        return Err(FormatError::from_c(error, offset));
                    }
                    // SAFETY: the column was opened.
                    let len = unsafe { column_len(&column) };
                    Ok(Opened {
                        column,
                        len,
                        borrowed: PhantomData,
                    })
                }

                #[inline]
                fn fl_column_get(column: &Opened<'_, Self>, index: u64) -> Self {
                    check_index(column.len, index);
                    // SAFETY: the column was opened by the function of this type, its bytes are borrowed, and the index is
                    // below its length.
                    unsafe { column_get(&column.column, index) }
                }

                #[inline]
                fn fl_column_read(column: &Opened<'_, Self>, start: u64, values: &mut [Self]) {
                    check_range(column.len, start, values.len());
                    // SAFETY: the column was opened by the function of this type, its bytes are borrowed, and the range is in
                    // it.
                    unsafe { column_read(&column.column, start, values.as_mut_ptr(), values.len()) }
                }

                #[inline]
                #[cfg(feature = "alloc")]
                fn append_values(column: &Opened<'_, Self>, values: &mut Vec<Self>) {
                    let (before, len) = (values.len(), column.len as usize);
                    values.reserve_exact(len);
                    // SAFETY: the column was opened by the function of this type, and its bytes are borrowed. The vector has
                    // capacity for all its values, which the function writes and does not read.
                    unsafe {
                        column_read(&column.column, 0, values.as_mut_ptr().add(before), len);
                        values.set_len(before + len);
                    }
                }

                #[inline]
                fn fl_column_filter(
                    column: &Opened<'_, Self>,
                    comparison: Comparison,
                    value: Self,
                    mask: &mut [u64],
                ) -> u64 {
                    check_mask(column.len, mask.len());
                    // SAFETY: the column was opened by the function of this type, its bytes are borrowed, the comparison is
                    // one of six, and the mask has one word per started 64 values.
                    unsafe {
                        column_filter(
                            &column.column,
                            comparison as u32,
                            value,
                            mask.as_mut_ptr(),
                            mask.len(),
                        )
                    }
                }

                #[inline]
                fn fl_column_count(column: &Opened<'_, Self>, comparison: Comparison, value: Self) -> u64 {
                    // SAFETY: the column was opened by the function of this type, its bytes are borrowed, and the comparison
                    // is one of six.
                    unsafe { column_count(&column.column, comparison as u32, value) }
                }
            }
        };
    };
}

c_functions!(u8);
c_functions!(u16);
c_functions!(u32);
c_functions!(u64);

/// The C functions that compare packed values of `E` with a value. The location of a panic is the line of the caller.
pub trait CComparisons<E>: Copy + 'static {
    #[track_caller]
    fn fl_unpack_cmp(width: usize, input: &[E], comparison: Comparison, value: Self, mask: &mut [u64; 16]);
    #[track_caller]
    fn fl_unpack_filter(width: usize, input: &[E], comparison: Comparison, value: Self, mask: &mut [u64; 16]);
}

macro_rules! c_comparisons {
    ($V:ident of $E:ident) => {
        const _: () = {
            unsafe extern "C" {
                #[link_name = concat!("fl_unpack_cmp_", stringify!($V), level!())]
                fn unpack_cmp(
                    width: usize,
                    input: *const $E,
                    input_len: usize,
                    comparison: u32,
                    value: $V,
                    mask: *mut u64,
                );
                #[link_name = concat!("fl_unpack_filter_", stringify!($V), level!())]
                fn unpack_filter(
                    width: usize,
                    input: *const $E,
                    input_len: usize,
                    comparison: u32,
                    value: $V,
                    mask: *mut u64,
                );
            }

            impl CComparisons<$E> for $V {
                #[inline]
                fn fl_unpack_cmp(
                    width: usize,
                    input: &[$E],
                    comparison: Comparison,
                    value: Self,
                    mask: &mut [u64; 16],
                ) {
                    check_packed($E::BITS, width, input.len());
                    // SAFETY: the input is a packed block of this width, the comparison is one of six, and the mask has 16
                    // words.
                    unsafe {
                        unpack_cmp(
                            width,
                            input.as_ptr(),
                            input.len(),
                            comparison as u32,
                            value,
                            mask.as_mut_ptr(),
                        )
                    }
                }

                #[inline]
                fn fl_unpack_filter(
                    width: usize,
                    input: &[$E],
                    comparison: Comparison,
                    value: Self,
                    mask: &mut [u64; 16],
                ) {
                    check_packed($E::BITS, width, input.len());
                    // SAFETY: the input is a packed block of this width, the comparison is one of six, and the mask has 16
                    // words.
                    unsafe {
                        unpack_filter(
                            width,
                            input.as_ptr(),
                            input.len(),
                            comparison as u32,
                            value,
                            mask.as_mut_ptr(),
                        )
                    }
                }
            }
        };
    };
}

c_comparisons!(u8 of u8);
c_comparisons!(u16 of u16);
c_comparisons!(u32 of u32);
c_comparisons!(u64 of u64);
c_comparisons!(i8 of u8);
c_comparisons!(i16 of u16);
c_comparisons!(i32 of u32);
c_comparisons!(i64 of u64);
