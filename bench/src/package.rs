//! Programs over the crate fastlanes, and the same programs over the package in rust/. Both have the same source, so that the compiler
//! can inline the calls of both.

use std::slice::from_raw_parts;

use ours::column::{FrameHead, column_len};

use crate::memory::PLACES;

/// The operations at one constant width.
pub struct AtWidth<E> {
    pub width: usize,
    pub pack: unsafe fn(*const E, *mut E),
    pub unpack: unsafe fn(*const E, *mut E),
    pub unfor_pack: unsafe fn(*const E, E, *mut E),
    pub undelta_pack: unsafe fn(*const E, *const E, *mut E),
    pub unpack_cmp: unsafe fn(*const E, *mut u64, E),
    /// Reads all single values, in ascending order.
    pub singles: unsafe fn(*const E, *mut E),
    /// Reads single values in random order.
    pub scattered: unsafe fn(*const E, *const u16, *mut E),
}

/// The operations of one value type.
pub struct Program<E: 'static> {
    pub at_width: &'static [AtWidth<E>],
    pub singles: unsafe fn(usize, *const E, usize, *mut E),
    pub rle_decode: unsafe fn(*const E, usize, *const u16, *mut E),
}

macro_rules! program {
    ($TABLE:ident, $package:ident, $E:ident, $($width:literal)*) => {
        pub const $TABLE: Program<$E> = {
            const LANES: usize = 1024 / $E::BITS as usize;
            const AT_WIDTH: &[AtWidth<$E>] = &[$({
                const W: usize = $width;
                const B: usize = LANES * W;
                type Packed = [$E; B];
                // SAFETY, for all functions: the pointers are to a block or a packed block, a base for each lane, and outputs of
                // the right length.
                unsafe fn pack(input: *const $E, output: *mut $E) {
                    unsafe { <$E as $package::BitPacking>::pack::<W, B>(&*input.cast(), &mut *output.cast()) }
                }
                unsafe fn unpack(input: *const $E, output: *mut $E) {
                    unsafe { <$E as $package::BitPacking>::unpack::<W, B>(&*input.cast(), &mut *output.cast()) }
                }
                unsafe fn unfor_pack(input: *const $E, reference: $E, output: *mut $E) {
                    unsafe {
                        <$E as $package::FoR>::unfor_pack::<W, B>(&*input.cast(), reference, &mut *output.cast())
                    }
                }
                unsafe fn undelta_pack(input: *const $E, base: *const $E, output: *mut $E) {
                    unsafe {
                        let (input, base, output) = (&*input.cast(), &*base.cast(), &mut *output.cast());
                        <$E as $package::Delta>::undelta_pack::<LANES, W, B>(input, base, output)
                    }
                }
                unsafe fn unpack_cmp(input: *const $E, mask: *mut u64, value: $E) {
                    unsafe {
                        let (input, mask): (&Packed, _) = (&*input.cast(), &mut *mask.cast());
                        <$E as $package::BitPackingCompare>::unpack_cmp::<W, B, $E, _>(input, mask, |x, y| x < y, value)
                    }
                }
                unsafe fn singles(input: *const $E, output: *mut $E) {
                    unsafe {
                        let input: &Packed = &*input.cast();
                        for index in 0..1024 {
                            let value = <$E as $package::BitPacking>::unpack_single::<W, B>(input, index);
                            output.add(index).write(value)
                        }
                    }
                }
                unsafe fn scattered(input: *const $E, indices: *const u16, output: *mut $E) {
                    unsafe {
                        let input: &Packed = &*input.cast();
                        for at in 0..PLACES {
                            let index = indices.add(at).read() as usize;
                            let value = <$E as $package::BitPacking>::unpack_single::<W, B>(input, index);
                            output.add(at % 1024).write(value)
                        }
                    }
                }
                AtWidth { width: W, pack, unpack, unfor_pack, undelta_pack, unpack_cmp, singles, scattered }
            }),*];
            unsafe fn singles(width: usize, input: *const $E, input_len: usize, output: *mut $E) {
                unsafe {
                    let input = from_raw_parts(input, input_len);
                    for index in 0..1024 {
                        let value = <$E as $package::BitPacking>::unchecked_unpack_single(width, input, index);
                        output.add(index).write(value)
                    }
                }
            }
            unsafe fn rle_decode(values: *const $E, values_len: usize, indices: *const u16, output: *mut $E) {
                unsafe {
                    let (values, indices) = (from_raw_parts(values, values_len), &*indices.cast());
                    <$E as $package::RLE>::decode_unchecked::<u16>(values, indices, &mut *output.cast())
                }
            }
            Program { at_width: AT_WIDTH, singles, rle_decode }
        };
    };
}

/// The programs over the package in rust/.
pub mod of_package {
    use super::*;
    program!(U8, ours, u8, 1 3 4 7);
    program!(U16, ours, u16, 1 5 8 13);
    program!(U32, ours, u32, 3 10 16 27);
    program!(U64, ours, u64, 3 20 32 53);
}

/// The programs over the crate fastlanes.
pub mod of_crate {
    use super::*;
    program!(U8, fastlanes, u8, 1 3 4 7);
    program!(U16, fastlanes, u16, 1 5 8 13);
    program!(U32, fastlanes, u32, 3 10 16 27);
    program!(U64, fastlanes, u64, 3 20 32 53);
}

/// The heads of a column of FOR blocks.
pub struct Heads<E>(Vec<FrameHead<E>>);

impl<E: ours::FastLanes> Heads<E> {
    /// Creates heads with these widths, which live until the program ends.
    pub fn new(widths: impl Iterator<Item = usize>) -> &'static Self {
        let heads = widths.map(|width| FrameHead {
            width,
            reference: E::zero(),
        });
        Box::leak(Box::new(Heads(heads.collect())))
    }

    pub fn column_len(&self) -> usize {
        column_len(&self.0)
    }

    /// Computes the same by a loop without checks.
    pub fn column_len_unchecked(&self) -> usize {
        self.0.iter().map(|head| E::LANES * head.width).sum()
    }
}
