//! The block calls of the Rust crate behind C functions of our signatures, at a width that is known at run time: what a look
//! at the width and a call from C cost.

use std::slice::{from_raw_parts, from_raw_parts_mut};

use fastlanes::{BitPacking, FoR};

use crate::ffi::{self, Library};
use crate::rust_crate;

macro_rules! through_c {
    ($TABLE:ident, $E:ident) => {
        pub const $TABLE: Library<$E> = {
            type E = $E;
            unsafe extern "C" fn pack(
                width: usize,
                input: *const E,
                output: *mut E,
                output_len: usize,
            ) {
                // SAFETY: the caller's pointers are to a block, and to so many words.
                unsafe {
                    E::unchecked_pack(
                        width,
                        from_raw_parts(input, 1024),
                        from_raw_parts_mut(output, output_len),
                    )
                }
            }
            unsafe extern "C" fn unpack(
                width: usize,
                input: *const E,
                input_len: usize,
                output: *mut E,
            ) {
                // SAFETY: the caller's pointers are to so many words, and to a block.
                unsafe {
                    E::unchecked_unpack(
                        width,
                        from_raw_parts(input, input_len),
                        from_raw_parts_mut(output, 1024),
                    )
                }
            }
            unsafe extern "C" fn unfor_pack(
                width: usize,
                input: *const E,
                input_len: usize,
                reference: E,
                output: *mut E,
            ) {
                // SAFETY: the caller's pointers are to so many words, and to a block.
                unsafe {
                    let (input, output) = (
                        from_raw_parts(input, input_len),
                        from_raw_parts_mut(output, 1024),
                    );
                    E::unchecked_unfor_pack(width, input, reference, output)
                }
            }
            // The crate has the others at constant widths alone: they stand in a table by width.
            unsafe extern "C" fn for_pack(
                width: usize,
                input: *const E,
                reference: E,
                output: *mut E,
                _: usize,
            ) {
                // SAFETY: the caller's pointers are to a block, and to the words of the width.
                unsafe { (rust_crate::$TABLE.at_width[width].for_pack)(input, reference, output) }
            }
            unsafe extern "C" fn undelta_pack(
                width: usize,
                input: *const E,
                _: usize,
                base: *const E,
                output: *mut E,
            ) {
                // SAFETY: the caller's pointers are to the words of the width, an element for each lane, and a block.
                unsafe { (rust_crate::$TABLE.at_width[width].undelta_pack)(input, base, output) }
            }
            unsafe extern "C" fn unpack_cmp(
                width: usize,
                input: *const E,
                _: usize,
                _: u32,
                value: E,
                mask: *mut u64,
            ) {
                // SAFETY: the caller's pointers are to the words of the width, and to a mask.
                unsafe { (rust_crate::$TABLE.at_width[width].unpack_cmp_lt)(input, mask, value) }
            }
            Library {
                pack,
                unpack,
                for_pack,
                unfor_pack,
                undelta_pack,
                unpack_cmp,
                ..ffi::$TABLE
            }
        };
    };
}

through_c!(U8, u8);
through_c!(U16, u16);
through_c!(U32, u32);
through_c!(U64, u64);
