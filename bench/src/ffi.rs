//! The C functions of the library that is timed.
//!
//! A block is a pointer to 1024 elements, a slice a pointer and its length in elements, `base` a pointer to an element
//! for each lane, and a block of bits a pointer to sixteen words. Each function asks what the one of that name in
//! `crates/fastlanes` asks, and pointers that are valid and aligned; nothing that is written may overlap anything else
//! that is passed.

macro_rules! library {
    ($prefix:literal: $($name:ident $arguments:tt $(-> $answer:ty)?;)*) => {
        library!(@table $($name $arguments $(-> $answer)?;)*);
        library!(@declare U8 u8 $prefix $($name $arguments $(-> $answer)?;)*);
        library!(@declare U16 u16 $prefix $($name $arguments $(-> $answer)?;)*);
        library!(@declare U32 u32 $prefix $($name $arguments $(-> $answer)?;)*);
        library!(@declare U64 u64 $prefix $($name $arguments $(-> $answer)?;)*);
    };
    (@table $($name:ident ($($argument:ident: $type:ty),*) $(-> $answer:ty)?;)*) => {
        /// The C functions of one element type.
        pub struct Library<E> {
            $(pub $name: unsafe extern "C" fn($($argument: $type),*) $(-> $answer)?,)*
        }
    };
    (@declare $TABLE:ident $element:ident $prefix:literal
        $($name:ident ($($argument:ident: $type:ty),*) $(-> $answer:ty)?;)*) => {
        pub const $TABLE: Library<$element> = {
            type E = $element;
            unsafe extern "C" {
                $(#[link_name = concat!($prefix, stringify!($name), "_", stringify!($element))]
                fn $name($($argument: $type),*) $(-> $answer)?;)*
            }
            Library { $($name),* }
        };
    };
}

library! { "fl_":
    pack(width: usize, input: *const E, output: *mut E, output_len: usize);
    unpack(width: usize, input: *const E, input_len: usize, output: *mut E);
    unpack_single(width: usize, input: *const E, input_len: usize, index: usize) -> E;
    unpack_indices(width: usize, input: *const E, input_len: usize, indices: *const usize,
        indices_len: usize, output: *mut E, output_len: usize);
    unpack_sum(width: usize, input: *const E, input_len: usize) -> u64;
    unpack_range(width: usize, input: *const E, input_len: usize, minimum: *mut E, maximum: *mut E);
    for_pack(width: usize, input: *const E, reference: E, output: *mut E, output_len: usize);
    unfor_pack(width: usize, input: *const E, input_len: usize, reference: E, output: *mut E);
    frame_head(input: *const E, reference: *mut E) -> usize;
    frame_get(width: usize, reference: E, input: *const E, input_len: usize, index: usize) -> E;
    delta(input: *const E, base: *const E, output: *mut E);
    undelta(input: *const E, base: *const E, output: *mut E);
    undelta_pack(width: usize, input: *const E, input_len: usize, base: *const E, output: *mut E);
    delta_width(input: *const E, base: *const E) -> usize;
    delta_write(width: usize, input: *const E, base: *const E, output: *mut E, output_len: usize);
    delta_read(width: usize, input: *const E, input_len: usize, base: *const E, output: *mut E);
    unpack_cmp(width: usize, input: *const E, input_len: usize, comparison: u32, value: E, mask: *mut u64);
    transpose(input: *const E, output: *mut E);
    untranspose(input: *const E, output: *mut E);
    transpose_bits(input: *const u64, output: *mut u64);
    rle_encode(input: *const E, values: *mut E, indices: *mut u16) -> usize;
    rle_decode(values: *const E, values_len: usize, indices: *const u16, output: *mut E);
}

unsafe extern "C" {
    pub fn fl_untranspose_bits_u64(input: *const u64, output: *mut u64);
}

/// The functions of `crates/timed`: blocks by rows of sixteen lanes, and kernels in each lane.
pub mod timed {
    library! { "timed_":
        pack_rows(width: usize, input: *const E, output: *mut E, output_len: usize);
        unpack_rows(width: usize, input: *const E, input_len: usize, output: *mut E);
        put_digits(width: usize, input: *const E, input_len: usize, output: *mut E);
        sum_digits(width: usize, input: *const E, input_len: usize) -> E;
        pack_differences(width: usize, input: *const E, output: *mut E, output_len: usize);
        sum_places(input: *const E) -> E;
    }
}
