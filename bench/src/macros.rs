//! What the functions of `crates/timed` do with kernels, by the macros of the Rust crate.

use fastlanes::{FastLanes, iterate, pack, unpack};

/// The kernels that have a width, at one constant width.
pub struct AtWidth<E> {
    pub width: usize,
    pub put_digits: unsafe fn(*const E, *mut E),
    pub sum_digits: unsafe fn(*const E) -> E,
    pub pack_differences: unsafe fn(*const E, *mut E),
}

/// The kernels of one element type.
pub struct Macros<E: 'static> {
    pub at_width: &'static [AtWidth<E>],
    pub sum_places: unsafe fn(*const E) -> E,
}

macro_rules! macros {
    ($TABLE:ident, $E:ident, $($width:literal)*) => {
        pub const $TABLE: Macros<$E> = {
            const LANES: usize = 1024 / $E::BITS as usize;
            type Block = [$E; 1024];
            unsafe fn put_digits<const W: usize, const B: usize>(input: *const $E, output: *mut $E) {
                // SAFETY: the pointers are to a packed block of this width and to a block.
                let (input, output) = unsafe { (&*input.cast::<[$E; B]>(), &mut *output.cast::<Block>()) };
                for lane in 0..LANES {
                    unpack!($E, W, input, lane, |$place, $digit| { output[$place] = $digit; });
                }
            }
            unsafe fn sum_digits<const W: usize, const B: usize>(input: *const $E) -> $E {
                // SAFETY: the pointer is to a packed block of this width.
                let input = unsafe { &*input.cast::<[$E; B]>() };
                let mut sum: $E = 0;
                for lane in 0..LANES {
                    unpack!($E, W, input, lane, |$_place, $digit| { sum = sum.wrapping_add($digit); });
                }
                sum
            }
            unsafe fn pack_differences<const W: usize, const B: usize>(input: *const $E, output: *mut $E) {
                // SAFETY: the pointers are to a block and to room for a packed block of this width.
                let (input, output) = unsafe { (&*input.cast::<Block>(), &mut *output.cast::<[$E; B]>()) };
                for lane in 0..LANES {
                    let mut before: $E = 0;
                    pack!($E, W, output, lane, |$place| {
                        {
                            let value = input[$place];
                            let difference = value.wrapping_sub(before);
                            #[allow(unused_assignments)]
                            {
                                before = value;
                            }
                            difference
                        }
                    });
                }
            }
            unsafe fn sum_places(input: *const $E) -> $E {
                // SAFETY: the pointer is to a block.
                let input = unsafe { &*input.cast::<Block>() };
                let mut sum: $E = 0;
                for lane in 0..LANES {
                    iterate!($E, lane, |$place| { sum = sum.wrapping_add(input[$place]); });
                }
                sum
            }
            Macros {
                at_width: &[$(AtWidth {
                    width: $width,
                    put_digits: put_digits::<$width, { LANES * $width }>,
                    sum_digits: sum_digits::<$width, { LANES * $width }>,
                    pack_differences: pack_differences::<$width, { LANES * $width }>,
                }),*],
                sum_places,
            }
        };
    };
}

// The first and the last are constants in `crates/timed` too, the others are numbers of the run there.
macros!(U8, u8, 3 2 4 5);
macros!(U16, u16, 3 2 9 10);
macros!(U32, u32, 3 2 19 20);
macros!(U64, u64, 3 2 39 40);
