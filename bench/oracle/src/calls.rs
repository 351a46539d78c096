//! What the crate has for a named element type or at a constant width alone: here for any type, and for a width that is
//! known at run time.

use fastlanes::{Delta, FastLanes, FoR, iterate, pack, seq_t, unpack};

/// The macros and the calls at a constant width.
pub trait Calls: Delta + FoR {
    /// Calls the kernel with the place of each row of a lane.
    fn iterate_lane(lane: usize, kernel: impl FnMut(usize));

    /// Packs a lane of what the kernel gives for the place of each row.
    fn pack_lane(width: usize, words: &mut [Self], lane: usize, kernel: impl FnMut(usize) -> Self);

    /// Calls the kernel with the place and the digit of each row of a lane.
    fn unpack_lane(width: usize, words: &[Self], lane: usize, kernel: impl FnMut(usize, Self));

    /// Packs differences from a reference.
    fn for_pack_at(width: usize, block: &[Self; 1024], reference: Self, words: &mut [Self]);

    /// Adds up the digits along each lane, from its base on.
    fn undelta_pack_at<const LANES: usize>(
        width: usize,
        words: &[Self],
        base: &[Self; LANES],
        sums: &mut [Self; 1024],
    );
}

/// Packed words as the array that a call at a constant width takes.
macro_rules! array {
    ($words:ident) => {
        $words.try_into().expect("LANES * width words")
    };
}

/// The calls of an element type of so many bits.
macro_rules! calls {
    ($E:ident, $bits:tt) => {
        impl Calls for $E {
            fn iterate_lane(lane: usize, mut kernel: impl FnMut(usize)) {
                iterate!($E, lane, |$place| { kernel($place) });
            }

            fn pack_lane(
                width: usize,
                words: &mut [$E],
                lane: usize,
                mut kernel: impl FnMut(usize) -> $E,
            ) {
                pack!($E, width, words, lane, |$place| { kernel($place) });
            }

            fn unpack_lane(
                width: usize,
                words: &[$E],
                lane: usize,
                mut kernel: impl FnMut(usize, $E),
            ) {
                unpack!($E, width, words, lane, |$place, $digit| {
                    kernel($place, $digit)
                });
            }

            fn for_pack_at(width: usize, block: &[$E; 1024], reference: $E, words: &mut [$E]) {
                seq_t!(W in $E {
                    match width {
                        #(W => <$E>::for_pack::<W, { 1024 * W / $bits }>(block, reference, array!(words)),)*
                        $bits => <$E>::for_pack::<$bits, 1024>(block, reference, array!(words)),
                        _ => panic!("no width {width}"),
                    }
                })
            }

            fn undelta_pack_at<const LANES: usize>(
                width: usize,
                words: &[$E],
                base: &[$E; LANES],
                sums: &mut [$E; 1024],
            ) {
                seq_t!(W in $E {
                    match width {
                        #(W => <$E>::undelta_pack::<LANES, W, { 1024 * W / $bits }>(array!(words), base, sums),)*
                        $bits => <$E>::undelta_pack::<LANES, $bits, 1024>(array!(words), base, sums),
                        _ => panic!("no width {width}"),
                    }
                })
            }
        }
    };
}

calls!(u8, 8);
calls!(u16, 16);
calls!(u32, 32);
calls!(u64, 64);
