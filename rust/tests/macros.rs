//! The macros for the rows of a lane, as users write them. vectors.rs compares them with the crate `fastlanes`, at every width.

use fastlanes::{BitPacking, FL_ORDER, FastLanes, iterate, pack, seq_t, unpack};
use std::array;
use std::collections::BTreeMap;

/// The type is the argument of a macro, and the width is constant.
macro_rules! lanes_as_blocks {
    ($name:ident, $E:ty) => {
        mod $name {
            use super::*;

            fn assert_width<const W: usize, const B: usize>() {
                let block: [$E; 1024] = array::from_fn(|i| (i as $E).wrapping_mul(0x9D));
                let (mut words, mut packed) = ([1; B], [2; B]);
                let (mut values, mut unpacked) = ([1; 1024], [2; 1024]);
                for lane in 0..<$E>::LANES {
                    pack!($E, W, words, lane, |$index| block[$index]);
                    unpack!($E, W, words, lane, |$index, $value| values[$index] = $value);
                }
                <$E>::pack::<W, B>(&block, &mut packed);
                <$E>::unpack::<W, B>(&packed, &mut unpacked);
                assert_eq!(words, packed);
                assert_eq!(values, unpacked);
            }

            #[test]
            fn macros_agree_with_pack_and_unpack() {
                const LANES: usize = <$E>::LANES;
                const T: usize = <$E>::T;
                assert_width::<0, 0>();
                assert_width::<1, LANES>();
                assert_width::<5, { 5 * LANES }>();
                assert_width::<{ T - 1 }, { 1024 - LANES }>();
                assert_width::<T, 1024>();
            }
        }
    };
}

lanes_as_blocks!(of_u8, u8);
lanes_as_blocks!(of_u16, u16);
lanes_as_blocks!(of_u32, u32);
lanes_as_blocks!(of_u64, u64);

#[test]
fn iterate_visits_rows_in_order() {
    let mut indices = vec![];
    iterate!(u32, 7, |$index| {
        let first = $index - 7;
        indices.push(first);
    });
    let rows = (0..32).map(|row| FL_ORDER[row / 8] * 16 + row % 8 * 128);
    assert!(indices.into_iter().eq(rows));
}

#[test]
fn pack_evaluates_no_value_and_unpack_returns_0_at_width_0() {
    let (mut packed, mut evaluated) = ([7u16; 64], 0);
    pack!(u16, 0, packed, 5, |$_index| {
        evaluated += 1;
        1
    });
    assert_eq!((packed, evaluated), ([7; 64], 0));
    let mut visits = vec![];
    unpack!(u16, 0, packed, 5, |$index, $value| visits.push(($index, $value)));
    assert_eq!(visits.len(), 16);
    assert!(visits.iter().all(|(index, value)| index % 64 == 5 && *value == 0));
}

#[test]
fn packed_is_any_expression_that_can_be_indexed() {
    let mut of_columns = [vec![0; 64 * 3], vec![0; 64 * 3]];
    let column = 1;
    pack!(u16, 3, of_columns[column], 1, |$index| $index as u16);
    assert_eq!(
        [of_columns[1][1], of_columns[1][65], of_columns[1][129]],
        [0x9249, 0x4924, 0x2492]
    );
    assert_eq!(of_columns[0], [0; 64 * 3]);

    let packed = BTreeMap::from([(&1, 0x9249), (&65, 0x4924), (&129, 0x2492)]);
    struct Sparse<'a>(BTreeMap<&'a usize, u16>);
    impl std::ops::Index<usize> for Sparse<'_> {
        type Output = u16;

        fn index(&self, word: usize) -> &u16 {
            &self.0[&word]
        }
    }
    let mut sum = 0;
    unpack!(u16, 3, Sparse(packed.clone()), 1, |$_index, $value| sum += $value);
    assert_eq!(sum, 16);
}

/// Returns the index of the first row with a packed value, and reads no more rows.
fn first_of(packed: &[u16; 192], lane: usize, wanted: u16) -> Option<usize> {
    unpack!(u16, 3, packed, lane, |$index, $value| {
        if $value == wanted {
            return Some($index);
        }
    });
    None
}

#[test]
fn the_body_can_return() {
    let mut packed = [0; 192];
    BitPacking::pack::<3, 192>(&array::from_fn(|i| (i / 128) as u16), &mut packed);
    assert_eq!(first_of(&packed, 3, 5), Some(5 * 128 + 3));
    assert_eq!(first_of(&packed, 3, 0), Some(3));
    let mut none = packed;
    none.fill(0);
    assert_eq!(first_of(&none, 3, 5), None);
}

#[test]
fn macros_can_be_nested() {
    let packed = [0xffu8; 256];
    let mut sum = 0u64;
    unpack!(u8, 2, packed, 3, |$index, $value| {
        let outer = u64::from($value) * $index as u64;
        unpack!(u8, 2, packed, 4, |$inner, $other| sum += outer + u64::from($other) * $inner as u64);
    });
    let indices: u64 = (0..8).map(|row| row * 128).sum();
    assert_eq!(sum, 3 * 8 * (2 * indices + 8 * 3 + 8 * 4));

    let mut words = [0u32; 64];
    let mut calls = 0;
    pack!(u32, 2, words, 1, |$index| {
        iterate!(u8, 1, |$_other| calls += 1);
        $index as u32
    });
    assert_eq!((calls, words[1]), (32 * 8, 0x5555_5555));
}

#[test]
fn width_and_lane_are_expressions_that_are_evaluated_once() {
    let packed = [u64::MAX; 48];
    let mut calls = 0;
    let mut counted = |argument: usize| {
        calls += 1;
        argument
    };
    let mut sum = 0;
    unpack!(u64, counted(3), packed, counted(15), |$_index, $value| sum += $value);
    assert_eq!((calls, sum), (2, 64 * 7));
}

/// A separate call for each width. The type is the argument of a macro.
macro_rules! widths {
    ($E:ty, $width:ident) => {
        seq_t!(W in $E {
            match $width {
                #(W => <[$E; 1024 / <$E>::T * W]>::default_len(),)*
                <$E>::T => 1024,
                other => panic!("no width {other}"),
            }
        })
    };
}

trait DefaultLen {
    fn default_len() -> usize;
}

impl<E, const N: usize> DefaultLen for [E; N] {
    fn default_len() -> usize {
        N
    }
}

#[test]
fn seq_t_repeats_tokens_for_each_row() {
    for width in 0..=8 {
        assert_eq!(widths!(u8, width), 128 * width);
    }
    for width in 0..=64 {
        assert_eq!(widths!(u64, width), 16 * width);
    }

    // The numbers have no type suffix.
    let mut sums = (0u8, 0u64);
    seq_t!(row in u16 {
        sums.0 += row;
        sums.1 += row;
    });
    assert_eq!(sums, (120, 120));

    let mut names = vec![];
    seq_t!(n in u8 {
        let row~n = n;
        names.push((stringify!(row~n), row~n));
    });
    assert_eq!([names[0], names[7]], [("row0", 0), ("row7", 7)]);
}
