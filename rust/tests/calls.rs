//! Calls as users of the crate `fastlanes` write them.

#![allow(unused_unsafe)]

use fastlanes::{BitPacking, BitPackingCompare, Delta, FastLanes, FoR, Transpose, scalar, seq_t, transpose_bits};
use std::array;
use std::fmt::Debug;
use std::mem::MaybeUninit;

/// Returns whether a block that begins with 0 round-trips through packed differences, in generic code.
fn round_trips<E: Delta + Transpose, const LANES: usize, const W: usize, const B: usize>(block: &[E; 1024]) -> bool {
    let zero = block[0];
    let (mut transposed, mut deltas, mut output) = ([zero; 1024], [zero; 1024], [zero; 1024]);
    let mut packed = [zero; B];
    E::transpose(block, &mut transposed);
    E::delta::<LANES>(&transposed, &[zero; LANES], &mut deltas);
    E::pack::<W, B>(&deltas, &mut packed);
    E::undelta_pack::<LANES, W, B>(&packed, &[zero; LANES], &mut deltas);
    E::untranspose(&deltas, &mut output);
    output == *block
}

#[test]
fn generic_code_round_trips_differences() {
    // The differences of the first rows are up to 1023 / 5, which has 8 bits.
    assert!(round_trips::<u16, 64, 8, 512>(&array::from_fn(|i| i as u16 / 5)));
    assert!(round_trips::<u64, 16, 8, 128>(&array::from_fn(|i| i as u64 / 5)));
    assert!(!round_trips::<u32, 32, 7, 224>(&array::from_fn(|i| i as u32 / 5)));
}

#[test]
fn calls_work_in_unsafe_blocks_and_as_unsafe_pointers() {
    let block: [u32; 1024] = array::from_fn(|i| i as u32);
    let (mut packed, mut output) = ([0; 32 * 10], [0; 1024]);
    let pack: unsafe fn(usize, &[u32], &mut [u32]) = u32::unchecked_pack;
    // SAFETY: the lengths are right for width 10.
    unsafe {
        pack(10, &block, &mut packed);
        BitPacking::unchecked_unpack(10, &packed, &mut output);
    }
    assert_eq!(output, block);
    assert_eq!(BitPacking::unpack_single::<10, 320>(&packed, 641), block[641]);
}

/// On arbitrary words, `unpack_single` agrees with the library's `unpack`.
fn assert_single_values<E: BitPacking + Debug, const W: usize, const B: usize>(of: impl Fn(usize) -> E) {
    let words = array::from_fn(|i| of((i * i + 1).wrapping_mul(0x9E37_79B9_7F4A_7C15)));
    let mut block = [E::zero(); 1024];
    E::unpack::<W, B>(&words, &mut block);
    let single = array::from_fn(|index| E::unpack_single::<W, B>(&words, index));
    assert_eq!(single, block, "at width {W}");
}

const fn words(bits: usize, width: usize) -> usize {
    1024 / bits * width
}

#[test]
fn unpack_single_agrees_with_unpack_at_every_constant_width() {
    seq_t!(W in u8 { assert_single_values::<u8, W, { words(8, W) }>(|number| (number >> 32) as u8); });
    seq_t!(W in u16 { assert_single_values::<u16, W, { words(16, W) }>(|number| (number >> 32) as u16); });
    seq_t!(W in u32 { assert_single_values::<u32, W, { words(32, W) }>(|number| (number >> 32) as u32); });
    seq_t!(W in u64 { assert_single_values::<u64, W, { words(64, W) }>(|number| number as u64); });
    assert_single_values::<u8, 8, 1024>(|number| number as u8);
    assert_single_values::<u16, 16, 1024>(|number| number as u16);
    assert_single_values::<u32, 32, 1024>(|number| number as u32);
    assert_single_values::<u64, 64, 1024>(|number| number as u64);
}

#[test]
fn transpose_bits_reorders_a_mask_to_logical_order() {
    let block: [u16; 1024] = array::from_fn(|i| i as u16);
    let (mut packed, mut mask, mut logical) = ([0; 640], [0; 16], [0; 16]);
    u16::pack::<10, 640>(&block, &mut packed);
    u16::unpack_cmp_lt::<10, 640>(&packed, &mut mask, 100);
    transpose_bits::<u16>(&mask, &mut logical);
    for i in 0..1024 {
        assert_eq!(logical[i / 64] >> (i % 64) & 1 == 1, i < 100);
    }
}

#[test]
fn indices_are_not_read_at_width_0() {
    let mut selected = [MaybeUninit::new(7u8); 2];
    u8::unchecked_unpack_indices(0, &[], &[1024, usize::MAX], &mut selected);
    // SAFETY: both were initialized above.
    assert_eq!(selected.map(|element| unsafe { element.assume_init() }), [0, 0]);
    assert_eq!(u64::unpack_single::<0, 0>(&[], usize::MAX), 0);
}

#[test]
fn types_have_their_constants() {
    assert_eq!([u8::T, u16::T, u32::T, u64::T], [8, 16, 32, 64]);
    assert_eq!([u8::LANES, u16::LANES, u32::LANES, u64::LANES], [128, 64, 32, 16]);
    let mut output = [0u8; 128];
    FoR::for_pack::<1, 128>(&[8; 1024], 7, &mut output);
    assert_eq!(output, [255; 128]);
}

/// The only bound is `FastLanes`.
fn transpositions_round_trip<E: FastLanes>(block: &[E; 1024], bits: &[u64; 16]) -> bool {
    let (mut transposed, mut output) = ([E::zero(); 1024], [E::zero(); 1024]);
    Transpose::transpose(block, &mut transposed);
    Transpose::untranspose(&transposed, &mut output);
    let (mut logical, mut scalar_logical) = ([0; 16], [0; 16]);
    transpose_bits::<E>(bits, &mut logical);
    scalar::transpose_bits::<E>(bits, &mut scalar_logical);
    transposed[128] == block[1] && output == *block && logical == scalar_logical && logical != *bits
}

#[test]
fn generic_code_transposes_blocks_of_each_type() {
    let bits = array::from_fn(|word| 0x9E37_79B9_7F4A_7C15_u64.rotate_left(word as u32));
    assert!(transpositions_round_trip::<u8>(&array::from_fn(|i| i as u8), &bits));
    assert!(transpositions_round_trip::<u16>(&array::from_fn(|i| i as u16), &bits));
    assert!(transpositions_round_trip::<u32>(&array::from_fn(|i| i as u32), &bits));
    assert!(transpositions_round_trip::<u64>(&array::from_fn(|i| i as u64), &bits));
}
