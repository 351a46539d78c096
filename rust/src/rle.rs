//! Run-length and dictionary encoding.

use crate::conditions::check_entry;
use crate::ffi::CFunctions;
use crate::same_type::{block_as, block_as_mut, slice_as};

/// Run-length and dictionary encoding, for all types that can be copied and compared. The proved library handles `u8`, `u16`, `u32`
/// and `u64`. For other types the code is in this package, and tested.
pub trait RLE: Sized {
    /// Run-length encodes a block. Returns the number of runs, from 1 to 1024. Writes the value of run k to `rle_vals[k]`, and the run
    /// of `input[i]`, counted from 0, to `rle_idxs[i]`. Elements of `rle_vals` after the last run are unchanged.
    ///
    /// A run continues until `!=` is true of its first value and the next one.
    ///
    /// ```
    /// use fastlanes::RLE;
    ///
    /// let sizes: [f32; 1024] = core::array::from_fn(|i| (i / 500) as f32 + 0.5);
    /// let (mut values, mut runs) = ([0.0; 1024], [0; 1024]);
    /// let count = f32::encode_unchecked(&sizes, &mut values, &mut runs);
    /// assert_eq!(values[..count], [0.5, 1.5, 2.5]);
    /// assert_eq!([runs[0], runs[499], runs[500], runs[1023]], [0, 0, 1, 2]);
    /// ```
    fn encode_unchecked(input: &[Self; 1024], rle_vals: &mut [Self; 1024], rle_idxs: &mut [u16; 1024]) -> usize;

    /// Decodes a run-length or dictionary encoded block: `output[i] = rle_vals[rle_idxs[i]]`.
    ///
    /// # Panics
    ///
    /// Panics if an index is not below the length of `rle_vals`.
    ///
    /// ```
    /// use fastlanes::RLE;
    ///
    /// let mut output = [""; 1024];
    /// RLE::decode_unchecked(&["no", "yes"], &core::array::from_fn(|i| i == 641), &mut output);
    /// assert_eq!([output[640], output[641]], ["no", "yes"]);
    /// ```
    #[track_caller]
    fn decode_unchecked<I>(rle_vals: &[Self], rle_idxs: &[I; 1024], output: &mut [Self; 1024])
    where
        I: Copy + Into<usize>;
}

impl<E: PartialEq + Copy> RLE for E {
    fn encode_unchecked(input: &[Self; 1024], rle_vals: &mut [Self; 1024], rle_idxs: &mut [u16; 1024]) -> usize {
        encoded_as::<E, u8>(input, rle_vals, rle_idxs)
            .or_else(|| encoded_as::<E, u16>(input, rle_vals, rle_idxs))
            .or_else(|| encoded_as::<E, u32>(input, rle_vals, rle_idxs))
            .or_else(|| encoded_as::<E, u64>(input, rle_vals, rle_idxs))
            .unwrap_or_else(|| encode(input, rle_vals, rle_idxs))
    }

    fn decode_unchecked<I>(rle_vals: &[Self], rle_idxs: &[I; 1024], output: &mut [Self; 1024])
    where
        I: Copy + Into<usize>,
    {
        let decoded = decoded_as::<E, u8, I>(rle_vals, rle_idxs, output)
            || decoded_as::<E, u16, I>(rle_vals, rle_idxs, output)
            || decoded_as::<E, u32, I>(rle_vals, rle_idxs, output)
            || decoded_as::<E, u64, I>(rle_vals, rle_idxs, output);
        if !decoded {
            decode(rle_vals, &rle_idxs.map(I::into), output);
        }
    }
}

/// Encodes by the library, if `E` is its type `C`.
fn encoded_as<E, C: CFunctions>(input: &[E; 1024], values: &mut [E; 1024], indices: &mut [u16; 1024]) -> Option<usize> {
    Some(C::fl_rle_encode(block_as(input)?, block_as_mut(values)?, indices))
}

fn encode<E: PartialEq + Copy>(input: &[E; 1024], values: &mut [E; 1024], indices: &mut [u16; 1024]) -> usize {
    values[0] = input[0];
    indices[0] = 0;
    let mut run = 0;
    for (index, value) in input.iter().enumerate().skip(1) {
        if *value != values[run] {
            run += 1;
            values[run] = *value;
        }
        indices[index] = run as u16;
    }
    run + 1
}

/// Decodes by the library, if `E` is its type `C` and each index is at most 65535. Returns whether it did.
#[track_caller]
fn decoded_as<E, C: CFunctions, I: Copy + Into<usize>>(
    values: &[E],
    indices: &[I; 1024],
    output: &mut [E; 1024],
) -> bool {
    let (Some(values), Some(output)) = (slice_as(values), block_as_mut(output)) else {
        return false;
    };
    if let Some(indices) = block_as(indices) {
        C::fl_rle_decode(values, indices, output);
    } else if let Some(indices) = narrowed(indices) {
        C::fl_rle_decode(values, &indices, output);
    } else {
        return false;
    }
    true
}

/// Converts the indices to 16 bits, if each is at most 65535.
fn narrowed<I: Copy + Into<usize>>(indices: &[I; 1024]) -> Option<[u16; 1024]> {
    let (mut narrowed, mut bits) = ([0; 1024], 0);
    for (narrow, &index) in narrowed.iter_mut().zip(indices) {
        let index = index.into();
        *narrow = index as u16;
        bits |= index;
    }
    // Each index is at most 0xffff if and only if their bitwise or is.
    (bits <= usize::from(u16::MAX)).then_some(narrowed)
}

#[track_caller]
fn decode<E: Copy>(values: &[E], indices: &[usize; 1024], output: &mut [E; 1024]) {
    for &index in indices {
        check_entry(values.len(), index);
    }
    for (output, &index) in output.iter_mut().zip(indices) {
        *output = values[index];
    }
}
