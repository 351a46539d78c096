//! Bit-packing.

use crate::FastLanes;
use crate::conditions::{assert_width, block, block_mut, check_packed_index};
use crate::ffi::CFunctions;
use crate::macros::index_of;
use core::marker::PhantomData;
use core::mem::MaybeUninit;

/// Bit-packing: blocks of 1024 values to W bits per value, and back.
pub trait BitPacking: FastLanes {
    /// Packs a block to W bits per value: the packed value at each index is the value modulo 2^W.
    ///
    /// ```
    /// use fastlanes::BitPacking;
    ///
    /// let values: [u16; 1024] = core::array::from_fn(|i| i as u16 % 8);
    /// let mut packed = [0; 192];
    /// BitPacking::pack::<3, 192>(&values, &mut packed);
    /// assert_eq!([packed[1], packed[65], packed[129]], [0x9249, 0x4924, 0x2492]);
    /// ```
    ///
    /// A wrong length B does not compile:
    ///
    /// ```compile_fail
    /// fastlanes::BitPacking::pack::<3, 191>(&[0u16; 1024], &mut [0; 191]);
    /// ```
    fn pack<const W: usize, const B: usize>(input: &[Self; 1024], output: &mut [Self; B]);

    /// [`pack`](BitPacking::pack) at a run-time width.
    ///
    /// # Panics
    ///
    /// Panics if the width is above T, the input does not have 1024 values, or the output does not have LANES * width words.
    ///
    /// ```
    /// use fastlanes::{BitPacking, FastLanes};
    ///
    /// let width = 10;
    /// let mut packed = vec![0; u32::LANES * width];
    /// u32::unchecked_pack(width, &[1000; 1024], &mut packed);
    /// assert_eq!(u32::unchecked_unpack_single(width, &packed, 641), 1000);
    /// ```
    #[track_caller]
    fn unchecked_pack(width: usize, input: &[Self], output: &mut [Self]);

    /// Unpacks a block: each value is the packed value at its index. Accepts arbitrary words.
    ///
    /// ```
    /// use fastlanes::BitPacking;
    ///
    /// let mut values = [0u8; 1024];
    /// BitPacking::unpack::<2, 256>(&[0b11_10_01_00; 256], &mut values);
    /// // The rows of a lane are 128 indices apart, and a word has the packed values of four rows.
    /// assert_eq!([values[0], values[128], values[256], values[384]], [0, 1, 2, 3]);
    /// ```
    fn unpack<const W: usize, const B: usize>(input: &[Self; B], output: &mut [Self; 1024]);

    /// [`unpack`](BitPacking::unpack) at a run-time width.
    ///
    /// # Panics
    ///
    /// Panics if the width is above T, the input does not have LANES * width words, or the output does not have 1024 values.
    ///
    /// ```
    /// use fastlanes::BitPacking;
    ///
    /// let mut values = [7u64; 1024];
    /// u64::unchecked_unpack(0, &[], &mut values);
    /// assert_eq!(values, [0; 1024]);
    /// ```
    #[track_caller]
    fn unchecked_unpack(width: usize, input: &[Self], output: &mut [Self]);

    /// Returns the packed value at `index`.
    ///
    /// # Panics
    ///
    /// Panics if W is not 0 and the index is not below 1024.
    ///
    /// ```
    /// use fastlanes::BitPacking;
    ///
    /// let mut packed = [0u16; 64];
    /// packed[3] = 1 << 5;
    /// assert_eq!(BitPacking::unpack_single::<1, 64>(&packed, 5 * 128 + 3), 1);
    /// ```
    #[track_caller]
    fn unpack_single<const W: usize, const B: usize>(packed: &[Self; B], index: usize) -> Self;

    /// [`unpack_single`](BitPacking::unpack_single) at a run-time width.
    ///
    /// # Panics
    ///
    /// Panics if the width is above T, the packed block does not have LANES * width words, or the width is not 0 and the index is
    /// not below 1024.
    ///
    /// ```
    /// use fastlanes::BitPacking;
    ///
    /// assert_eq!(u16::unchecked_unpack_single(1, &[0xffff; 64], 1023), 1);
    /// ```
    #[track_caller]
    fn unchecked_unpack_single(width: usize, packed: &[Self], index: usize) -> Self;

    /// Gathers selected values: writes the packed value at `indices[k]` to `output[k]`. After the call, each output is initialized.
    ///
    /// # Panics
    ///
    /// Panics if the numbers of outputs and indices differ, or W is not 0 and an index is not below 1024.
    ///
    /// ```
    /// use core::mem::MaybeUninit;
    /// use fastlanes::BitPacking;
    ///
    /// let mut selected = [MaybeUninit::uninit(); 2];
    /// BitPacking::unpack_indices::<4, 128>(&[0x76543210_u32; 128], &[0, 128], &mut selected);
    /// // SAFETY: the call initialized both.
    /// assert_eq!(selected.map(|value| unsafe { value.assume_init() }), [0, 1]);
    /// ```
    #[track_caller]
    fn unpack_indices<const W: usize, const B: usize>(
        packed: &[Self; B],
        indices: &[usize],
        output: &mut [MaybeUninit<Self>],
    );

    /// [`unpack_indices`](BitPacking::unpack_indices) at a run-time width.
    ///
    /// # Panics
    ///
    /// Panics if the width is above T, the packed block does not have LANES * width words, the numbers of outputs and indices
    /// differ, or the width is not 0 and an index is not below 1024.
    ///
    /// ```
    /// use core::mem::MaybeUninit;
    /// use fastlanes::BitPacking;
    ///
    /// let mut selected = [MaybeUninit::uninit(); 3];
    /// u8::unchecked_unpack_indices(8, &[5; 1024], &[1023, 0, 0], &mut selected);
    /// // SAFETY: the call initialized all three.
    /// assert_eq!(selected.map(|value| unsafe { value.assume_init() }), [5, 5, 5]);
    /// ```
    #[track_caller]
    fn unchecked_unpack_indices(width: usize, packed: &[Self], indices: &[usize], output: &mut [MaybeUninit<Self>]);
}

impl<E: FastLanes + CFunctions> BitPacking for E {
    fn pack<const W: usize, const B: usize>(input: &[Self; 1024], output: &mut [Self; B]) {
        assert_width!(Self, W, B);
        Self::fl_pack(W, input, output)
    }

    fn unchecked_pack(width: usize, input: &[Self], output: &mut [Self]) {
        Self::fl_pack(width, block(input), output)
    }

    fn unpack<const W: usize, const B: usize>(input: &[Self; B], output: &mut [Self; 1024]) {
        assert_width!(Self, W, B);
        Self::fl_unpack(W, input, output)
    }

    fn unchecked_unpack(width: usize, input: &[Self], output: &mut [Self]) {
        Self::fl_unpack(width, input, block_mut(output))
    }

    fn unpack_single<const W: usize, const B: usize>(packed: &[Self; B], index: usize) -> Self {
        assert_width!(Self, W, B);
        check_packed_index(W, index);
        packed_value::<Self, W>(packed, index)
    }

    fn unchecked_unpack_single(width: usize, packed: &[Self], index: usize) -> Self {
        Self::fl_unpack_single(width, packed, index)
    }

    fn unpack_indices<const W: usize, const B: usize>(
        packed: &[Self; B],
        indices: &[usize],
        output: &mut [MaybeUninit<Self>],
    ) {
        assert_width!(Self, W, B);
        Self::fl_unpack_indices(W, packed, indices, output)
    }

    fn unchecked_unpack_indices(width: usize, packed: &[Self], indices: &[usize], output: &mut [MaybeUninit<Self>]) {
        Self::fl_unpack_indices(width, packed, indices, output)
    }
}

/// Returns the packed value at an index: the W bits from bit `row * W` on of the words of its lane, which are LANES apart. This is the
/// formula of the layout, not a call of the library, so that it is compiled with W as a constant.
#[inline]
fn packed_value<E: FastLanes, const W: usize>(packed: &[E], index: usize) -> E {
    if W == 0 {
        return E::zero();
    }
    let (row, lane) = (usize::from(Rows::<E>::OF_INDICES[index]) % E::T, index % E::LANES);
    let (word, shift) = (E::LANES * (row * W / E::T) + lane, row * W % E::T);
    let bits = packed[word] >> shift;
    // A branch is faster at small widths: few values continue in the next word, and the processor predicts them. For u64 this holds up
    // to width 32, since two words do not fit in one register. Otherwise both words are read. If the value ends in the first word, the
    // bits of the second, which is the next word or the block's last, are masked out.
    let branches = W * 8 <= E::T || W * 2 <= E::T && E::T == 64;
    let is_in_one_word = E::T % W == 0 || branches && shift + W <= E::T;
    let bits = if is_in_one_word {
        bits
    } else {
        let next = (word + E::LANES).min(packed.len() - 1);
        bits | packed[next] << 1 << (E::T - 1 - shift)
    };
    bits & E::max_value() >> (E::T - W)
}

struct Rows<E>(PhantomData<E>);

impl<E: FastLanes> Rows<E> {
    /// The row of each index.
    const OF_INDICES: &'static [u8; 1024] = &rows_of_indices(E::T);
}

const fn rows_of_indices(bits: usize) -> [u8; 1024] {
    let mut rows = [0; 1024];
    let mut at = 0;
    while at < 1024 {
        rows[index_of(at / (1024 / bits), at % (1024 / bits))] = (at / (1024 / bits)) as u8;
        at += 1;
    }
    rows
}
