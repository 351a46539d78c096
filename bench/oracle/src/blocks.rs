//! The operations that have no width.

use std::array::from_fn;
use std::io;

use fastlanes::{RLE, transpose_bits, untranspose_bits};

use crate::digest::Digest;
use crate::input::Input;
use crate::lines::{Case, Lines};
use crate::word::{Word, bases};
use crate::written::written_array;

/// Prints what a block becomes: its differences and sums along the lanes, the block transposed, a block of bits
/// transposed, and the entries of a dictionary that indexes name.
pub fn print_blocks<E: Word, const LANES: usize>(
    lines: &mut Lines,
    input: Input,
) -> io::Result<()> {
    let case = case_of::<E>(input);
    let block = input.first::<E, 1024>();
    print_differences::<E, LANES>(lines, case, &block)?;
    print_transposes(lines, case, &block)?;
    print_bits::<E>(lines, case, input)?;
    print_decoded(lines, case, &block)
}

/// A call with a type and no width.
fn case_of<E: Word>(input: Input) -> Case {
    Case {
        element: E::NAME,
        width: None,
        input: input.name(),
    }
}

/// Prints the differences along the lanes, and what differences add up to.
fn print_differences<E: Word, const LANES: usize>(
    lines: &mut Lines,
    case: Case,
    block: &[E; 1024],
) -> io::Result<()> {
    let base = bases::<E, LANES>();
    let differences = written_array(|values| E::delta(block, &base, values));
    lines.put("delta", case, Digest::of(&differences))?;
    let sums = written_array(|values| E::undelta(block, &base, values));
    lines.put("undelta", case, Digest::of(&sums))
}

/// Prints the block with its neighbours moved into lanes, and moved out of them.
fn print_transposes<E: Word>(lines: &mut Lines, case: Case, block: &[E; 1024]) -> io::Result<()> {
    let moved = written_array(|values| E::transpose(block, values));
    lines.put("transpose", case, Digest::of(&moved))?;
    let moved = written_array(|values| E::untranspose(block, values));
    lines.put("untranspose", case, Digest::of(&moved))
}

/// Prints the bits of sixteen words of the input brought into the order of places, and brought back.
fn print_bits<E: Word>(lines: &mut Lines, case: Case, input: Input) -> io::Result<()> {
    let bits = input.first::<u64, 16>();
    let moved: Vec<u64> = written_array(|words| transpose_bits::<E>(&bits, words));
    lines.put("transpose_bits", case, Digest::of(&moved))?;
    let moved = bits_before::<E>(&bits);
    if E::T == 64 {
        assert_eq!(written_array(|words| untranspose_bits(&bits, words)), moved);
    }
    lines.put("untranspose_bits", case, Digest::of(&moved))
}

/// The bits that `transpose_bits` brings to these. The crate has a call that tells them for 64 bits alone. So each bit
/// is moved by itself: it was set if it comes to a place that is set.
fn bits_before<E: Word>(bits: &[u64; 16]) -> [u64; 16] {
    let mut before = [0; 16];
    for place in 0..1024 {
        let mut alone = [0; 16];
        alone[place / 64] = 1 << (place % 64);
        let mut moved = [0; 16];
        transpose_bits::<E>(&alone, &mut moved);
        if moved
            .iter()
            .zip(bits)
            .any(|(moved, bits)| moved & bits != 0)
        {
            before[place / 64] |= alone[place / 64];
        }
    }
    before
}

/// Prints the entries that indexes of each kind name, where the block is the dictionary.
fn print_decoded<E: Word>(lines: &mut Lines, case: Case, block: &[E; 1024]) -> io::Result<()> {
    let bits: [bool; 1024] = from_fn(|place| place % 2 == 1);
    let sizes: [usize; 1024] = from_fn(|place| (7 * place + 3) % 1024);
    let bytes = sizes.map(|index| (index % 256) as u8);
    let shorts = sizes.map(|index| index as u16);
    lines.put("rle_decode:bool", case, decoded(block, &bits))?;
    lines.put("rle_decode:u8", case, decoded(block, &bytes))?;
    lines.put("rle_decode:u16", case, decoded(block, &shorts))?;
    lines.put("rle_decode:usize", case, decoded(block, &sizes))
}

/// The digest of the entries that the indexes name.
fn decoded<E: Word, I: Copy + Into<usize>>(dictionary: &[E; 1024], indexes: &[I; 1024]) -> Digest {
    assert!(indexes.iter().all(|&index| index.into() < 1024));
    let values = written_array(|values| {
        // SAFETY: every index is below 1024, the length of the dictionary.
        unsafe { E::decode_unchecked(dictionary, indexes, values) }
    });
    Digest::of(&values)
}

/// Prints the runs of a block: how many they are, the value of each, and the number of the run of each place.
pub fn print_runs<E: Word>(lines: &mut Lines, input: Input) -> io::Result<()> {
    let block = input.first::<E, 1024>();
    let mut values = [E::max_value(); 1024];
    let mut indexes = [u16::MAX; 1024];
    // SAFETY: the call asks for nothing but what the types of the arrays tell.
    let count = unsafe { E::encode_unchecked(&block, &mut values, &mut indexes) };
    let mut runs = Digest::new();
    runs.add(count as u64, 8);
    runs.add_words(&values[..count]);
    runs.add_words(&indexes);
    lines.put("rle_encode", case_of::<E>(input), runs)
}
