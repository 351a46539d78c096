//! Arbitrary words, widths, lengths and indices: a call returns the packed values, as the layout defines them, or panics with the
//! right message. Bytes that are almost a column: a call returns values or the right error. tests/rust.sh also runs these tests
//! under an address sanitizer.

use fastlanes::column::{Column, FormatError, Options, Stored, decode, decode_into, encode, encode_with};
use fastlanes::{BitFolding, BitPackingBlocks, BitPackingCompare, Comparison, FL_ORDER, FastLanesComparable, FoR, RLE};
use std::cell::Cell;
use std::fmt::Debug;
use std::mem::MaybeUninit;
use std::panic::{self, AssertUnwindSafe};
use std::sync::Once;

trait Element:
    BitPackingCompare + BitPackingBlocks + BitFolding + FoR + Stored + Debug + FastLanesComparable<Bitpacked = Self>
{
    fn of(number: u64) -> Self;
    fn number(self) -> u64;
}

macro_rules! element {
    ($($E:ident)*) => {
        $(impl Element for $E {
            fn of(number: u64) -> Self {
                number as $E
            }

            fn number(self) -> u64 {
                u64::from(self)
            }
        })*
    };
}

element!(u8 u16 u32 u64);

thread_local!(static IS_CALLING: Cell<bool> = const { Cell::new(false) });

/// Returns the result of a call, or the message of its panic, which is not printed.
fn outcome<R>(call: impl FnOnce() -> R) -> Result<R, String> {
    static QUIET: Once = Once::new();
    QUIET.call_once(|| {
        let print = panic::take_hook();
        panic::set_hook(Box::new(move |info| {
            if !IS_CALLING.get() {
                print(info)
            }
        }));
    });
    IS_CALLING.set(true);
    let ended = panic::catch_unwind(AssertUnwindSafe(call));
    IS_CALLING.set(false);
    ended.map_err(|panic| panic.downcast_ref::<String>().expect("a panic with a message").clone())
}

/// Pseudorandom values.
fn scrambled<E: Element>(len: usize) -> Vec<E> {
    let number = |i: usize| (i as u64 + 1).wrapping_mul(0x9E37_79B9_7F4A_7C15).rotate_left(31);
    (0..len).map(|i| E::of(number(i))).collect()
}

/// All widths of a type, and some above T.
fn widths<E: Element>() -> impl Iterator<Item = usize> {
    (0..=E::T + 2).chain([usize::MAX / E::LANES, usize::MAX])
}

/// Lengths near the length of a packed block, and others.
fn lengths<E: Element>(width: usize) -> [usize; 6] {
    let expected = E::LANES.saturating_mul(width).min(1 << 16);
    [
        0,
        expected.saturating_sub(1),
        expected,
        expected + 1,
        1024,
        2 * expected,
    ]
}

/// Returns the message of the panic for a packed block of this length, if the call panics.
fn panic_of<E: Element>(parameter: &str, width: usize, words: usize) -> Option<String> {
    let (bits, lanes) = (E::T, E::LANES);
    let expected = lanes.wrapping_mul(width);
    if width > bits {
        Some(format!("width {width} is out of range: u{bits} has {bits} bits"))
    } else if words != expected {
        Some(format!(
            "{parameter} has {words} words: expected {expected} ({lanes} lanes at width {width})"
        ))
    } else {
        None
    }
}

/// Returns the packed value at an index: the bits of its row in the words of its lane.
fn packed_value<E: Element>(width: usize, words: &[E], index: usize) -> E {
    let lane = index % E::LANES;
    let row = FL_ORDER[(index % 128 - lane) / 16] * 8 + index / 128;
    let bit = |n: usize| words[n / E::T * E::LANES + lane].number() >> (n % E::T) & 1;
    E::of((0..width).map(|n| bit(row * width + n) << n).sum())
}

/// The call panics with the message, or returns the expected result if there is none.
fn assert_outcome<R: PartialEq + Debug>(
    message: Option<&String>,
    call: impl FnOnce() -> R,
    expected: impl FnOnce() -> R,
) {
    match (outcome(call), message) {
        (Ok(found), None) => assert_eq!(found, expected()),
        (Err(found), Some(message)) => assert_eq!(found, *message),
        (found, message) => panic!("{found:?}: expected {message:?}"),
    }
}

/// Tests every call on one packed block.
fn assert_readers<E: Element>(width: usize, words: &[E]) {
    let output_panic = panic_of::<E>("output", width, words.len());
    let input_panic = panic_of::<E>("input", width, words.len());
    let input_panic = input_panic.as_ref();
    let all = |fill: E| {
        let mut output = [fill; 1024];
        E::unchecked_unpack(width, words, &mut output);
        output
    };
    let values = || std::array::from_fn(|index| packed_value(width, words, index));
    assert_outcome(input_panic, || all(E::of(0)), values);
    assert_outcome(input_panic, || all(E::of(u64::MAX)), values);

    let sum = |index: usize| E::of(packed_value(width, words, index).number().wrapping_add(97));
    let for_block = || {
        let mut output = [E::of(u64::MAX); 1024];
        E::unchecked_unfor_pack(width, words, E::of(97), &mut output);
        output
    };
    assert_outcome(input_panic, for_block, || std::array::from_fn(sum));

    let below = || {
        let mut mask = [u64::MAX; 16];
        E::unchecked_unpack_cmp_lt(width, words, &mut mask, E::of(97));
        mask.iter().map(|word| word.count_ones() as usize).sum()
    };
    let count = || values().iter().filter(|value: &&E| **value < E::of(97)).count();
    assert_outcome(input_panic, below, count);

    let by_closure = || {
        let mut mask = [u64::MAX; 16];
        E::unchecked_unpack_cmp(width, words, &mut mask, |packed, value| packed < value, E::of(97));
        mask.iter().map(|word| word.count_ones() as usize).sum()
    };
    assert_outcome(input_panic, by_closure, count);

    let total = || {
        let numbers = values().into_iter().map(|value: E| value.number());
        numbers.fold(0, u64::wrapping_add)
    };
    assert_outcome(input_panic, || E::unpack_sum(width, words), total);
    let folded = || E::fold(width, words, 0, |sum: u64, _, value| sum.wrapping_add(value.number()));
    assert_outcome(input_panic, folded, total);
    let range = || {
        let mut sorted = values();
        sorted.sort();
        (sorted[0], sorted[1023])
    };
    assert_outcome(input_panic, || E::unpack_range(width, words), range);

    let packed = || {
        let block = if input_panic.is_none() {
            all(E::of(0))
        } else {
            [E::of(0); 1024]
        };
        let mut output = vec![E::of(u64::MAX); words.len()];
        E::unchecked_pack(width, &block, &mut output);
        output
    };
    assert_outcome(output_panic.as_ref(), packed, || words.to_vec());
}

/// Tests the calls on consecutive blocks.
fn assert_blocks<E: Element>(width: usize, words: &[E], values: usize) {
    let (count, block_len) = (values / 1024, E::LANES.wrapping_mul(width));
    let panic_of_blocks = |blocks: &str, packed: &str| {
        let (lanes, expected, found) = (E::LANES, block_len.wrapping_mul(count), words.len());
        if values % 1024 != 0 {
            Some(format!("{blocks} has {values} values: expected a multiple of 1024"))
        } else if width > E::T {
            panic_of::<E>(packed, width, found)
        } else if found != expected {
            Some(format!(
                "{packed} has {found} words: expected {expected} ({count} blocks of {lanes} lanes at width {width})"
            ))
        } else {
            None
        }
    };
    let unpacked = || {
        let mut output = vec![E::of(u64::MAX); values];
        E::unpack_blocks(width, words, &mut output);
        output
    };
    let values_of = |block: usize| {
        let words = &words[block_len * block..block_len * (block + 1)];
        (0..1024).map(|index| packed_value(width, words, index))
    };
    let expected = || (0..count).flat_map(values_of).collect();
    assert_outcome(panic_of_blocks("output", "input").as_ref(), unpacked, expected);

    let pack_panic = panic_of_blocks("input", "output");
    let packed = || {
        let input = if pack_panic.is_none() {
            unpacked()
        } else {
            vec![E::of(0); values]
        };
        let mut output = vec![E::of(u64::MAX); words.len()];
        E::pack_blocks(width, &input, &mut output);
        output
    };
    assert_outcome(pack_panic.as_ref(), packed, || words.to_vec());
}

/// Tests the calls with an index.
fn assert_index<E: Element>(width: usize, words: &[E], index: usize) {
    let index_panic =
        (width > 0 && index >= 1024).then(|| format!("index {index} is out of range: a block has 1024 values"));
    let message = panic_of::<E>("input", width, words.len()).or(index_panic);
    let expected = || {
        if width == 0 {
            E::of(0)
        } else {
            packed_value(width, words, index)
        }
    };
    let single = || E::unchecked_unpack_single(width, words, index);
    assert_outcome(message.as_ref(), single, expected);
    let selected = || {
        let mut output = [MaybeUninit::new(E::of(u64::MAX)); 3];
        E::unchecked_unpack_indices(width, words, &[index; 3], &mut output);
        // SAFETY: they were initialized above.
        output.map(|value| unsafe { value.assume_init() })
    };
    assert_outcome(message.as_ref(), selected, || [expected(); 3]);
}

fn assert_type<E: Element>() {
    for width in widths::<E>() {
        for len in lengths::<E>(width) {
            let words = scrambled::<E>(len);
            assert_readers(width, &words);
            for values in [0, 1023, 1024, 2048] {
                assert_blocks(width, &words, values);
            }
            for index in [0, 641, 1023, 1024, usize::MAX] {
                assert_index(width, &words, index);
            }
        }
    }
}

#[test]
fn u8_calls_return_or_panic() {
    assert_type::<u8>();
}

#[test]
fn u16_calls_return_or_panic() {
    assert_type::<u16>();
}

#[test]
fn u32_calls_return_or_panic() {
    assert_type::<u32>();
}

#[test]
fn u64_calls_return_or_panic() {
    assert_type::<u64>();
}

/// The indices are 0 to 7.
#[test]
fn dictionaries_that_are_too_short_panic() {
    let indices: [u16; 1024] = std::array::from_fn(|i| (i % 8) as u16);
    for len in 0..10 {
        let entries = scrambled::<u32>(len);
        let message = (len < 8).then(|| format!("index {len} is out of range: the dictionary has {len} values"));
        let decoded = || {
            let mut output = [0; 1024];
            u32::decode_unchecked(&entries, &indices, &mut output);
            output
        };
        assert_outcome(message.as_ref(), decoded, || {
            indices.map(|index| entries[index as usize])
        });
    }
}

/// All calls that read a column return the same values, or the same error.
fn read_by_all<E: Element>(bytes: &[u8]) -> Result<Vec<E>, FormatError> {
    let mut buffer = vec![E::of(0x5A); 200];
    let result = decode::<E>(bytes);
    let opened = Column::<E>::open(bytes);
    match &result {
        Ok(values) => {
            let column = opened.expect("a column");
            let count = values.len();
            assert_eq!(decode_into(bytes, &mut buffer), Ok(count));
            assert_eq!(buffer[..count], *values);
            assert_eq!(column.len(), count as u64);
            assert_eq!(column.to_vec(), *values);
            assert!(column.iter().eq(values.iter().copied()));
            let (mut mask, mut ones) = ([u64::MAX; 4], 0);
            let mask = &mut mask[..count.div_ceil(64)];
            column.filter(Comparison::Less, E::of(110), mask);
            for (i, value) in values.iter().enumerate() {
                assert_eq!(column.get(i as u64), *value);
                assert_eq!(mask[i / 64] >> (i % 64) & 1 == 1, *value < E::of(110));
                ones += u64::from(*value < E::of(110));
            }
            assert_eq!(column.count(Comparison::Less, E::of(110)), ones);
            assert_eq!(decode(&encode(values)).as_ref(), Ok(values));
        }
        Err(error) => {
            assert!(error.offset <= bytes.len());
            assert_eq!(opened.expect_err("no column"), *error);
            assert_eq!(decode_into(bytes, &mut buffer), Err(*error));
            assert_eq!(buffer, [E::of(0x5A); 200]);
        }
    }
    result
}

fn crc32c(bytes: impl IntoIterator<Item = u8>) -> u32 {
    let folded = bytes.into_iter().fold(u32::MAX, |register, byte| {
        (0..8).fold(register ^ u32::from(byte), |register, _| {
            (register >> 1) ^ (0x82F6_3B78 * (register & 1))
        })
    });
    !folded
}

/// Reads the column with each bit flipped, truncated at each offset, and with each byte doubled. The digest of all results equals
/// the one of the independent implementation: `digest` of tests/columns/model.py.
fn assert_changed<E: Element>(values: &[u64], options: Options, len: usize, digest: u32) {
    let values: Vec<E> = values.iter().map(|value| E::of(*value)).collect();
    let column = encode_with(&values, options);
    assert_eq!(column.len(), len);
    assert_eq!(read_by_all::<E>(&column), Ok(values));

    let flipped = (0..8 * len).map(|i| {
        let mut bytes = column.clone();
        bytes[i / 8] ^= 1 << (i % 8);
        bytes
    });
    let truncated = (0..len).map(|end| column[..end].to_vec());
    let doubled = (0..len).map(|i| [&column[..=i], &column[i..]].concat());
    let mut total = 0u32;
    for bytes in flipped.chain(truncated).chain(doubled) {
        let result = match read_by_all::<E>(&bytes) {
            Ok(values) => {
                assert!(!options.checksums, "a change is not detected");
                let bytes = values
                    .iter()
                    .flat_map(|value| value.number().to_le_bytes().into_iter().take(E::T / 8));
                1 + u64::from(crc32c(bytes))
            }
            Err(_) => 0,
        };
        total = crc32c(total.to_le_bytes().into_iter().chain(result.to_le_bytes()));
    }
    assert_eq!(total, digest);
}

/// Tests a FOR block and a delta block.
fn assert_changed_columns<E: Element>([for_digest, delta_digest]: [u32; 2]) {
    let options = |for_only, checksums| Options { for_only, checksums };
    let near = [100, 110, 134];
    assert_changed::<E>(&near, options(true, true), 832, 3859713841);
    assert_changed::<E>(&near, options(true, false), 832, for_digest);
    let ascending: Vec<u64> = (0..85).map(|i| 3 * i).collect();
    assert_changed::<E>(&ascending, options(false, true), 448, 2020251703);
    assert_changed::<E>(&ascending, options(false, false), 448, delta_digest);
}

#[test]
fn malformed_columns_of_u8_are_rejected() {
    assert_changed_columns::<u8>([767847073, 2214916436]);
}

#[test]
fn malformed_columns_of_u16_are_rejected() {
    assert_changed_columns::<u16>([2775979976, 3252268861]);
}

#[test]
fn malformed_columns_of_u32_are_rejected() {
    assert_changed_columns::<u32>([2749147231, 3929340228]);
}

#[test]
fn malformed_columns_of_u64_are_rejected() {
    assert_changed_columns::<u64>([2188802190, 2768908894]);
}
