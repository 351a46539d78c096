//! Calls that violate a precondition panic before the C call, with the value and the expected value in the message. The location is the
//! line of the caller.

use fastlanes::column::{
    Column, FrameHead, Stored, column_get, column_get_at, column_len, column_starts, column_write, delta_read,
    delta_width, delta_write, encode, frame_get, frame_read, frame_write,
};
use fastlanes::{
    BitFolding, BitPacking, BitPackingBlocks, BitPackingCompare, Comparison, Filter, FoR, RLE, pack, unpack,
};
use std::cell::RefCell;
use std::fmt::Debug;
use std::mem::MaybeUninit;
use std::panic::{self, AssertUnwindSafe};
use std::sync::Once;

thread_local!(static LAST: RefCell<Option<(String, String)>> = const { RefCell::new(None) });

/// The call panics with this message, at a line of this file.
#[track_caller]
fn assert_panics<R: Debug>(message: &str, call: impl FnOnce() -> R) {
    static HOOK: Once = Once::new();
    HOOK.call_once(|| {
        let print = panic::take_hook();
        panic::set_hook(Box::new(move |info| {
            let file = info.location().expect("a location").file().into();
            let message = info.payload().downcast_ref::<String>().expect("a message").clone();
            LAST.set(Some((file, message)));
            print(info)
        }));
    });
    panic::catch_unwind(AssertUnwindSafe(call)).expect_err(message);
    let (file, found) = LAST.take().expect("a panic");
    assert_eq!(found, message);
    assert_eq!(file, file!(), "the location is not the caller's: {message}");
}

#[test]
fn a_width_above_t_panics() {
    let message = "width 17 is out of range: u16 has 16 bits";
    let words = [0u16; 64 * 17];
    assert_panics(message, || u16::unchecked_pack(17, &[0; 1024], &mut [0; 64 * 17]));
    assert_panics(message, || u16::unchecked_unpack(17, &words, &mut [0; 1024]));
    assert_panics(message, || u16::unchecked_unpack_single(17, &words, 0));
    assert_panics(message, || u16::unchecked_unpack_indices(17, &words, &[], &mut []));
    assert_panics(message, || u16::unchecked_unfor_pack(17, &words, 1, &mut [0; 1024]));
    assert_panics(message, || {
        u16::unchecked_unpack_cmp(17, &words, &mut [0; 16], |a, b| a == b, 1u16)
    });
    assert_panics(message, || u16::unchecked_unpack_cmp_lt(17, &words, &mut [0; 16], 1));
    assert_panics(message, || {
        i16::unchecked_unpack_mask(17, &words, Comparison::Equal, 1, &mut [0; 16])
    });
    assert_panics(message, || {
        u16::unchecked_unpack_filter(17, &words, Comparison::Less, 1, &mut [0; 16])
    });
    assert_panics(message, || u16::fold(17, &words, 0, |sum: u16, _, value| sum + value));
    assert_panics(message, || u16::unpack_sum(17, &words));
    assert_panics(message, || u16::unpack_range(17, &words));
    assert_panics(message, || u16::pack_blocks(17, &[0; 2048], &mut [0; 128 * 17]));
    assert_panics(message, || u16::unpack_blocks(17, &[0; 128 * 17], &mut [0; 2048]));
    assert_panics(message, || u16::pack_blocks(17, &[], &mut []));
    assert_panics("width 9 is out of range: u8 has 8 bits", || {
        u8::unchecked_pack(9, &[0; 1024], &mut [0; 1024])
    });
    let message = format!("width {} is out of range: u64 has 64 bits", usize::MAX);
    assert_panics(&message, || u64::unchecked_pack(usize::MAX, &[0; 1024], &mut [0; 1024]));
    assert_panics(&message, || u64::pack_blocks(usize::MAX, &[0; 2048], &mut [0; 2048]));
    assert_panics(&message, || u64::unpack_blocks(usize::MAX, &[0; 2048], &mut [0; 2048]));
}

#[test]
fn a_width_above_t_panics_in_the_macros() {
    let message = "width 9 is out of range: u8 has 8 bits";
    assert_panics(message, || unpack!(u8, 9, [0; 2000], 0, |$_index, $_value| {}));
    assert_panics(message, || {
        let mut packed = [0; 2000];
        pack!(u8, 9, packed, 0, |$_index| 1);
    });
}

#[test]
fn a_wrong_length_of_a_packed_block_panics() {
    let message = "input has 159 words: expected 160 (32 lanes at width 5)";
    assert_panics(message, || u32::unchecked_unpack(5, &[0; 159], &mut [0; 1024]));
    assert_panics(message, || u32::unchecked_unfor_pack(5, &[0; 159], 1, &mut [0; 1024]));
    assert_panics(message, || {
        u32::unchecked_unpack_cmp(5, &[0; 159], &mut [0; 16], |a, b| a > b, 1i32)
    });
    assert_panics(message, || u32::unchecked_unpack_cmp_lt(5, &[0; 159], &mut [0; 16], 1));
    assert_panics(message, || {
        u32::unchecked_unpack_mask(5, &[0; 159], Comparison::AtLeast, 1, &mut [0; 16])
    });
    assert_panics(message, || {
        i32::unchecked_unpack_filter(5, &[0; 159], Comparison::NotEqual, 1, &mut [0; 16])
    });
    assert_panics(message, || u32::fold(5, &[0; 159], 0, |sum: u32, _, value| sum + value));
    assert_panics(message, || u32::unpack_sum(5, &[0; 159]));
    assert_panics(message, || u32::unpack_range(5, &[0; 159]));
    let message = "input has 161 words: expected 160 (32 lanes at width 5)";
    assert_panics(message, || u32::unchecked_unpack_single(5, &[0; 161], 0));
    assert_panics(message, || u32::unchecked_unpack_indices(5, &[0; 161], &[], &mut []));
    let message = "output has 161 words: expected 160 (32 lanes at width 5)";
    assert_panics(message, || u32::unchecked_pack(5, &[0; 1024], &mut [0; 161]));
    let message = "input has 1 words: expected 0 (16 lanes at width 0)";
    assert_panics(message, || u64::unchecked_unpack(0, &[0], &mut [0; 1024]));
}

#[test]
fn a_wrong_length_of_a_block_panics() {
    assert_panics("input has 1023 values: expected 1024", || {
        u8::unchecked_pack(1, &[0; 1023], &mut [0; 128])
    });
    assert_panics("output has 1025 values: expected 1024", || {
        u8::unchecked_unpack(1, &[0; 128], &mut [0; 1025])
    });
    assert_panics("output has 0 values: expected 1024", || {
        u8::unchecked_unfor_pack(1, &[0; 128], 1, &mut [])
    });
}

#[test]
fn a_wrong_length_of_consecutive_blocks_panics() {
    let message = "input has 2047 values: expected a multiple of 1024";
    assert_panics(message, || u8::pack_blocks(3, &[0; 2047], &mut [0; 768]));
    let message = "input has 1 values: expected a multiple of 1024";
    assert_panics(message, || u8::pack_blocks(3, &[0], &mut []));
    let message = "output has 2049 values: expected a multiple of 1024";
    assert_panics(message, || u8::unpack_blocks(3, &[0; 768], &mut [0; 2049]));

    let expected = "expected 320 (2 blocks of 32 lanes at width 5)";
    let message = format!("output has 319 words: {expected}");
    assert_panics(&message, || u32::pack_blocks(5, &[0; 2048], &mut [0; 319]));
    let message = format!("output has 480 words: {expected}");
    assert_panics(&message, || u32::pack_blocks(5, &[0; 2048], &mut [0; 480]));
    let message = format!("input has 321 words: {expected}");
    assert_panics(&message, || u32::unpack_blocks(5, &[0; 321], &mut [0; 2048]));
    let message = format!("input has 0 words: {expected}");
    assert_panics(&message, || u32::unpack_blocks(5, &[], &mut [0; 2048]));

    let expected = "expected 0 (0 blocks of 16 lanes at width 9)";
    let message = format!("output has 144 words: {expected}");
    assert_panics(&message, || u64::pack_blocks(9, &[], &mut [0; 144]));
    let message = format!("input has 144 words: {expected}");
    assert_panics(&message, || u64::unpack_blocks(9, &[0; 144], &mut []));
}

#[test]
fn an_index_above_1023_panics() {
    let mut three = [MaybeUninit::new(0u64); 3];
    let message = "index 1024 is out of range: a block has 1024 values";
    assert_panics(message, || u64::unpack_single::<1, 16>(&[0; 16], 1024));
    assert_panics(message, || u64::unchecked_unpack_single(1, &[0; 16], 1024));
    let message = "index 2000 is out of range: a block has 1024 values";
    assert_panics(message, || {
        u64::unpack_indices::<1, 16>(&[0; 16], &[0, 1023, 2000], &mut three)
    });
    assert_panics(message, || {
        u64::unchecked_unpack_indices(1, &[0; 16], &[0, 1023, 2000], &mut three)
    });
}

#[test]
fn different_numbers_of_outputs_and_indices_panic() {
    let mut three = [MaybeUninit::new(0u64); 3];
    let message = "output has 3 values: expected 2 (one for each index)";
    assert_panics(message, || u64::unpack_indices::<1, 16>(&[0; 16], &[0, 1], &mut three));
    assert_panics(message, || {
        u64::unchecked_unpack_indices(1, &[0; 16], &[0, 1], &mut three)
    });
    let message = "output has 3 values: expected 4 (one for each index)";
    assert_panics(message, || u64::unchecked_unpack_indices(0, &[], &[0; 4], &mut three));
}

#[test]
fn an_index_outside_the_dictionary_panics() {
    let mut indices = [2u16; 1024];
    indices[1023] = 3;
    let message = "index 3 is out of range: the dictionary has 3 values";
    assert_panics(message, || u8::decode_unchecked(&[1, 2, 3], &indices, &mut [0; 1024]));
    assert_panics(message, || {
        char::decode_unchecked(&['a', 'b', 'c'], &indices, &mut ['d'; 1024])
    });
    assert_panics("index 0 is out of range: the dictionary has 0 values", || {
        u8::decode_unchecked(&[], &[false; 1024], &mut [0; 1024])
    });
    assert_panics("index 65536 is out of range: the dictionary has 65536 values", || {
        u16::decode_unchecked(&[0; 65536], &[65536usize; 1024], &mut [0; 1024])
    });
}

#[test]
fn for_and_delta_blocks_check_their_preconditions() {
    let [zero, three, nine] = [0, 3, 9].map(|width| FrameHead { width, reference: 0u8 });
    let message = "width 9 is out of range: u8 has 8 bits";
    assert_panics(message, || frame_write(&nine, &[0; 1024], &mut [0; 1152]));
    assert_panics(message, || frame_read(&nine, &[0; 1152], &mut [0; 1024]));
    assert_panics(message, || frame_get(&nine, &[0; 1152], 0));
    assert_panics(message, || delta_write(9, &[0u8; 1024], &[0; 128], &mut [0; 1152]));
    assert_panics(message, || delta_read(9, &[0u8; 1152], &[0; 128], &mut [0; 1024]));
    let message = "input has 383 words: expected 384 (128 lanes at width 3)";
    assert_panics(message, || frame_read(&three, &[0; 383], &mut [0; 1024]));
    assert_panics(message, || delta_read(3, &[0u8; 383], &[0; 128], &mut [0; 1024]));
    assert_panics(message, || frame_get(&three, &[0; 383], 0));
    let message = "output has 385 words: expected 384 (128 lanes at width 3)";
    assert_panics(message, || frame_write(&three, &[0; 1024], &mut [0; 385]));
    assert_panics(message, || delta_write(3, &[0u8; 1024], &[0; 128], &mut [0; 385]));
    let message = "index 1024 is out of range: a block has 1024 values";
    assert_panics(message, || frame_get(&three, &[0; 384], 1024));
    assert_panics(message, || frame_get(&zero, &[], 1024));
    let message = "base has 127 values: expected 128 (one for each lane)";
    assert_panics(message, || delta_width(&[0u8; 1024], &[0; 127]));
    assert_panics(message, || delta_write(3, &[0u8; 1024], &[0; 127], &mut [0; 384]));
    assert_panics(message, || delta_read(3, &[0u8; 384], &[0; 127], &mut [0; 1024]));
}

#[test]
fn columns_in_memory_check_their_preconditions() {
    let heads = [3, 5].map(|width| FrameHead { width, reference: 0u64 });
    let wide = [65, usize::MAX].map(|width| FrameHead { width, reference: 0u64 });
    let message = "width 65 is out of range: u64 has 64 bits";
    assert_panics(message, || column_len(&wide));
    assert_panics(message, || column_write(&wide, &[[0; 1024]; 2], &mut []));
    assert_panics(message, || column_get(&wide, &[0; 65], 1024));
    assert_panics(message, || column_starts(&wide, &mut [0; 2]));
    assert_panics(message, || column_get_at(&wide, &[0; 2], &[0; 65], 0));
    assert_panics("blocks has 1 elements: expected 2 (one for each head)", || {
        column_write(&heads, &[[0; 1024]], &mut [0; 128])
    });
    assert_panics(
        "output has 127 words: expected 128 (the column length of the heads)",
        || column_write(&heads, &[[0; 1024]; 2], &mut [0; 127]),
    );
    let message = "index 2048 is out of range: the column has 2048 values";
    assert_panics(message, || column_get(&heads, &[0; 128], 2048));
    assert_panics(message, || column_get_at(&heads, &[0, 48], &[0; 128], 2048));
    let message = "a block of 80 words at word 48 is out of range: the input has 127 words";
    assert_panics(message, || column_get(&heads, &[0; 127], 1024));
    assert_panics(message, || column_get_at(&heads, &[0, 48], &[0; 127], 1024));
    assert_panics(
        "a block of 48 words at word 18446744073709551615 is out of range: the input has 128 words",
        || column_get_at(&heads, &[usize::MAX, 48], &[0; 128], 0),
    );
    let message = "starts has 3 elements: expected 2 (one for each head)";
    assert_panics(message, || column_starts(&heads, &mut [0; 3]));
    assert_panics(message, || column_get_at(&heads, &[0; 3], &[0; 128], 0));
}

#[test]
fn encoded_columns_check_their_preconditions() {
    let (bytes, no_bytes) = (encode(&[7u16; 100]), encode::<u16>(&[]));
    let column = Column::<u16>::open(&bytes).expect("a column");
    let empty = Column::<u16>::open(&no_bytes).expect("a column");
    let message = "index 100 is out of range: the column has 100 values";
    assert_panics(message, || column.get(100));
    assert_panics(message, || u16::get(&column, 100));
    let message = "index 18446744073709551615 is out of range: the column has 100 values";
    assert_panics(message, || column.get(u64::MAX));
    let message = "index 0 is out of range: the column has 0 values";
    assert_panics(message, || empty.get(0));
    let message = "a range of length 2 at index 99 is out of range: the column has 100 values";
    assert_panics(message, || column.read(99, &mut [0; 2]));
    assert_panics(message, || u16::read(&column, 99, &mut [0; 2]));
    let message = "a range of length 0 at index 101 is out of range: the column has 100 values";
    assert_panics(message, || column.read(101, &mut []));
    let message = "a range of length 1 at index 18446744073709551615 is out of range: the column has 100 values";
    assert_panics(message, || column.read(u64::MAX, &mut [0]));
    let message = "a range of length 1 at index 0 is out of range: the column has 0 values";
    assert_panics(message, || empty.read(0, &mut [0]));
    let message = "mask has 1 words: expected 2 (64 bits each, for 100 values)";
    assert_panics(message, || column.filter(Comparison::Less, 5, &mut [0]));
    assert_panics(message, || u16::filter(&column, Comparison::Less, 5, &mut [0]));
    let message = "mask has 3 words: expected 2 (64 bits each, for 100 values)";
    assert_panics(message, || column.filter(Comparison::Equal, 7, &mut [0; 3]));
    let message = "mask has 1 words: expected 0 (64 bits each, for 0 values)";
    assert_panics(message, || empty.filter(Comparison::Equal, 7, &mut [0]));
}
