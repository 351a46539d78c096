//! The preconditions of the calls, which are checked at run time. Each condition has one message, which has the value and the
//! expected value. A check is inlined and has a few instructions. The panic is in a separate cold function, and its location is the
//! line of the caller.

/// Compiles only if W is at most T and B is LANES * W.
macro_rules! assert_width {
    ($E:ty, $W:ident, $B:ident) => {
        const {
            assert!($W <= <$E>::T, "width W is out of range: expected at most T");
            assert!($B == <$E>::LANES * $W, "length B is wrong: expected LANES * W");
        }
    };
}

pub(crate) use assert_width;

/// Defines a cold function that panics with a message made of its arguments.
macro_rules! failure {
    ($name:ident($($argument:ident: $Type:ty),*), $($message:tt)*) => {
        #[cold]
        #[inline(never)]
        #[track_caller]
        fn $name($($argument: $Type),*) -> ! {
            panic!($($message)*)
        }
    };
}

failure!(
    wrong_width(bits: usize, width: usize),
    "width {width} is out of range: u{bits} has {bits} bits"
);
failure!(
    wrong_packed(bits: u32, width: usize, words: usize, expected: usize),
    "input has {words} words: expected {expected} ({lanes} lanes at width {width})",
    lanes = 1024 / bits
);
failure!(
    wrong_packed_output(bits: u32, width: usize, words: usize, expected: usize),
    "output has {words} words: expected {expected} ({lanes} lanes at width {width})",
    lanes = 1024 / bits
);
failure!(wrong_block(len: usize), "input has {len} values: expected 1024");
failure!(wrong_block_output(len: usize), "output has {len} values: expected 1024");
failure!(
    wrong_blocks(len: usize),
    "input has {len} values: expected a multiple of 1024"
);
failure!(
    wrong_blocks_output(len: usize),
    "output has {len} values: expected a multiple of 1024"
);
failure!(
    wrong_packed_blocks(bits: u32, width: usize, count: usize, words: usize, expected: usize),
    "input has {words} words: expected {expected} ({count} blocks of {lanes} lanes at width {width})",
    lanes = 1024 / bits
);
failure!(
    wrong_packed_blocks_output(bits: u32, width: usize, count: usize, words: usize, expected: usize),
    "output has {words} words: expected {expected} ({count} blocks of {lanes} lanes at width {width})",
    lanes = 1024 / bits
);
failure!(
    wrong_bases(bases: usize, lanes: usize),
    "base has {bases} values: expected {lanes} (one for each lane)"
);
failure!(
    wrong_outputs(outputs: usize, indices: usize),
    "output has {outputs} values: expected {indices} (one for each index)"
);
failure!(
    wrong_block_index(index: usize),
    "index {index} is out of range: a block has 1024 values"
);
failure!(
    wrong_entry(len: usize, index: usize),
    "index {index} is out of range: the dictionary has {len} values"
);
failure!(
    wrong_count(heads: usize, blocks: usize),
    "blocks has {blocks} elements: expected {heads} (one for each head)"
);
failure!(
    wrong_starts(heads: usize, starts: usize),
    "starts has {starts} elements: expected {heads} (one for each head)"
);
failure!(
    wrong_column(expected: usize, words: usize),
    "output has {words} words: expected {expected} (the column length of the heads)"
);
failure!(
    wrong_part(words: usize, start: usize, len: usize),
    "a block of {len} words at word {start} is out of range: the input has {words} words"
);
failure!(
    wrong_index(len: u64, index: u64),
    "index {index} is out of range: the column has {len} values"
);
failure!(
    wrong_range(len: u64, start: u64, values: usize),
    "a range of length {values} at index {start} is out of range: the column has {len} values"
);
failure!(
    wrong_mask(len: u64, words: usize, expected: u64),
    "mask has {words} words: expected {expected} (64 bits each, for {len} values)"
);

/// Requires a width of at most `bits`.
#[inline]
#[track_caller]
pub fn check_width(bits: usize, width: usize) {
    if width > bits {
        wrong_width(bits, width)
    }
}

/// Returns the number of words of a packed block. Requires a width of at most `bits`.
#[inline]
#[track_caller]
pub fn packed_len(bits: u32, width: usize) -> usize {
    let bits = bits as usize;
    check_width(bits, width);
    1024 / bits * width
}

/// Requires a width of at most `bits`, and an input of the length of a packed block.
#[inline]
#[track_caller]
pub fn check_packed(bits: u32, width: usize, words: usize) {
    let expected = packed_len(bits, width);
    if words != expected {
        wrong_packed(bits, width, words, expected)
    }
}

/// Requires a width of at most `bits`, and an output of the length of a packed block.
#[inline]
#[track_caller]
pub fn check_packed_output(bits: u32, width: usize, words: usize) {
    let expected = packed_len(bits, width);
    if words != expected {
        wrong_packed_output(bits, width, words, expected)
    }
}

/// Converts an input to a block. Requires 1024 values.
#[inline]
#[track_caller]
pub fn block<E>(slice: &[E]) -> &[E; 1024] {
    match slice.try_into() {
        Ok(block) => block,
        Err(_) => wrong_block(slice.len()),
    }
}

/// Converts an output to a block. Requires 1024 values.
#[inline]
#[track_caller]
pub fn block_mut<E>(slice: &mut [E]) -> &mut [E; 1024] {
    let len = slice.len();
    match slice.try_into() {
        Ok(block) => block,
        Err(_) => wrong_block_output(len),
    }
}

/// Returns the number of blocks of an input. Requires a multiple of 1024 values.
#[inline]
#[track_caller]
pub fn block_count(len: usize) -> usize {
    if len % 1024 != 0 {
        wrong_blocks(len)
    }
    len / 1024
}

/// Returns the number of blocks of an output. Requires a multiple of 1024 values.
#[inline]
#[track_caller]
pub fn block_count_output(len: usize) -> usize {
    if len % 1024 != 0 {
        wrong_blocks_output(len)
    }
    len / 1024
}

/// Requires a width of at most `bits`, and an input of the length of `count` packed blocks. The product does not overflow: the
/// blocks are in a slice, and a packed block is no longer than its block.
#[inline]
#[track_caller]
pub fn check_packed_blocks(bits: u32, width: usize, count: usize, words: usize) {
    let expected = packed_len(bits, width) * count;
    if words != expected {
        wrong_packed_blocks(bits, width, count, words, expected)
    }
}

/// Requires a width of at most `bits`, and an output of the length of `count` packed blocks.
#[inline]
#[track_caller]
pub fn check_packed_blocks_output(bits: u32, width: usize, count: usize, words: usize) {
    let expected = packed_len(bits, width) * count;
    if words != expected {
        wrong_packed_blocks_output(bits, width, count, words, expected)
    }
}

/// Requires a base for each lane of a block of `bits`-bit values.
#[inline]
#[track_caller]
pub fn check_bases(bits: u32, bases: usize) {
    let lanes = 1024 / bits as usize;
    if bases != lanes {
        wrong_bases(bases, lanes)
    }
}

/// Requires an output for each index.
#[inline]
#[track_caller]
pub fn check_outputs(outputs: usize, indices: usize) {
    if outputs != indices {
        wrong_outputs(outputs, indices)
    }
}

/// Requires an index below 1024.
#[inline]
#[track_caller]
pub fn check_block_index(index: usize) {
    if index >= 1024 {
        wrong_block_index(index)
    }
}

/// Requires an index below 1024, or width 0, at which no index is read.
#[inline]
#[track_caller]
pub fn check_packed_index(width: usize, index: usize) {
    if width > 0 {
        check_block_index(index);
    }
}

/// Requires indices below 1024, or width 0, at which no index is read.
#[inline]
#[track_caller]
pub fn check_packed_indices(width: usize, indices: &[usize]) {
    // 1024 is a power of 2: it is above each index if and only if it is above their bitwise or.
    if width > 0 && indices.iter().fold(0, |bits, index| bits | index) >= 1024 {
        check_each_block_index(indices)
    }
}

/// Requires an index below the length of the dictionary.
#[inline]
#[track_caller]
pub fn check_entry(len: usize, index: usize) {
    if index >= len {
        wrong_entry(len, index)
    }
}

/// Requires indices below the length of the dictionary.
#[inline]
#[track_caller]
pub fn check_entries(len: usize, indices: &[u16; 1024]) {
    let maximum = indices.iter().fold(0, |maximum, &index| index.max(maximum));
    if usize::from(maximum) >= len {
        check_each_entry(len, indices)
    }
}

/// Panics for the first index that is out of range.
#[cold]
#[inline(never)]
#[track_caller]
fn check_each_block_index(indices: &[usize]) {
    for &index in indices {
        check_block_index(index);
    }
}

/// Panics for the first index that is out of range.
#[cold]
#[inline(never)]
#[track_caller]
fn check_each_entry(len: usize, indices: &[u16; 1024]) {
    for &index in indices {
        check_entry(len, index.into());
    }
}

/// Requires a block for each head.
#[inline]
#[track_caller]
pub fn check_blocks(heads: usize, blocks: usize) {
    if blocks != heads {
        wrong_count(heads, blocks)
    }
}

/// Requires a start for each head.
#[inline]
#[track_caller]
pub fn check_starts(heads: usize, starts: usize) {
    if starts != heads {
        wrong_starts(heads, starts)
    }
}

/// Requires an output of the length of a column.
#[inline]
#[track_caller]
pub fn check_column(expected: usize, words: usize) {
    if words != expected {
        wrong_column(expected, words)
    }
}

/// Requires that the `len` words from `start` on are in the input.
#[inline]
#[track_caller]
pub fn check_part(words: usize, start: usize, len: usize) {
    if start > words || len > words - start {
        wrong_part(words, start, len)
    }
}

/// Requires an index below the length of a column.
#[inline]
#[track_caller]
pub fn check_index(len: u64, index: u64) {
    if index >= len {
        wrong_index(len, index)
    }
}

/// Requires that the values from `start` on are in a column.
#[inline]
#[track_caller]
pub fn check_range(len: u64, start: u64, values: usize) {
    if start > len || values as u64 > len - start {
        wrong_range(len, start, values)
    }
}

/// Requires a mask with one bit for each value, in words of 64 bits.
#[inline]
#[track_caller]
pub fn check_mask(len: u64, words: usize) {
    let expected = len.div_ceil(64);
    if words as u64 != expected {
        wrong_mask(len, words, expected)
    }
}
