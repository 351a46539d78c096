/*
 * fastlanes: integer compression in blocks of 1024 values, and columns of any length. For C99 and C++.
 *
 * Link with libfastlanes of a release (static or shared; x86-64-v2 or later, or aarch64). On x86-64 each function selects its
 * AVX2 code at the first call. The environment variable FASTLANES_CPU=x86-64-v2 prevents that. There are files for pkg-config and
 * CMake; link the static library with -Wl,--gc-sections. In a checkout, `rt lib` in crates/fastlanes_c builds the static library
 * without fl_column_error_string, which is in release/errors.c.
 *
 * Function names end in the element type: u8, u16, u32 or u64.
 *
 *   T              the bits of an element: 8, 16, 32 or 64
 *   block          1024 values in logical order
 *   packed block   the 1024 values of a block, `width` bits each, in LANES * width words of T bits
 *   packed value   the number of `width` bits at an index of a packed block
 *   lane, row      a block has LANES = 1024 / T lanes of T rows. Row `row` of lane `lane` is the value at index
 *                  ORDER[row / 8] * 16 + row % 8 * 128 + lane, with ORDER = {0, 4, 2, 6, 1, 5, 3, 7}
 *   mask           one bit per value: bit i % 64 of word i / 64
 *   column         an encoded column of any number of values (docs/FORMAT.md)
 *
 * docs/LAYOUT.md shows the order of the packed words.
 *
 * Preconditions. A call that breaks one has undefined behavior. Compile with -DFASTLANES_CHECKED to check them at each call.
 *   - The conditions after "Requires" hold.
 *   - A pointer is not null, is aligned for its type, and points to the stated number of elements. It may be null if that number
 *     is passed with it and is 0.
 *   - Memory that a call writes overlaps no other memory that is passed to it.
 *
 * Calls write each element of their outputs, unless stated otherwise, and nothing else. They do not allocate, keep no pointers
 * (except an opened column, which points to its bytes) and have no global state: any number of threads may call them. Calls on
 * blocks use at most 24 KiB of stack, calls on columns 56 KiB.
 */
#ifndef FASTLANES_H
#define FASTLANES_H

#include <stddef.h>
#include <stdint.h>

#ifdef __cplusplus
extern "C" {
#endif

/** The comparisons: equal, not equal, less than, at most, greater than, at least. */
enum { FL_EQ = 0, FL_NE = 1, FL_LT = 2, FL_LE = 3, FL_GT = 4, FL_GE = 5 };

/** Flags of fl_column_encode: only FOR blocks, whose values are read in constant time; no checksums. */
enum { FL_COLUMN_FOR_ONLY = 1, FL_COLUMN_NO_CHECKSUMS = 2 };

/** The errors of fl_column_decode and fl_column_open. */
enum {
    FL_ERR_NONE = 0,
    FL_ERR_TRUNCATED = 1,
    FL_ERR_MAGIC = 2,
    FL_ERR_TYPE = 3,
    FL_ERR_CHECKSUM_KIND = 4,
    FL_ERR_PAGE_VALUES = 5,
    FL_ERR_RESERVED = 6,
    FL_ERR_PAGE_LENGTH = 7,
    FL_ERR_FORM = 8,
    FL_ERR_WIDTH = 9,
    FL_ERR_BLOCK_OFFSET = 10,
    FL_ERR_REFERENCE = 11,
    FL_ERR_CHECKSUM = 12,
    FL_ERR_SHORT_PAGE = 13,
    FL_ERR_TOTAL = 14,
    FL_ERR_TRAILING = 15,
    FL_ERR_BUFFER_TOO_SMALL = 16,
    FL_ERR_FLAGS = 17
};

/** Returns the description of an error, a static string. It accepts any number. */
const char *fl_column_error_string(uint32_t error);

/* Values of type uint8_t: blocks of 128 lanes of 8 rows. */

/* Bit-packing */

/**
 * Packs a block to `width` bits per value: packed value `i` is `input[i]` modulo 2^`width`. Requires `width <= 8` and
 * `output_len == 128 * width`.
 */
void fl_pack_u8(size_t width, const uint8_t input[1024], uint8_t *output, size_t output_len);

/**
 * Unpacks a block: `output[i]` is packed value `i`. Accepts arbitrary words. Requires `width <= 8` and
 * `input_len == 128 * width`.
 */
void fl_unpack_u8(size_t width, const uint8_t *input, size_t input_len, uint8_t output[1024]);

/**
 * Packs `count` consecutive blocks as `fl_pack_u8` does, with a single width dispatch. The packed blocks are
 * consecutive, too. Requires `width <= 8`, `input_len == 1024 * count` and `output_len == 128 * width * count`.
 */
void fl_pack_blocks_u8(size_t width, size_t count, const uint8_t *input, size_t input_len, uint8_t *output,
                       size_t output_len);

/**
 * Unpacks `count` consecutive packed blocks as `fl_unpack_u8` does, with a single width dispatch. Requires
 * `width <= 8`, `input_len == 128 * width * count` and `output_len == 1024 * count`.
 */
void fl_unpack_blocks_u8(size_t width, size_t count, const uint8_t *input, size_t input_len, uint8_t *output,
                         size_t output_len);

/**
 * Returns packed value `index`. At width 0 the result is 0. Requires `width <= 8`, `input_len == 128 * width` and
 * `width == 0 || index < 1024`.
 */
uint8_t fl_unpack_single_u8(size_t width, const uint8_t *input, size_t input_len, size_t index);

/**
 * Gathers selected values: writes packed value `indices[k]` to `output[k]`. Indices may repeat and need no order. At
 * width 0 they are not read, and each output is 0. Requires `width <= 8`, `input_len == 128 * width`,
 * `width == 0 || indices[k] < 1024 for each k` and `output_len == indices_len`.
 */
void fl_unpack_indices_u8(size_t width, const uint8_t *input, size_t input_len, const size_t *indices,
                          size_t indices_len, uint8_t *output, size_t output_len);

/** Returns the sum of the 1024 packed values. Requires `width <= 8` and `input_len == 128 * width`. */
uint64_t fl_unpack_sum_u8(size_t width, const uint8_t *input, size_t input_len);

/**
 * Writes the minimum and the maximum of the 1024 packed values. Requires `width <= 8` and `input_len == 128 * width`.
 */
void fl_unpack_range_u8(size_t width, const uint8_t *input, size_t input_len, uint8_t *minimum, uint8_t *maximum);

/* Frame of reference (FOR) */

/**
 * Packs each value's difference from `reference`: packed value `i` is `input[i] - reference` modulo 2^`width`. Requires
 * `width <= 8` and `output_len == 128 * width`.
 */
void fl_for_pack_u8(size_t width, const uint8_t input[1024], uint8_t reference, uint8_t *output, size_t output_len);

/**
 * Unpacks a FOR block: `output[i]` is `reference` plus packed value `i`, modulo 2^8. Requires `width <= 8` and
 * `input_len == 128 * width`.
 */
void fl_unfor_pack_u8(size_t width, const uint8_t *input, size_t input_len, uint8_t reference, uint8_t output[1024]);

/**
 * Chooses the parameters of a FOR block: writes the block's minimum to `*reference` and returns the minimum bit width
 * of the differences from it. With these, `fl_unfor_pack_u8` inverts `fl_for_pack_u8`. No other reference at or below
 * the minimum allows a smaller width.
 */
size_t fl_frame_head_u8(const uint8_t input[1024], uint8_t *reference);

/**
 * Returns the value at `index` of a FOR block: `reference` plus packed value `index`, modulo 2^8. Requires
 * `width <= 8`, `input_len == 128 * width` and `index < 1024`.
 */
uint8_t fl_frame_get_u8(size_t width, uint8_t reference, const uint8_t *input, size_t input_len, size_t index);

/* Delta encoding */

/**
 * Computes differences along lanes, modulo 2^8. Each value is reduced by the value in the previous row of its lane, and
 * row 0 by the lane's base. `fl_transpose_u8` first makes adjacent values adjacent rows.
 */
void fl_delta_u8(const uint8_t input[1024], const uint8_t base[128], uint8_t output[1024]);

/** Inverts `fl_delta_u8`: each value is the base of its lane plus the differences in the rows up to it, modulo 2^8. */
void fl_undelta_u8(const uint8_t input[1024], const uint8_t base[128], uint8_t output[1024]);

/**
 * Unpacks differences and sums them along lanes: `fl_unpack_u8` and `fl_undelta_u8` in one pass. Requires `width <= 8`
 * and `input_len == 128 * width`.
 */
void fl_undelta_pack_u8(size_t width, const uint8_t *input, size_t input_len, const uint8_t base[128],
                        uint8_t output[1024]);

/**
 * Returns the minimum bit width of the differences of adjacent values, modulo 2^8. `base[l]` is the value before lane
 * `l` of the transposed block, whose first value is `input[l % 16 * 64 + ORDER[l / 16 % 8] * 8]`.
 */
size_t fl_delta_width_u8(const uint8_t input[1024], const uint8_t base[128]);

/**
 * Packs the differences of adjacent values: `fl_transpose_u8`, `fl_delta_u8` and `fl_pack_u8` in one call. Requires
 * `width <= 8` and `output_len == 128 * width`.
 */
void fl_delta_write_u8(size_t width, const uint8_t input[1024], const uint8_t base[128], uint8_t *output,
                       size_t output_len);

/**
 * Unpacks differences of adjacent values and sums them: `fl_undelta_pack_u8` and `fl_untranspose_u8` in one call.
 * Inverts `fl_delta_write_u8` if the width holds each difference. Requires `width <= 8` and `input_len == 128 * width`.
 */
void fl_delta_read_u8(size_t width, const uint8_t *input, size_t input_len, const uint8_t base[128],
                      uint8_t output[1024]);

/* Transposition */

/**
 * Transposes a block: `output[i]` is `input[i % 16 * 64 + ORDER[i / 16 % 8] * 8 + i / 128]`. Each lane of the output
 * has 8 adjacent values of the input.
 */
void fl_transpose_u8(const uint8_t input[1024], uint8_t output[1024]);

/** Inverts `fl_transpose_u8`. */
void fl_untranspose_u8(const uint8_t input[1024], uint8_t output[1024]);

/**
 * Reorders a mask from lane order to logical order: bit `lane * 8 + row` moves to bit
 * `ORDER[row / 8] * 16 + row % 8 * 128 + lane`.
 */
void fl_transpose_bits_u8(const uint64_t input[16], uint64_t output[16]);

/** Inverts `fl_transpose_bits_u8`: reorders a mask from logical order to lane order. */
void fl_untranspose_bits_u8(const uint64_t input[16], uint64_t output[16]);

/* Run-length and dictionary encoding */

/**
 * Run-length encodes a block. Returns the number of runs of equal adjacent values, writes the value of run `k` to
 * `values[k]`, and the run number of `input[i]` to `indices[i]`. Elements of `values` after the last run are unchanged.
 */
size_t fl_rle_encode_u8(const uint8_t input[1024], uint8_t values[1024], uint16_t indices[1024]);

/**
 * Decodes a dictionary or run-length encoded block: `output[i]` is `values[indices[i]]`. Requires
 * `indices[k] < values_len for each k`.
 */
void fl_rle_decode_u8(const uint8_t *values, size_t values_len, const uint16_t indices[1024], uint8_t output[1024]);

/* Comparison */

/**
 * Compares each packed value with `value`: bit `lane * 8 + row` of `mask` is the result for that row of that lane.
 * `fl_transpose_bits_u8` reorders the mask. Packed values are read as `uint8_t`. Requires `width <= 8`,
 * `input_len == 128 * width` and `comparison <= FL_GE`.
 */
void fl_unpack_cmp_u8(size_t width, const uint8_t *input, size_t input_len, uint32_t comparison, uint8_t value,
                      uint64_t mask[16]);

/**
 * Compares each packed value with `value`: bit `i % 64` of `mask[i / 64]` is the result for packed value `i`. Packed
 * values are read as `uint8_t`. Requires `width <= 8`, `input_len == 128 * width` and `comparison <= FL_GE`.
 */
void fl_unpack_filter_u8(size_t width, const uint8_t *input, size_t input_len, uint32_t comparison, uint8_t value,
                         uint64_t mask[16]);

/**
 * Compares each packed value with `value`: bit `lane * 8 + row` of `mask` is the result for that row of that lane.
 * `fl_transpose_bits_u8` reorders the mask. Packed values are read as `int8_t`. Requires `width <= 8`,
 * `input_len == 128 * width` and `comparison <= FL_GE`.
 */
void fl_unpack_cmp_i8(size_t width, const uint8_t *input, size_t input_len, uint32_t comparison, int8_t value,
                      uint64_t mask[16]);

/**
 * Compares each packed value with `value`: bit `i % 64` of `mask[i / 64]` is the result for packed value `i`. Packed
 * values are read as `int8_t`. Requires `width <= 8`, `input_len == 128 * width` and `comparison <= FL_GE`.
 */
void fl_unpack_filter_i8(size_t width, const uint8_t *input, size_t input_len, uint32_t comparison, int8_t value,
                         uint64_t mask[16]);

/* Encoded columns */

/**
 * Returns an upper bound on the bytes of an encoded column of `values_len` values: 32, plus 16 per started 65536
 * values, plus `128 * 8 + 16` per started 1024 values. The result is `SIZE_MAX` for 2^60 values or more.
 */
size_t fl_column_encode_bound_u8(size_t values_len);

/**
 * Encodes values as a column, and returns its length in bytes. Returns 0 and writes nothing if `bytes_len` is less than
 * `fl_column_encode_bound_u8(values_len)` or `flags` has an unknown flag. With flags 0 each block is the shorter of the
 * FOR block at its minimum and the delta block of adjacent values, and each page has a checksum. Bytes after the column
 * are unchanged.
 */
size_t fl_column_encode_u8(const uint8_t *values, size_t values_len, uint32_t flags, uint8_t *bytes, size_t bytes_len);

/**
 * Decodes all values of a column. On success it returns `FL_ERR_NONE`, writes the number of values to `*count`, and
 * leaves later elements of `values` and `*error_offset` unchanged. Otherwise it returns the error, writes the offset of
 * the malformed bytes to `*error_offset`, and leaves `values` and `*count` unchanged. Accepts arbitrary bytes.
 * `FL_ERR_BUFFER_TOO_SMALL`, at offset `bytes_len`, means that `bytes` is a column of more than `values_len` values.
 */
uint32_t fl_column_decode_u8(const uint8_t *bytes, size_t bytes_len, uint8_t *values, size_t values_len, size_t *count,
                             size_t *error_offset);

/** An opened column. Its members are private; initialize it to {0}. */
typedef struct {
    const uint8_t *bytes;
    size_t bytes_len;
    uint64_t len;
    size_t stride, starts[256];
} fl_column_u8;

/**
 * Validates a column, including its checksums, and opens it for random access. `flags` is 0; otherwise the result is
 * `FL_ERR_FLAGS` at offset 0. On success it returns `FL_ERR_NONE`, fills `*column`, and leaves `*error_offset`
 * unchanged. On error it leaves `*column` unchanged and writes the offset of the malformed bytes to `*error_offset`.
 * Accepts arbitrary bytes. Initialize `*column` to `{0}` first. The opened column points to `bytes`, which must outlive
 * it unchanged; it may be copied and needs no closing.
 */
uint32_t fl_column_open_u8(const uint8_t *bytes, size_t bytes_len, uint32_t flags, fl_column_u8 *column,
                           size_t *error_offset);

/** Returns the number of values of an opened column. Requires column was filled by fl_column_open_u8. */
uint64_t fl_column_len_u8(const fl_column_u8 *column);

/**
 * Returns the value at `index` of an opened column. This reads one block: in constant time if it is a FOR block.
 * Requires column was filled by fl_column_open_u8 and `index < fl_column_len_u8(column)`.
 */
uint8_t fl_column_get_u8(const fl_column_u8 *column, uint64_t index);

/**
 * Decodes the `values_len` values from index `start` of an opened column. Requires column was filled by
 * fl_column_open_u8 and `start + values_len <= fl_column_len_u8(column)`.
 */
void fl_column_read_u8(const fl_column_u8 *column, uint64_t start, uint8_t *values, size_t values_len);

/**
 * Compares each value of an opened column with `value`: bit `i % 64` of `mask[i / 64]` is the result for value `i`, and
 * bits after the last value are 0. Returns the number of blocks that were decided from their header, or from the header
 * and the bases of a delta block. Requires column was filled by fl_column_open_u8, `comparison <= FL_GE` and
 * `mask_len == (fl_column_len_u8(column) + 63) / 64`.
 */
uint64_t fl_column_filter_u8(const fl_column_u8 *column, uint32_t comparison, uint8_t value, uint64_t *mask,
                             size_t mask_len);

/**
 * Returns the number of values of an opened column for which the comparison with `value` holds. Requires column was
 * filled by fl_column_open_u8 and `comparison <= FL_GE`.
 */
uint64_t fl_column_count_u8(const fl_column_u8 *column, uint32_t comparison, uint8_t value);

/* Values of type uint16_t: blocks of 64 lanes of 16 rows. */

/* Bit-packing */

/**
 * Packs a block to `width` bits per value: packed value `i` is `input[i]` modulo 2^`width`. Requires `width <= 16` and
 * `output_len == 64 * width`.
 */
void fl_pack_u16(size_t width, const uint16_t input[1024], uint16_t *output, size_t output_len);

/**
 * Unpacks a block: `output[i]` is packed value `i`. Accepts arbitrary words. Requires `width <= 16` and
 * `input_len == 64 * width`.
 */
void fl_unpack_u16(size_t width, const uint16_t *input, size_t input_len, uint16_t output[1024]);

/**
 * Packs `count` consecutive blocks as `fl_pack_u16` does, with a single width dispatch. The packed blocks are
 * consecutive, too. Requires `width <= 16`, `input_len == 1024 * count` and `output_len == 64 * width * count`.
 */
void fl_pack_blocks_u16(size_t width, size_t count, const uint16_t *input, size_t input_len, uint16_t *output,
                        size_t output_len);

/**
 * Unpacks `count` consecutive packed blocks as `fl_unpack_u16` does, with a single width dispatch. Requires
 * `width <= 16`, `input_len == 64 * width * count` and `output_len == 1024 * count`.
 */
void fl_unpack_blocks_u16(size_t width, size_t count, const uint16_t *input, size_t input_len, uint16_t *output,
                          size_t output_len);

/**
 * Returns packed value `index`. At width 0 the result is 0. Requires `width <= 16`, `input_len == 64 * width` and
 * `width == 0 || index < 1024`.
 */
uint16_t fl_unpack_single_u16(size_t width, const uint16_t *input, size_t input_len, size_t index);

/**
 * Gathers selected values: writes packed value `indices[k]` to `output[k]`. Indices may repeat and need no order. At
 * width 0 they are not read, and each output is 0. Requires `width <= 16`, `input_len == 64 * width`,
 * `width == 0 || indices[k] < 1024 for each k` and `output_len == indices_len`.
 */
void fl_unpack_indices_u16(size_t width, const uint16_t *input, size_t input_len, const size_t *indices,
                           size_t indices_len, uint16_t *output, size_t output_len);

/** Returns the sum of the 1024 packed values. Requires `width <= 16` and `input_len == 64 * width`. */
uint64_t fl_unpack_sum_u16(size_t width, const uint16_t *input, size_t input_len);

/**
 * Writes the minimum and the maximum of the 1024 packed values. Requires `width <= 16` and `input_len == 64 * width`.
 */
void fl_unpack_range_u16(size_t width, const uint16_t *input, size_t input_len, uint16_t *minimum, uint16_t *maximum);

/* Frame of reference (FOR) */

/**
 * Packs each value's difference from `reference`: packed value `i` is `input[i] - reference` modulo 2^`width`. Requires
 * `width <= 16` and `output_len == 64 * width`.
 */
void fl_for_pack_u16(size_t width, const uint16_t input[1024], uint16_t reference, uint16_t *output, size_t output_len);

/**
 * Unpacks a FOR block: `output[i]` is `reference` plus packed value `i`, modulo 2^16. Requires `width <= 16` and
 * `input_len == 64 * width`.
 */
void fl_unfor_pack_u16(size_t width, const uint16_t *input, size_t input_len, uint16_t reference,
                       uint16_t output[1024]);

/**
 * Chooses the parameters of a FOR block: writes the block's minimum to `*reference` and returns the minimum bit width
 * of the differences from it. With these, `fl_unfor_pack_u16` inverts `fl_for_pack_u16`. No other reference at or below
 * the minimum allows a smaller width.
 */
size_t fl_frame_head_u16(const uint16_t input[1024], uint16_t *reference);

/**
 * Returns the value at `index` of a FOR block: `reference` plus packed value `index`, modulo 2^16. Requires
 * `width <= 16`, `input_len == 64 * width` and `index < 1024`.
 */
uint16_t fl_frame_get_u16(size_t width, uint16_t reference, const uint16_t *input, size_t input_len, size_t index);

/* Delta encoding */

/**
 * Computes differences along lanes, modulo 2^16. Each value is reduced by the value in the previous row of its lane,
 * and row 0 by the lane's base. `fl_transpose_u16` first makes adjacent values adjacent rows.
 */
void fl_delta_u16(const uint16_t input[1024], const uint16_t base[64], uint16_t output[1024]);

/**
 * Inverts `fl_delta_u16`: each value is the base of its lane plus the differences in the rows up to it, modulo 2^16.
 */
void fl_undelta_u16(const uint16_t input[1024], const uint16_t base[64], uint16_t output[1024]);

/**
 * Unpacks differences and sums them along lanes: `fl_unpack_u16` and `fl_undelta_u16` in one pass. Requires
 * `width <= 16` and `input_len == 64 * width`.
 */
void fl_undelta_pack_u16(size_t width, const uint16_t *input, size_t input_len, const uint16_t base[64],
                         uint16_t output[1024]);

/**
 * Returns the minimum bit width of the differences of adjacent values, modulo 2^16. `base[l]` is the value before lane
 * `l` of the transposed block, whose first value is `input[l % 16 * 64 + ORDER[l / 16 % 8] * 8]`.
 */
size_t fl_delta_width_u16(const uint16_t input[1024], const uint16_t base[64]);

/**
 * Packs the differences of adjacent values: `fl_transpose_u16`, `fl_delta_u16` and `fl_pack_u16` in one call. Requires
 * `width <= 16` and `output_len == 64 * width`.
 */
void fl_delta_write_u16(size_t width, const uint16_t input[1024], const uint16_t base[64], uint16_t *output,
                        size_t output_len);

/**
 * Unpacks differences of adjacent values and sums them: `fl_undelta_pack_u16` and `fl_untranspose_u16` in one call.
 * Inverts `fl_delta_write_u16` if the width holds each difference. Requires `width <= 16` and
 * `input_len == 64 * width`.
 */
void fl_delta_read_u16(size_t width, const uint16_t *input, size_t input_len, const uint16_t base[64],
                       uint16_t output[1024]);

/* Transposition */

/**
 * Transposes a block: `output[i]` is `input[i % 16 * 64 + ORDER[i / 16 % 8] * 8 + i / 128]`. Each lane of the output
 * has 16 adjacent values of the input.
 */
void fl_transpose_u16(const uint16_t input[1024], uint16_t output[1024]);

/** Inverts `fl_transpose_u16`. */
void fl_untranspose_u16(const uint16_t input[1024], uint16_t output[1024]);

/**
 * Reorders a mask from lane order to logical order: bit `lane * 16 + row` moves to bit
 * `ORDER[row / 8] * 16 + row % 8 * 128 + lane`.
 */
void fl_transpose_bits_u16(const uint64_t input[16], uint64_t output[16]);

/** Inverts `fl_transpose_bits_u16`: reorders a mask from logical order to lane order. */
void fl_untranspose_bits_u16(const uint64_t input[16], uint64_t output[16]);

/* Run-length and dictionary encoding */

/**
 * Run-length encodes a block. Returns the number of runs of equal adjacent values, writes the value of run `k` to
 * `values[k]`, and the run number of `input[i]` to `indices[i]`. Elements of `values` after the last run are unchanged.
 */
size_t fl_rle_encode_u16(const uint16_t input[1024], uint16_t values[1024], uint16_t indices[1024]);

/**
 * Decodes a dictionary or run-length encoded block: `output[i]` is `values[indices[i]]`. Requires
 * `indices[k] < values_len for each k`.
 */
void fl_rle_decode_u16(const uint16_t *values, size_t values_len, const uint16_t indices[1024], uint16_t output[1024]);

/* Comparison */

/**
 * Compares each packed value with `value`: bit `lane * 16 + row` of `mask` is the result for that row of that lane.
 * `fl_transpose_bits_u16` reorders the mask. Packed values are read as `uint16_t`. Requires `width <= 16`,
 * `input_len == 64 * width` and `comparison <= FL_GE`.
 */
void fl_unpack_cmp_u16(size_t width, const uint16_t *input, size_t input_len, uint32_t comparison, uint16_t value,
                       uint64_t mask[16]);

/**
 * Compares each packed value with `value`: bit `i % 64` of `mask[i / 64]` is the result for packed value `i`. Packed
 * values are read as `uint16_t`. Requires `width <= 16`, `input_len == 64 * width` and `comparison <= FL_GE`.
 */
void fl_unpack_filter_u16(size_t width, const uint16_t *input, size_t input_len, uint32_t comparison, uint16_t value,
                          uint64_t mask[16]);

/**
 * Compares each packed value with `value`: bit `lane * 16 + row` of `mask` is the result for that row of that lane.
 * `fl_transpose_bits_u16` reorders the mask. Packed values are read as `int16_t`. Requires `width <= 16`,
 * `input_len == 64 * width` and `comparison <= FL_GE`.
 */
void fl_unpack_cmp_i16(size_t width, const uint16_t *input, size_t input_len, uint32_t comparison, int16_t value,
                       uint64_t mask[16]);

/**
 * Compares each packed value with `value`: bit `i % 64` of `mask[i / 64]` is the result for packed value `i`. Packed
 * values are read as `int16_t`. Requires `width <= 16`, `input_len == 64 * width` and `comparison <= FL_GE`.
 */
void fl_unpack_filter_i16(size_t width, const uint16_t *input, size_t input_len, uint32_t comparison, int16_t value,
                          uint64_t mask[16]);

/* Encoded columns */

/**
 * Returns an upper bound on the bytes of an encoded column of `values_len` values: 32, plus 16 per started 65536
 * values, plus `128 * 16 + 16` per started 1024 values. The result is `SIZE_MAX` for 2^60 values or more.
 */
size_t fl_column_encode_bound_u16(size_t values_len);

/**
 * Encodes values as a column, and returns its length in bytes. Returns 0 and writes nothing if `bytes_len` is less than
 * `fl_column_encode_bound_u16(values_len)` or `flags` has an unknown flag. With flags 0 each block is the shorter of
 * the FOR block at its minimum and the delta block of adjacent values, and each page has a checksum. Bytes after the
 * column are unchanged.
 */
size_t fl_column_encode_u16(const uint16_t *values, size_t values_len, uint32_t flags, uint8_t *bytes,
                            size_t bytes_len);

/**
 * Decodes all values of a column. On success it returns `FL_ERR_NONE`, writes the number of values to `*count`, and
 * leaves later elements of `values` and `*error_offset` unchanged. Otherwise it returns the error, writes the offset of
 * the malformed bytes to `*error_offset`, and leaves `values` and `*count` unchanged. Accepts arbitrary bytes.
 * `FL_ERR_BUFFER_TOO_SMALL`, at offset `bytes_len`, means that `bytes` is a column of more than `values_len` values.
 */
uint32_t fl_column_decode_u16(const uint8_t *bytes, size_t bytes_len, uint16_t *values, size_t values_len,
                              size_t *count, size_t *error_offset);

/** An opened column. Its members are private; initialize it to {0}. */
typedef struct {
    const uint8_t *bytes;
    size_t bytes_len;
    uint64_t len;
    size_t stride, starts[256];
} fl_column_u16;

/**
 * Validates a column, including its checksums, and opens it for random access. `flags` is 0; otherwise the result is
 * `FL_ERR_FLAGS` at offset 0. On success it returns `FL_ERR_NONE`, fills `*column`, and leaves `*error_offset`
 * unchanged. On error it leaves `*column` unchanged and writes the offset of the malformed bytes to `*error_offset`.
 * Accepts arbitrary bytes. Initialize `*column` to `{0}` first. The opened column points to `bytes`, which must outlive
 * it unchanged; it may be copied and needs no closing.
 */
uint32_t fl_column_open_u16(const uint8_t *bytes, size_t bytes_len, uint32_t flags, fl_column_u16 *column,
                            size_t *error_offset);

/** Returns the number of values of an opened column. Requires column was filled by fl_column_open_u16. */
uint64_t fl_column_len_u16(const fl_column_u16 *column);

/**
 * Returns the value at `index` of an opened column. This reads one block: in constant time if it is a FOR block.
 * Requires column was filled by fl_column_open_u16 and `index < fl_column_len_u16(column)`.
 */
uint16_t fl_column_get_u16(const fl_column_u16 *column, uint64_t index);

/**
 * Decodes the `values_len` values from index `start` of an opened column. Requires column was filled by
 * fl_column_open_u16 and `start + values_len <= fl_column_len_u16(column)`.
 */
void fl_column_read_u16(const fl_column_u16 *column, uint64_t start, uint16_t *values, size_t values_len);

/**
 * Compares each value of an opened column with `value`: bit `i % 64` of `mask[i / 64]` is the result for value `i`, and
 * bits after the last value are 0. Returns the number of blocks that were decided from their header, or from the header
 * and the bases of a delta block. Requires column was filled by fl_column_open_u16, `comparison <= FL_GE` and
 * `mask_len == (fl_column_len_u16(column) + 63) / 64`.
 */
uint64_t fl_column_filter_u16(const fl_column_u16 *column, uint32_t comparison, uint16_t value, uint64_t *mask,
                              size_t mask_len);

/**
 * Returns the number of values of an opened column for which the comparison with `value` holds. Requires column was
 * filled by fl_column_open_u16 and `comparison <= FL_GE`.
 */
uint64_t fl_column_count_u16(const fl_column_u16 *column, uint32_t comparison, uint16_t value);

/* Values of type uint32_t: blocks of 32 lanes of 32 rows. */

/* Bit-packing */

/**
 * Packs a block to `width` bits per value: packed value `i` is `input[i]` modulo 2^`width`. Requires `width <= 32` and
 * `output_len == 32 * width`.
 */
void fl_pack_u32(size_t width, const uint32_t input[1024], uint32_t *output, size_t output_len);

/**
 * Unpacks a block: `output[i]` is packed value `i`. Accepts arbitrary words. Requires `width <= 32` and
 * `input_len == 32 * width`.
 */
void fl_unpack_u32(size_t width, const uint32_t *input, size_t input_len, uint32_t output[1024]);

/**
 * Packs `count` consecutive blocks as `fl_pack_u32` does, with a single width dispatch. The packed blocks are
 * consecutive, too. Requires `width <= 32`, `input_len == 1024 * count` and `output_len == 32 * width * count`.
 */
void fl_pack_blocks_u32(size_t width, size_t count, const uint32_t *input, size_t input_len, uint32_t *output,
                        size_t output_len);

/**
 * Unpacks `count` consecutive packed blocks as `fl_unpack_u32` does, with a single width dispatch. Requires
 * `width <= 32`, `input_len == 32 * width * count` and `output_len == 1024 * count`.
 */
void fl_unpack_blocks_u32(size_t width, size_t count, const uint32_t *input, size_t input_len, uint32_t *output,
                          size_t output_len);

/**
 * Returns packed value `index`. At width 0 the result is 0. Requires `width <= 32`, `input_len == 32 * width` and
 * `width == 0 || index < 1024`.
 */
uint32_t fl_unpack_single_u32(size_t width, const uint32_t *input, size_t input_len, size_t index);

/**
 * Gathers selected values: writes packed value `indices[k]` to `output[k]`. Indices may repeat and need no order. At
 * width 0 they are not read, and each output is 0. Requires `width <= 32`, `input_len == 32 * width`,
 * `width == 0 || indices[k] < 1024 for each k` and `output_len == indices_len`.
 */
void fl_unpack_indices_u32(size_t width, const uint32_t *input, size_t input_len, const size_t *indices,
                           size_t indices_len, uint32_t *output, size_t output_len);

/** Returns the sum of the 1024 packed values. Requires `width <= 32` and `input_len == 32 * width`. */
uint64_t fl_unpack_sum_u32(size_t width, const uint32_t *input, size_t input_len);

/**
 * Writes the minimum and the maximum of the 1024 packed values. Requires `width <= 32` and `input_len == 32 * width`.
 */
void fl_unpack_range_u32(size_t width, const uint32_t *input, size_t input_len, uint32_t *minimum, uint32_t *maximum);

/* Frame of reference (FOR) */

/**
 * Packs each value's difference from `reference`: packed value `i` is `input[i] - reference` modulo 2^`width`. Requires
 * `width <= 32` and `output_len == 32 * width`.
 */
void fl_for_pack_u32(size_t width, const uint32_t input[1024], uint32_t reference, uint32_t *output, size_t output_len);

/**
 * Unpacks a FOR block: `output[i]` is `reference` plus packed value `i`, modulo 2^32. Requires `width <= 32` and
 * `input_len == 32 * width`.
 */
void fl_unfor_pack_u32(size_t width, const uint32_t *input, size_t input_len, uint32_t reference,
                       uint32_t output[1024]);

/**
 * Chooses the parameters of a FOR block: writes the block's minimum to `*reference` and returns the minimum bit width
 * of the differences from it. With these, `fl_unfor_pack_u32` inverts `fl_for_pack_u32`. No other reference at or below
 * the minimum allows a smaller width.
 */
size_t fl_frame_head_u32(const uint32_t input[1024], uint32_t *reference);

/**
 * Returns the value at `index` of a FOR block: `reference` plus packed value `index`, modulo 2^32. Requires
 * `width <= 32`, `input_len == 32 * width` and `index < 1024`.
 */
uint32_t fl_frame_get_u32(size_t width, uint32_t reference, const uint32_t *input, size_t input_len, size_t index);

/* Delta encoding */

/**
 * Computes differences along lanes, modulo 2^32. Each value is reduced by the value in the previous row of its lane,
 * and row 0 by the lane's base. `fl_transpose_u32` first makes adjacent values adjacent rows.
 */
void fl_delta_u32(const uint32_t input[1024], const uint32_t base[32], uint32_t output[1024]);

/**
 * Inverts `fl_delta_u32`: each value is the base of its lane plus the differences in the rows up to it, modulo 2^32.
 */
void fl_undelta_u32(const uint32_t input[1024], const uint32_t base[32], uint32_t output[1024]);

/**
 * Unpacks differences and sums them along lanes: `fl_unpack_u32` and `fl_undelta_u32` in one pass. Requires
 * `width <= 32` and `input_len == 32 * width`.
 */
void fl_undelta_pack_u32(size_t width, const uint32_t *input, size_t input_len, const uint32_t base[32],
                         uint32_t output[1024]);

/**
 * Returns the minimum bit width of the differences of adjacent values, modulo 2^32. `base[l]` is the value before lane
 * `l` of the transposed block, whose first value is `input[l % 16 * 64 + ORDER[l / 16 % 8] * 8]`.
 */
size_t fl_delta_width_u32(const uint32_t input[1024], const uint32_t base[32]);

/**
 * Packs the differences of adjacent values: `fl_transpose_u32`, `fl_delta_u32` and `fl_pack_u32` in one call. Requires
 * `width <= 32` and `output_len == 32 * width`.
 */
void fl_delta_write_u32(size_t width, const uint32_t input[1024], const uint32_t base[32], uint32_t *output,
                        size_t output_len);

/**
 * Unpacks differences of adjacent values and sums them: `fl_undelta_pack_u32` and `fl_untranspose_u32` in one call.
 * Inverts `fl_delta_write_u32` if the width holds each difference. Requires `width <= 32` and
 * `input_len == 32 * width`.
 */
void fl_delta_read_u32(size_t width, const uint32_t *input, size_t input_len, const uint32_t base[32],
                       uint32_t output[1024]);

/* Transposition */

/**
 * Transposes a block: `output[i]` is `input[i % 16 * 64 + ORDER[i / 16 % 8] * 8 + i / 128]`. Each lane of the output
 * has 32 adjacent values of the input.
 */
void fl_transpose_u32(const uint32_t input[1024], uint32_t output[1024]);

/** Inverts `fl_transpose_u32`. */
void fl_untranspose_u32(const uint32_t input[1024], uint32_t output[1024]);

/**
 * Reorders a mask from lane order to logical order: bit `lane * 32 + row` moves to bit
 * `ORDER[row / 8] * 16 + row % 8 * 128 + lane`.
 */
void fl_transpose_bits_u32(const uint64_t input[16], uint64_t output[16]);

/** Inverts `fl_transpose_bits_u32`: reorders a mask from logical order to lane order. */
void fl_untranspose_bits_u32(const uint64_t input[16], uint64_t output[16]);

/* Run-length and dictionary encoding */

/**
 * Run-length encodes a block. Returns the number of runs of equal adjacent values, writes the value of run `k` to
 * `values[k]`, and the run number of `input[i]` to `indices[i]`. Elements of `values` after the last run are unchanged.
 */
size_t fl_rle_encode_u32(const uint32_t input[1024], uint32_t values[1024], uint16_t indices[1024]);

/**
 * Decodes a dictionary or run-length encoded block: `output[i]` is `values[indices[i]]`. Requires
 * `indices[k] < values_len for each k`.
 */
void fl_rle_decode_u32(const uint32_t *values, size_t values_len, const uint16_t indices[1024], uint32_t output[1024]);

/* Comparison */

/**
 * Compares each packed value with `value`: bit `lane * 32 + row` of `mask` is the result for that row of that lane.
 * `fl_transpose_bits_u32` reorders the mask. Packed values are read as `uint32_t`. Requires `width <= 32`,
 * `input_len == 32 * width` and `comparison <= FL_GE`.
 */
void fl_unpack_cmp_u32(size_t width, const uint32_t *input, size_t input_len, uint32_t comparison, uint32_t value,
                       uint64_t mask[16]);

/**
 * Compares each packed value with `value`: bit `i % 64` of `mask[i / 64]` is the result for packed value `i`. Packed
 * values are read as `uint32_t`. Requires `width <= 32`, `input_len == 32 * width` and `comparison <= FL_GE`.
 */
void fl_unpack_filter_u32(size_t width, const uint32_t *input, size_t input_len, uint32_t comparison, uint32_t value,
                          uint64_t mask[16]);

/**
 * Compares each packed value with `value`: bit `lane * 32 + row` of `mask` is the result for that row of that lane.
 * `fl_transpose_bits_u32` reorders the mask. Packed values are read as `int32_t`. Requires `width <= 32`,
 * `input_len == 32 * width` and `comparison <= FL_GE`.
 */
void fl_unpack_cmp_i32(size_t width, const uint32_t *input, size_t input_len, uint32_t comparison, int32_t value,
                       uint64_t mask[16]);

/**
 * Compares each packed value with `value`: bit `i % 64` of `mask[i / 64]` is the result for packed value `i`. Packed
 * values are read as `int32_t`. Requires `width <= 32`, `input_len == 32 * width` and `comparison <= FL_GE`.
 */
void fl_unpack_filter_i32(size_t width, const uint32_t *input, size_t input_len, uint32_t comparison, int32_t value,
                          uint64_t mask[16]);

/* Encoded columns */

/**
 * Returns an upper bound on the bytes of an encoded column of `values_len` values: 32, plus 16 per started 65536
 * values, plus `128 * 32 + 16` per started 1024 values. The result is `SIZE_MAX` for 2^60 values or more.
 */
size_t fl_column_encode_bound_u32(size_t values_len);

/**
 * Encodes values as a column, and returns its length in bytes. Returns 0 and writes nothing if `bytes_len` is less than
 * `fl_column_encode_bound_u32(values_len)` or `flags` has an unknown flag. With flags 0 each block is the shorter of
 * the FOR block at its minimum and the delta block of adjacent values, and each page has a checksum. Bytes after the
 * column are unchanged.
 */
size_t fl_column_encode_u32(const uint32_t *values, size_t values_len, uint32_t flags, uint8_t *bytes,
                            size_t bytes_len);

/**
 * Decodes all values of a column. On success it returns `FL_ERR_NONE`, writes the number of values to `*count`, and
 * leaves later elements of `values` and `*error_offset` unchanged. Otherwise it returns the error, writes the offset of
 * the malformed bytes to `*error_offset`, and leaves `values` and `*count` unchanged. Accepts arbitrary bytes.
 * `FL_ERR_BUFFER_TOO_SMALL`, at offset `bytes_len`, means that `bytes` is a column of more than `values_len` values.
 */
uint32_t fl_column_decode_u32(const uint8_t *bytes, size_t bytes_len, uint32_t *values, size_t values_len,
                              size_t *count, size_t *error_offset);

/** An opened column. Its members are private; initialize it to {0}. */
typedef struct {
    const uint8_t *bytes;
    size_t bytes_len;
    uint64_t len;
    size_t stride, starts[256];
} fl_column_u32;

/**
 * Validates a column, including its checksums, and opens it for random access. `flags` is 0; otherwise the result is
 * `FL_ERR_FLAGS` at offset 0. On success it returns `FL_ERR_NONE`, fills `*column`, and leaves `*error_offset`
 * unchanged. On error it leaves `*column` unchanged and writes the offset of the malformed bytes to `*error_offset`.
 * Accepts arbitrary bytes. Initialize `*column` to `{0}` first. The opened column points to `bytes`, which must outlive
 * it unchanged; it may be copied and needs no closing.
 */
uint32_t fl_column_open_u32(const uint8_t *bytes, size_t bytes_len, uint32_t flags, fl_column_u32 *column,
                            size_t *error_offset);

/** Returns the number of values of an opened column. Requires column was filled by fl_column_open_u32. */
uint64_t fl_column_len_u32(const fl_column_u32 *column);

/**
 * Returns the value at `index` of an opened column. This reads one block: in constant time if it is a FOR block.
 * Requires column was filled by fl_column_open_u32 and `index < fl_column_len_u32(column)`.
 */
uint32_t fl_column_get_u32(const fl_column_u32 *column, uint64_t index);

/**
 * Decodes the `values_len` values from index `start` of an opened column. Requires column was filled by
 * fl_column_open_u32 and `start + values_len <= fl_column_len_u32(column)`.
 */
void fl_column_read_u32(const fl_column_u32 *column, uint64_t start, uint32_t *values, size_t values_len);

/**
 * Compares each value of an opened column with `value`: bit `i % 64` of `mask[i / 64]` is the result for value `i`, and
 * bits after the last value are 0. Returns the number of blocks that were decided from their header, or from the header
 * and the bases of a delta block. Requires column was filled by fl_column_open_u32, `comparison <= FL_GE` and
 * `mask_len == (fl_column_len_u32(column) + 63) / 64`.
 */
uint64_t fl_column_filter_u32(const fl_column_u32 *column, uint32_t comparison, uint32_t value, uint64_t *mask,
                              size_t mask_len);

/**
 * Returns the number of values of an opened column for which the comparison with `value` holds. Requires column was
 * filled by fl_column_open_u32 and `comparison <= FL_GE`.
 */
uint64_t fl_column_count_u32(const fl_column_u32 *column, uint32_t comparison, uint32_t value);

/* Values of type uint64_t: blocks of 16 lanes of 64 rows. */

/* Bit-packing */

/**
 * Packs a block to `width` bits per value: packed value `i` is `input[i]` modulo 2^`width`. Requires `width <= 64` and
 * `output_len == 16 * width`.
 */
void fl_pack_u64(size_t width, const uint64_t input[1024], uint64_t *output, size_t output_len);

/**
 * Unpacks a block: `output[i]` is packed value `i`. Accepts arbitrary words. Requires `width <= 64` and
 * `input_len == 16 * width`.
 */
void fl_unpack_u64(size_t width, const uint64_t *input, size_t input_len, uint64_t output[1024]);

/**
 * Packs `count` consecutive blocks as `fl_pack_u64` does, with a single width dispatch. The packed blocks are
 * consecutive, too. Requires `width <= 64`, `input_len == 1024 * count` and `output_len == 16 * width * count`.
 */
void fl_pack_blocks_u64(size_t width, size_t count, const uint64_t *input, size_t input_len, uint64_t *output,
                        size_t output_len);

/**
 * Unpacks `count` consecutive packed blocks as `fl_unpack_u64` does, with a single width dispatch. Requires
 * `width <= 64`, `input_len == 16 * width * count` and `output_len == 1024 * count`.
 */
void fl_unpack_blocks_u64(size_t width, size_t count, const uint64_t *input, size_t input_len, uint64_t *output,
                          size_t output_len);

/**
 * Returns packed value `index`. At width 0 the result is 0. Requires `width <= 64`, `input_len == 16 * width` and
 * `width == 0 || index < 1024`.
 */
uint64_t fl_unpack_single_u64(size_t width, const uint64_t *input, size_t input_len, size_t index);

/**
 * Gathers selected values: writes packed value `indices[k]` to `output[k]`. Indices may repeat and need no order. At
 * width 0 they are not read, and each output is 0. Requires `width <= 64`, `input_len == 16 * width`,
 * `width == 0 || indices[k] < 1024 for each k` and `output_len == indices_len`.
 */
void fl_unpack_indices_u64(size_t width, const uint64_t *input, size_t input_len, const size_t *indices,
                           size_t indices_len, uint64_t *output, size_t output_len);

/** Returns the sum of the 1024 packed values, modulo 2^64. Requires `width <= 64` and `input_len == 16 * width`. */
uint64_t fl_unpack_sum_u64(size_t width, const uint64_t *input, size_t input_len);

/**
 * Writes the minimum and the maximum of the 1024 packed values. Requires `width <= 64` and `input_len == 16 * width`.
 */
void fl_unpack_range_u64(size_t width, const uint64_t *input, size_t input_len, uint64_t *minimum, uint64_t *maximum);

/* Frame of reference (FOR) */

/**
 * Packs each value's difference from `reference`: packed value `i` is `input[i] - reference` modulo 2^`width`. Requires
 * `width <= 64` and `output_len == 16 * width`.
 */
void fl_for_pack_u64(size_t width, const uint64_t input[1024], uint64_t reference, uint64_t *output, size_t output_len);

/**
 * Unpacks a FOR block: `output[i]` is `reference` plus packed value `i`, modulo 2^64. Requires `width <= 64` and
 * `input_len == 16 * width`.
 */
void fl_unfor_pack_u64(size_t width, const uint64_t *input, size_t input_len, uint64_t reference,
                       uint64_t output[1024]);

/**
 * Chooses the parameters of a FOR block: writes the block's minimum to `*reference` and returns the minimum bit width
 * of the differences from it. With these, `fl_unfor_pack_u64` inverts `fl_for_pack_u64`. No other reference at or below
 * the minimum allows a smaller width.
 */
size_t fl_frame_head_u64(const uint64_t input[1024], uint64_t *reference);

/**
 * Returns the value at `index` of a FOR block: `reference` plus packed value `index`, modulo 2^64. Requires
 * `width <= 64`, `input_len == 16 * width` and `index < 1024`.
 */
uint64_t fl_frame_get_u64(size_t width, uint64_t reference, const uint64_t *input, size_t input_len, size_t index);

/* Delta encoding */

/**
 * Computes differences along lanes, modulo 2^64. Each value is reduced by the value in the previous row of its lane,
 * and row 0 by the lane's base. `fl_transpose_u64` first makes adjacent values adjacent rows.
 */
void fl_delta_u64(const uint64_t input[1024], const uint64_t base[16], uint64_t output[1024]);

/**
 * Inverts `fl_delta_u64`: each value is the base of its lane plus the differences in the rows up to it, modulo 2^64.
 */
void fl_undelta_u64(const uint64_t input[1024], const uint64_t base[16], uint64_t output[1024]);

/**
 * Unpacks differences and sums them along lanes: `fl_unpack_u64` and `fl_undelta_u64` in one pass. Requires
 * `width <= 64` and `input_len == 16 * width`.
 */
void fl_undelta_pack_u64(size_t width, const uint64_t *input, size_t input_len, const uint64_t base[16],
                         uint64_t output[1024]);

/**
 * Returns the minimum bit width of the differences of adjacent values, modulo 2^64. `base[l]` is the value before lane
 * `l` of the transposed block, whose first value is `input[l % 16 * 64 + ORDER[l / 16 % 8] * 8]`.
 */
size_t fl_delta_width_u64(const uint64_t input[1024], const uint64_t base[16]);

/**
 * Packs the differences of adjacent values: `fl_transpose_u64`, `fl_delta_u64` and `fl_pack_u64` in one call. Requires
 * `width <= 64` and `output_len == 16 * width`.
 */
void fl_delta_write_u64(size_t width, const uint64_t input[1024], const uint64_t base[16], uint64_t *output,
                        size_t output_len);

/**
 * Unpacks differences of adjacent values and sums them: `fl_undelta_pack_u64` and `fl_untranspose_u64` in one call.
 * Inverts `fl_delta_write_u64` if the width holds each difference. Requires `width <= 64` and
 * `input_len == 16 * width`.
 */
void fl_delta_read_u64(size_t width, const uint64_t *input, size_t input_len, const uint64_t base[16],
                       uint64_t output[1024]);

/* Transposition */

/**
 * Transposes a block: `output[i]` is `input[i % 16 * 64 + ORDER[i / 16 % 8] * 8 + i / 128]`. Each lane of the output
 * has 64 adjacent values of the input.
 */
void fl_transpose_u64(const uint64_t input[1024], uint64_t output[1024]);

/** Inverts `fl_transpose_u64`. */
void fl_untranspose_u64(const uint64_t input[1024], uint64_t output[1024]);

/**
 * Reorders a mask from lane order to logical order: bit `lane * 64 + row` moves to bit
 * `ORDER[row / 8] * 16 + row % 8 * 128 + lane`.
 */
void fl_transpose_bits_u64(const uint64_t input[16], uint64_t output[16]);

/** Inverts `fl_transpose_bits_u64`: reorders a mask from logical order to lane order. */
void fl_untranspose_bits_u64(const uint64_t input[16], uint64_t output[16]);

/* Run-length and dictionary encoding */

/**
 * Run-length encodes a block. Returns the number of runs of equal adjacent values, writes the value of run `k` to
 * `values[k]`, and the run number of `input[i]` to `indices[i]`. Elements of `values` after the last run are unchanged.
 */
size_t fl_rle_encode_u64(const uint64_t input[1024], uint64_t values[1024], uint16_t indices[1024]);

/**
 * Decodes a dictionary or run-length encoded block: `output[i]` is `values[indices[i]]`. Requires
 * `indices[k] < values_len for each k`.
 */
void fl_rle_decode_u64(const uint64_t *values, size_t values_len, const uint16_t indices[1024], uint64_t output[1024]);

/* Comparison */

/**
 * Compares each packed value with `value`: bit `lane * 64 + row` of `mask` is the result for that row of that lane.
 * `fl_transpose_bits_u64` reorders the mask. Packed values are read as `uint64_t`. Requires `width <= 64`,
 * `input_len == 16 * width` and `comparison <= FL_GE`.
 */
void fl_unpack_cmp_u64(size_t width, const uint64_t *input, size_t input_len, uint32_t comparison, uint64_t value,
                       uint64_t mask[16]);

/**
 * Compares each packed value with `value`: bit `i % 64` of `mask[i / 64]` is the result for packed value `i`. Packed
 * values are read as `uint64_t`. Requires `width <= 64`, `input_len == 16 * width` and `comparison <= FL_GE`.
 */
void fl_unpack_filter_u64(size_t width, const uint64_t *input, size_t input_len, uint32_t comparison, uint64_t value,
                          uint64_t mask[16]);

/**
 * Compares each packed value with `value`: bit `lane * 64 + row` of `mask` is the result for that row of that lane.
 * `fl_transpose_bits_u64` reorders the mask. Packed values are read as `int64_t`. Requires `width <= 64`,
 * `input_len == 16 * width` and `comparison <= FL_GE`.
 */
void fl_unpack_cmp_i64(size_t width, const uint64_t *input, size_t input_len, uint32_t comparison, int64_t value,
                       uint64_t mask[16]);

/**
 * Compares each packed value with `value`: bit `i % 64` of `mask[i / 64]` is the result for packed value `i`. Packed
 * values are read as `int64_t`. Requires `width <= 64`, `input_len == 16 * width` and `comparison <= FL_GE`.
 */
void fl_unpack_filter_i64(size_t width, const uint64_t *input, size_t input_len, uint32_t comparison, int64_t value,
                          uint64_t mask[16]);

/* Encoded columns */

/**
 * Returns an upper bound on the bytes of an encoded column of `values_len` values: 32, plus 16 per started 65536
 * values, plus `128 * 64 + 16` per started 1024 values. The result is `SIZE_MAX` for 2^60 values or more.
 */
size_t fl_column_encode_bound_u64(size_t values_len);

/**
 * Encodes values as a column, and returns its length in bytes. Returns 0 and writes nothing if `bytes_len` is less than
 * `fl_column_encode_bound_u64(values_len)` or `flags` has an unknown flag. With flags 0 each block is the shorter of
 * the FOR block at its minimum and the delta block of adjacent values, and each page has a checksum. Bytes after the
 * column are unchanged.
 */
size_t fl_column_encode_u64(const uint64_t *values, size_t values_len, uint32_t flags, uint8_t *bytes,
                            size_t bytes_len);

/**
 * Decodes all values of a column. On success it returns `FL_ERR_NONE`, writes the number of values to `*count`, and
 * leaves later elements of `values` and `*error_offset` unchanged. Otherwise it returns the error, writes the offset of
 * the malformed bytes to `*error_offset`, and leaves `values` and `*count` unchanged. Accepts arbitrary bytes.
 * `FL_ERR_BUFFER_TOO_SMALL`, at offset `bytes_len`, means that `bytes` is a column of more than `values_len` values.
 */
uint32_t fl_column_decode_u64(const uint8_t *bytes, size_t bytes_len, uint64_t *values, size_t values_len,
                              size_t *count, size_t *error_offset);

/** An opened column. Its members are private; initialize it to {0}. */
typedef struct {
    const uint8_t *bytes;
    size_t bytes_len;
    uint64_t len;
    size_t stride, starts[256];
} fl_column_u64;

/**
 * Validates a column, including its checksums, and opens it for random access. `flags` is 0; otherwise the result is
 * `FL_ERR_FLAGS` at offset 0. On success it returns `FL_ERR_NONE`, fills `*column`, and leaves `*error_offset`
 * unchanged. On error it leaves `*column` unchanged and writes the offset of the malformed bytes to `*error_offset`.
 * Accepts arbitrary bytes. Initialize `*column` to `{0}` first. The opened column points to `bytes`, which must outlive
 * it unchanged; it may be copied and needs no closing.
 */
uint32_t fl_column_open_u64(const uint8_t *bytes, size_t bytes_len, uint32_t flags, fl_column_u64 *column,
                            size_t *error_offset);

/** Returns the number of values of an opened column. Requires column was filled by fl_column_open_u64. */
uint64_t fl_column_len_u64(const fl_column_u64 *column);

/**
 * Returns the value at `index` of an opened column. This reads one block: in constant time if it is a FOR block.
 * Requires column was filled by fl_column_open_u64 and `index < fl_column_len_u64(column)`.
 */
uint64_t fl_column_get_u64(const fl_column_u64 *column, uint64_t index);

/**
 * Decodes the `values_len` values from index `start` of an opened column. Requires column was filled by
 * fl_column_open_u64 and `start + values_len <= fl_column_len_u64(column)`.
 */
void fl_column_read_u64(const fl_column_u64 *column, uint64_t start, uint64_t *values, size_t values_len);

/**
 * Compares each value of an opened column with `value`: bit `i % 64` of `mask[i / 64]` is the result for value `i`, and
 * bits after the last value are 0. Returns the number of blocks that were decided from their header, or from the header
 * and the bases of a delta block. Requires column was filled by fl_column_open_u64, `comparison <= FL_GE` and
 * `mask_len == (fl_column_len_u64(column) + 63) / 64`.
 */
uint64_t fl_column_filter_u64(const fl_column_u64 *column, uint32_t comparison, uint64_t value, uint64_t *mask,
                              size_t mask_len);

/**
 * Returns the number of values of an opened column for which the comparison with `value` holds. Requires column was
 * filled by fl_column_open_u64 and `comparison <= FL_GE`.
 */
uint64_t fl_column_count_u64(const fl_column_u64 *column, uint32_t comparison, uint64_t value);
#ifdef __cplusplus
}
#endif

#ifdef FASTLANES_CHECKED
#include "fastlanes_checked.h"
#endif

#endif
