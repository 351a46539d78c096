/*
 * Checks the preconditions of each call of fastlanes.h, which includes this file with -DFASTLANES_CHECKED. A call that breaks one
 * prints a line to standard error that names the call and the condition, and aborts.
 */
#ifndef FASTLANES_CHECKED_H
#define FASTLANES_CHECKED_H

#include <stdio.h>
#include <stdlib.h>

static inline void fl_require(int holds, const char *call, const char *condition) {
    if (holds) return;
    fprintf(stderr, "%s requires: %s\n", call, condition);
    abort();
}

static inline int fl_is_aligned(const void *at, size_t size) { return (uintptr_t)at % size == 0; }

static inline int fl_is_apart(const void *one, size_t one_size, const void *other, size_t other_size) {
    uintptr_t a = (uintptr_t)one, b = (uintptr_t)other;
    return !one_size || !other_size || (a < b ? b - a >= one_size : a - b >= other_size);
}

static inline int fl_is_product(size_t product, size_t factor, size_t count) {
    return factor ? product % factor == 0 && product / factor == count : product == 0;
}

static inline int fl_are_below(const size_t *indices, size_t indices_len, size_t bound) {
    for (size_t k = 0; k < indices_len; k++)
        if (indices[k] >= bound) return 0;
    return 1;
}

static inline int fl_are_below_16(const uint16_t *indices, size_t indices_len, size_t bound) {
    for (size_t k = 0; k < indices_len; k++)
        if (indices[k] >= bound) return 0;
    return 1;
}

static inline int fl_is_open(const uint8_t *bytes, size_t bytes_len, unsigned bits) {
    return bytes != NULL && bytes_len >= 32 && bytes[4] == bits;
}

static inline void fl_checked_pack_u8(size_t width, const uint8_t input[1024], uint8_t *output, size_t output_len) {
    fl_require(input != NULL, "fl_pack_u8", "input is not null");
    fl_require(output != NULL || output_len == 0, "fl_pack_u8", "output is not null");
    fl_require(width <= 8, "fl_pack_u8", "width <= 8");
    fl_require(output_len == 128 * width, "fl_pack_u8", "output_len == 128 * width");
    fl_require(fl_is_apart(input, 1024 * sizeof(uint8_t), output, output_len * sizeof(uint8_t)), "fl_pack_u8", "input does not overlap output");
    fl_pack_u8(width, input, output, output_len);
}
#define fl_pack_u8 fl_checked_pack_u8

static inline void fl_checked_unpack_u8(size_t width, const uint8_t *input, size_t input_len, uint8_t output[1024]) {
    fl_require(input != NULL || input_len == 0, "fl_unpack_u8", "input is not null");
    fl_require(output != NULL, "fl_unpack_u8", "output is not null");
    fl_require(width <= 8, "fl_unpack_u8", "width <= 8");
    fl_require(input_len == 128 * width, "fl_unpack_u8", "input_len == 128 * width");
    fl_require(fl_is_apart(input, input_len * sizeof(uint8_t), output, 1024 * sizeof(uint8_t)), "fl_unpack_u8", "input does not overlap output");
    fl_unpack_u8(width, input, input_len, output);
}
#define fl_unpack_u8 fl_checked_unpack_u8

static inline void fl_checked_pack_blocks_u8(size_t width, size_t count, const uint8_t *input, size_t input_len, uint8_t *output, size_t output_len) {
    fl_require(input != NULL || input_len == 0, "fl_pack_blocks_u8", "input is not null");
    fl_require(output != NULL || output_len == 0, "fl_pack_blocks_u8", "output is not null");
    fl_require(width <= 8, "fl_pack_blocks_u8", "width <= 8");
    fl_require(fl_is_product(input_len, 1024, count), "fl_pack_blocks_u8", "input_len == 1024 * count");
    fl_require(fl_is_product(output_len, 128 * width, count), "fl_pack_blocks_u8", "output_len == 128 * width * count");
    fl_require(fl_is_apart(input, input_len * sizeof(uint8_t), output, output_len * sizeof(uint8_t)), "fl_pack_blocks_u8", "input does not overlap output");
    fl_pack_blocks_u8(width, count, input, input_len, output, output_len);
}
#define fl_pack_blocks_u8 fl_checked_pack_blocks_u8

static inline void fl_checked_unpack_blocks_u8(size_t width, size_t count, const uint8_t *input, size_t input_len, uint8_t *output, size_t output_len) {
    fl_require(input != NULL || input_len == 0, "fl_unpack_blocks_u8", "input is not null");
    fl_require(output != NULL || output_len == 0, "fl_unpack_blocks_u8", "output is not null");
    fl_require(width <= 8, "fl_unpack_blocks_u8", "width <= 8");
    fl_require(fl_is_product(input_len, 128 * width, count), "fl_unpack_blocks_u8", "input_len == 128 * width * count");
    fl_require(fl_is_product(output_len, 1024, count), "fl_unpack_blocks_u8", "output_len == 1024 * count");
    fl_require(fl_is_apart(input, input_len * sizeof(uint8_t), output, output_len * sizeof(uint8_t)), "fl_unpack_blocks_u8", "input does not overlap output");
    fl_unpack_blocks_u8(width, count, input, input_len, output, output_len);
}
#define fl_unpack_blocks_u8 fl_checked_unpack_blocks_u8

static inline uint8_t fl_checked_unpack_single_u8(size_t width, const uint8_t *input, size_t input_len, size_t index) {
    fl_require(input != NULL || input_len == 0, "fl_unpack_single_u8", "input is not null");
    fl_require(width <= 8, "fl_unpack_single_u8", "width <= 8");
    fl_require(input_len == 128 * width, "fl_unpack_single_u8", "input_len == 128 * width");
    fl_require(width == 0 || index < 1024, "fl_unpack_single_u8", "width == 0 || index < 1024");
    return fl_unpack_single_u8(width, input, input_len, index);
}
#define fl_unpack_single_u8 fl_checked_unpack_single_u8

static inline void fl_checked_unpack_indices_u8(size_t width, const uint8_t *input, size_t input_len, const size_t *indices, size_t indices_len, uint8_t *output, size_t output_len) {
    fl_require(input != NULL || input_len == 0, "fl_unpack_indices_u8", "input is not null");
    fl_require(indices != NULL || indices_len == 0, "fl_unpack_indices_u8", "indices is not null");
    fl_require(fl_is_aligned(indices, sizeof(size_t)), "fl_unpack_indices_u8", "indices is aligned");
    fl_require(output != NULL || output_len == 0, "fl_unpack_indices_u8", "output is not null");
    fl_require(width <= 8, "fl_unpack_indices_u8", "width <= 8");
    fl_require(input_len == 128 * width, "fl_unpack_indices_u8", "input_len == 128 * width");
    fl_require(width == 0 || fl_are_below(indices, indices_len, 1024), "fl_unpack_indices_u8", "width == 0 || indices[k] < 1024 for each k");
    fl_require(output_len == indices_len, "fl_unpack_indices_u8", "output_len == indices_len");
    fl_require(fl_is_apart(input, input_len * sizeof(uint8_t), output, output_len * sizeof(uint8_t)), "fl_unpack_indices_u8", "input does not overlap output");
    fl_require(fl_is_apart(indices, indices_len * sizeof(size_t), output, output_len * sizeof(uint8_t)), "fl_unpack_indices_u8", "indices does not overlap output");
    fl_unpack_indices_u8(width, input, input_len, indices, indices_len, output, output_len);
}
#define fl_unpack_indices_u8 fl_checked_unpack_indices_u8

static inline uint64_t fl_checked_unpack_sum_u8(size_t width, const uint8_t *input, size_t input_len) {
    fl_require(input != NULL || input_len == 0, "fl_unpack_sum_u8", "input is not null");
    fl_require(width <= 8, "fl_unpack_sum_u8", "width <= 8");
    fl_require(input_len == 128 * width, "fl_unpack_sum_u8", "input_len == 128 * width");
    return fl_unpack_sum_u8(width, input, input_len);
}
#define fl_unpack_sum_u8 fl_checked_unpack_sum_u8

static inline void fl_checked_unpack_range_u8(size_t width, const uint8_t *input, size_t input_len, uint8_t *minimum, uint8_t *maximum) {
    fl_require(input != NULL || input_len == 0, "fl_unpack_range_u8", "input is not null");
    fl_require(minimum != NULL, "fl_unpack_range_u8", "minimum is not null");
    fl_require(maximum != NULL, "fl_unpack_range_u8", "maximum is not null");
    fl_require(width <= 8, "fl_unpack_range_u8", "width <= 8");
    fl_require(input_len == 128 * width, "fl_unpack_range_u8", "input_len == 128 * width");
    fl_require(fl_is_apart(input, input_len * sizeof(uint8_t), minimum, sizeof(uint8_t)), "fl_unpack_range_u8", "input does not overlap minimum");
    fl_require(fl_is_apart(input, input_len * sizeof(uint8_t), maximum, sizeof(uint8_t)), "fl_unpack_range_u8", "input does not overlap maximum");
    fl_require(fl_is_apart(minimum, sizeof(uint8_t), maximum, sizeof(uint8_t)), "fl_unpack_range_u8", "minimum does not overlap maximum");
    fl_unpack_range_u8(width, input, input_len, minimum, maximum);
}
#define fl_unpack_range_u8 fl_checked_unpack_range_u8

static inline void fl_checked_for_pack_u8(size_t width, const uint8_t input[1024], uint8_t reference, uint8_t *output, size_t output_len) {
    fl_require(input != NULL, "fl_for_pack_u8", "input is not null");
    fl_require(output != NULL || output_len == 0, "fl_for_pack_u8", "output is not null");
    fl_require(width <= 8, "fl_for_pack_u8", "width <= 8");
    fl_require(output_len == 128 * width, "fl_for_pack_u8", "output_len == 128 * width");
    fl_require(fl_is_apart(input, 1024 * sizeof(uint8_t), output, output_len * sizeof(uint8_t)), "fl_for_pack_u8", "input does not overlap output");
    fl_for_pack_u8(width, input, reference, output, output_len);
}
#define fl_for_pack_u8 fl_checked_for_pack_u8

static inline void fl_checked_unfor_pack_u8(size_t width, const uint8_t *input, size_t input_len, uint8_t reference, uint8_t output[1024]) {
    fl_require(input != NULL || input_len == 0, "fl_unfor_pack_u8", "input is not null");
    fl_require(output != NULL, "fl_unfor_pack_u8", "output is not null");
    fl_require(width <= 8, "fl_unfor_pack_u8", "width <= 8");
    fl_require(input_len == 128 * width, "fl_unfor_pack_u8", "input_len == 128 * width");
    fl_require(fl_is_apart(input, input_len * sizeof(uint8_t), output, 1024 * sizeof(uint8_t)), "fl_unfor_pack_u8", "input does not overlap output");
    fl_unfor_pack_u8(width, input, input_len, reference, output);
}
#define fl_unfor_pack_u8 fl_checked_unfor_pack_u8

static inline size_t fl_checked_frame_head_u8(const uint8_t input[1024], uint8_t *reference) {
    fl_require(input != NULL, "fl_frame_head_u8", "input is not null");
    fl_require(reference != NULL, "fl_frame_head_u8", "reference is not null");
    fl_require(fl_is_apart(input, 1024 * sizeof(uint8_t), reference, sizeof(uint8_t)), "fl_frame_head_u8", "input does not overlap reference");
    return fl_frame_head_u8(input, reference);
}
#define fl_frame_head_u8 fl_checked_frame_head_u8

static inline uint8_t fl_checked_frame_get_u8(size_t width, uint8_t reference, const uint8_t *input, size_t input_len, size_t index) {
    fl_require(input != NULL || input_len == 0, "fl_frame_get_u8", "input is not null");
    fl_require(width <= 8, "fl_frame_get_u8", "width <= 8");
    fl_require(input_len == 128 * width, "fl_frame_get_u8", "input_len == 128 * width");
    fl_require(index < 1024, "fl_frame_get_u8", "index < 1024");
    return fl_frame_get_u8(width, reference, input, input_len, index);
}
#define fl_frame_get_u8 fl_checked_frame_get_u8

static inline void fl_checked_delta_u8(const uint8_t input[1024], const uint8_t base[128], uint8_t output[1024]) {
    fl_require(input != NULL, "fl_delta_u8", "input is not null");
    fl_require(base != NULL, "fl_delta_u8", "base is not null");
    fl_require(output != NULL, "fl_delta_u8", "output is not null");
    fl_require(fl_is_apart(input, 1024 * sizeof(uint8_t), output, 1024 * sizeof(uint8_t)), "fl_delta_u8", "input does not overlap output");
    fl_require(fl_is_apart(base, 128 * sizeof(uint8_t), output, 1024 * sizeof(uint8_t)), "fl_delta_u8", "base does not overlap output");
    fl_delta_u8(input, base, output);
}
#define fl_delta_u8 fl_checked_delta_u8

static inline void fl_checked_undelta_u8(const uint8_t input[1024], const uint8_t base[128], uint8_t output[1024]) {
    fl_require(input != NULL, "fl_undelta_u8", "input is not null");
    fl_require(base != NULL, "fl_undelta_u8", "base is not null");
    fl_require(output != NULL, "fl_undelta_u8", "output is not null");
    fl_require(fl_is_apart(input, 1024 * sizeof(uint8_t), output, 1024 * sizeof(uint8_t)), "fl_undelta_u8", "input does not overlap output");
    fl_require(fl_is_apart(base, 128 * sizeof(uint8_t), output, 1024 * sizeof(uint8_t)), "fl_undelta_u8", "base does not overlap output");
    fl_undelta_u8(input, base, output);
}
#define fl_undelta_u8 fl_checked_undelta_u8

static inline void fl_checked_undelta_pack_u8(size_t width, const uint8_t *input, size_t input_len, const uint8_t base[128], uint8_t output[1024]) {
    fl_require(input != NULL || input_len == 0, "fl_undelta_pack_u8", "input is not null");
    fl_require(base != NULL, "fl_undelta_pack_u8", "base is not null");
    fl_require(output != NULL, "fl_undelta_pack_u8", "output is not null");
    fl_require(width <= 8, "fl_undelta_pack_u8", "width <= 8");
    fl_require(input_len == 128 * width, "fl_undelta_pack_u8", "input_len == 128 * width");
    fl_require(fl_is_apart(input, input_len * sizeof(uint8_t), output, 1024 * sizeof(uint8_t)), "fl_undelta_pack_u8", "input does not overlap output");
    fl_require(fl_is_apart(base, 128 * sizeof(uint8_t), output, 1024 * sizeof(uint8_t)), "fl_undelta_pack_u8", "base does not overlap output");
    fl_undelta_pack_u8(width, input, input_len, base, output);
}
#define fl_undelta_pack_u8 fl_checked_undelta_pack_u8

static inline size_t fl_checked_delta_width_u8(const uint8_t input[1024], const uint8_t base[128]) {
    fl_require(input != NULL, "fl_delta_width_u8", "input is not null");
    fl_require(base != NULL, "fl_delta_width_u8", "base is not null");
    return fl_delta_width_u8(input, base);
}
#define fl_delta_width_u8 fl_checked_delta_width_u8

static inline void fl_checked_delta_write_u8(size_t width, const uint8_t input[1024], const uint8_t base[128], uint8_t *output, size_t output_len) {
    fl_require(input != NULL, "fl_delta_write_u8", "input is not null");
    fl_require(base != NULL, "fl_delta_write_u8", "base is not null");
    fl_require(output != NULL || output_len == 0, "fl_delta_write_u8", "output is not null");
    fl_require(width <= 8, "fl_delta_write_u8", "width <= 8");
    fl_require(output_len == 128 * width, "fl_delta_write_u8", "output_len == 128 * width");
    fl_require(fl_is_apart(input, 1024 * sizeof(uint8_t), output, output_len * sizeof(uint8_t)), "fl_delta_write_u8", "input does not overlap output");
    fl_require(fl_is_apart(base, 128 * sizeof(uint8_t), output, output_len * sizeof(uint8_t)), "fl_delta_write_u8", "base does not overlap output");
    fl_delta_write_u8(width, input, base, output, output_len);
}
#define fl_delta_write_u8 fl_checked_delta_write_u8

static inline void fl_checked_delta_read_u8(size_t width, const uint8_t *input, size_t input_len, const uint8_t base[128], uint8_t output[1024]) {
    fl_require(input != NULL || input_len == 0, "fl_delta_read_u8", "input is not null");
    fl_require(base != NULL, "fl_delta_read_u8", "base is not null");
    fl_require(output != NULL, "fl_delta_read_u8", "output is not null");
    fl_require(width <= 8, "fl_delta_read_u8", "width <= 8");
    fl_require(input_len == 128 * width, "fl_delta_read_u8", "input_len == 128 * width");
    fl_require(fl_is_apart(input, input_len * sizeof(uint8_t), output, 1024 * sizeof(uint8_t)), "fl_delta_read_u8", "input does not overlap output");
    fl_require(fl_is_apart(base, 128 * sizeof(uint8_t), output, 1024 * sizeof(uint8_t)), "fl_delta_read_u8", "base does not overlap output");
    fl_delta_read_u8(width, input, input_len, base, output);
}
#define fl_delta_read_u8 fl_checked_delta_read_u8

static inline void fl_checked_transpose_u8(const uint8_t input[1024], uint8_t output[1024]) {
    fl_require(input != NULL, "fl_transpose_u8", "input is not null");
    fl_require(output != NULL, "fl_transpose_u8", "output is not null");
    fl_require(fl_is_apart(input, 1024 * sizeof(uint8_t), output, 1024 * sizeof(uint8_t)), "fl_transpose_u8", "input does not overlap output");
    fl_transpose_u8(input, output);
}
#define fl_transpose_u8 fl_checked_transpose_u8

static inline void fl_checked_untranspose_u8(const uint8_t input[1024], uint8_t output[1024]) {
    fl_require(input != NULL, "fl_untranspose_u8", "input is not null");
    fl_require(output != NULL, "fl_untranspose_u8", "output is not null");
    fl_require(fl_is_apart(input, 1024 * sizeof(uint8_t), output, 1024 * sizeof(uint8_t)), "fl_untranspose_u8", "input does not overlap output");
    fl_untranspose_u8(input, output);
}
#define fl_untranspose_u8 fl_checked_untranspose_u8

static inline void fl_checked_transpose_bits_u8(const uint64_t input[16], uint64_t output[16]) {
    fl_require(input != NULL, "fl_transpose_bits_u8", "input is not null");
    fl_require(fl_is_aligned(input, sizeof(uint64_t)), "fl_transpose_bits_u8", "input is aligned");
    fl_require(output != NULL, "fl_transpose_bits_u8", "output is not null");
    fl_require(fl_is_aligned(output, sizeof(uint64_t)), "fl_transpose_bits_u8", "output is aligned");
    fl_require(fl_is_apart(input, 16 * sizeof(uint64_t), output, 16 * sizeof(uint64_t)), "fl_transpose_bits_u8", "input does not overlap output");
    fl_transpose_bits_u8(input, output);
}
#define fl_transpose_bits_u8 fl_checked_transpose_bits_u8

static inline void fl_checked_untranspose_bits_u8(const uint64_t input[16], uint64_t output[16]) {
    fl_require(input != NULL, "fl_untranspose_bits_u8", "input is not null");
    fl_require(fl_is_aligned(input, sizeof(uint64_t)), "fl_untranspose_bits_u8", "input is aligned");
    fl_require(output != NULL, "fl_untranspose_bits_u8", "output is not null");
    fl_require(fl_is_aligned(output, sizeof(uint64_t)), "fl_untranspose_bits_u8", "output is aligned");
    fl_require(fl_is_apart(input, 16 * sizeof(uint64_t), output, 16 * sizeof(uint64_t)), "fl_untranspose_bits_u8", "input does not overlap output");
    fl_untranspose_bits_u8(input, output);
}
#define fl_untranspose_bits_u8 fl_checked_untranspose_bits_u8

static inline size_t fl_checked_rle_encode_u8(const uint8_t input[1024], uint8_t values[1024], uint16_t indices[1024]) {
    fl_require(input != NULL, "fl_rle_encode_u8", "input is not null");
    fl_require(values != NULL, "fl_rle_encode_u8", "values is not null");
    fl_require(indices != NULL, "fl_rle_encode_u8", "indices is not null");
    fl_require(fl_is_aligned(indices, sizeof(uint16_t)), "fl_rle_encode_u8", "indices is aligned");
    fl_require(fl_is_apart(input, 1024 * sizeof(uint8_t), values, 1024 * sizeof(uint8_t)), "fl_rle_encode_u8", "input does not overlap values");
    fl_require(fl_is_apart(input, 1024 * sizeof(uint8_t), indices, 1024 * sizeof(uint16_t)), "fl_rle_encode_u8", "input does not overlap indices");
    fl_require(fl_is_apart(values, 1024 * sizeof(uint8_t), indices, 1024 * sizeof(uint16_t)), "fl_rle_encode_u8", "values does not overlap indices");
    return fl_rle_encode_u8(input, values, indices);
}
#define fl_rle_encode_u8 fl_checked_rle_encode_u8

static inline void fl_checked_rle_decode_u8(const uint8_t *values, size_t values_len, const uint16_t indices[1024], uint8_t output[1024]) {
    fl_require(values != NULL || values_len == 0, "fl_rle_decode_u8", "values is not null");
    fl_require(indices != NULL, "fl_rle_decode_u8", "indices is not null");
    fl_require(fl_is_aligned(indices, sizeof(uint16_t)), "fl_rle_decode_u8", "indices is aligned");
    fl_require(output != NULL, "fl_rle_decode_u8", "output is not null");
    fl_require(fl_are_below_16(indices, 1024, values_len), "fl_rle_decode_u8", "indices[k] < values_len for each k");
    fl_require(fl_is_apart(values, values_len * sizeof(uint8_t), output, 1024 * sizeof(uint8_t)), "fl_rle_decode_u8", "values does not overlap output");
    fl_require(fl_is_apart(indices, 1024 * sizeof(uint16_t), output, 1024 * sizeof(uint8_t)), "fl_rle_decode_u8", "indices does not overlap output");
    fl_rle_decode_u8(values, values_len, indices, output);
}
#define fl_rle_decode_u8 fl_checked_rle_decode_u8

static inline void fl_checked_unpack_cmp_u8(size_t width, const uint8_t *input, size_t input_len, uint32_t comparison, uint8_t value, uint64_t mask[16]) {
    fl_require(input != NULL || input_len == 0, "fl_unpack_cmp_u8", "input is not null");
    fl_require(mask != NULL, "fl_unpack_cmp_u8", "mask is not null");
    fl_require(fl_is_aligned(mask, sizeof(uint64_t)), "fl_unpack_cmp_u8", "mask is aligned");
    fl_require(width <= 8, "fl_unpack_cmp_u8", "width <= 8");
    fl_require(input_len == 128 * width, "fl_unpack_cmp_u8", "input_len == 128 * width");
    fl_require(comparison <= FL_GE, "fl_unpack_cmp_u8", "comparison <= FL_GE");
    fl_require(fl_is_apart(input, input_len * sizeof(uint8_t), mask, 16 * sizeof(uint64_t)), "fl_unpack_cmp_u8", "input does not overlap mask");
    fl_unpack_cmp_u8(width, input, input_len, comparison, value, mask);
}
#define fl_unpack_cmp_u8 fl_checked_unpack_cmp_u8

static inline void fl_checked_unpack_filter_u8(size_t width, const uint8_t *input, size_t input_len, uint32_t comparison, uint8_t value, uint64_t mask[16]) {
    fl_require(input != NULL || input_len == 0, "fl_unpack_filter_u8", "input is not null");
    fl_require(mask != NULL, "fl_unpack_filter_u8", "mask is not null");
    fl_require(fl_is_aligned(mask, sizeof(uint64_t)), "fl_unpack_filter_u8", "mask is aligned");
    fl_require(width <= 8, "fl_unpack_filter_u8", "width <= 8");
    fl_require(input_len == 128 * width, "fl_unpack_filter_u8", "input_len == 128 * width");
    fl_require(comparison <= FL_GE, "fl_unpack_filter_u8", "comparison <= FL_GE");
    fl_require(fl_is_apart(input, input_len * sizeof(uint8_t), mask, 16 * sizeof(uint64_t)), "fl_unpack_filter_u8", "input does not overlap mask");
    fl_unpack_filter_u8(width, input, input_len, comparison, value, mask);
}
#define fl_unpack_filter_u8 fl_checked_unpack_filter_u8

static inline void fl_checked_unpack_cmp_i8(size_t width, const uint8_t *input, size_t input_len, uint32_t comparison, int8_t value, uint64_t mask[16]) {
    fl_require(input != NULL || input_len == 0, "fl_unpack_cmp_i8", "input is not null");
    fl_require(mask != NULL, "fl_unpack_cmp_i8", "mask is not null");
    fl_require(fl_is_aligned(mask, sizeof(uint64_t)), "fl_unpack_cmp_i8", "mask is aligned");
    fl_require(width <= 8, "fl_unpack_cmp_i8", "width <= 8");
    fl_require(input_len == 128 * width, "fl_unpack_cmp_i8", "input_len == 128 * width");
    fl_require(comparison <= FL_GE, "fl_unpack_cmp_i8", "comparison <= FL_GE");
    fl_require(fl_is_apart(input, input_len * sizeof(uint8_t), mask, 16 * sizeof(uint64_t)), "fl_unpack_cmp_i8", "input does not overlap mask");
    fl_unpack_cmp_i8(width, input, input_len, comparison, value, mask);
}
#define fl_unpack_cmp_i8 fl_checked_unpack_cmp_i8

static inline void fl_checked_unpack_filter_i8(size_t width, const uint8_t *input, size_t input_len, uint32_t comparison, int8_t value, uint64_t mask[16]) {
    fl_require(input != NULL || input_len == 0, "fl_unpack_filter_i8", "input is not null");
    fl_require(mask != NULL, "fl_unpack_filter_i8", "mask is not null");
    fl_require(fl_is_aligned(mask, sizeof(uint64_t)), "fl_unpack_filter_i8", "mask is aligned");
    fl_require(width <= 8, "fl_unpack_filter_i8", "width <= 8");
    fl_require(input_len == 128 * width, "fl_unpack_filter_i8", "input_len == 128 * width");
    fl_require(comparison <= FL_GE, "fl_unpack_filter_i8", "comparison <= FL_GE");
    fl_require(fl_is_apart(input, input_len * sizeof(uint8_t), mask, 16 * sizeof(uint64_t)), "fl_unpack_filter_i8", "input does not overlap mask");
    fl_unpack_filter_i8(width, input, input_len, comparison, value, mask);
}
#define fl_unpack_filter_i8 fl_checked_unpack_filter_i8

static inline size_t fl_checked_column_encode_u8(const uint8_t *values, size_t values_len, uint32_t flags, uint8_t *bytes, size_t bytes_len) {
    fl_require(values != NULL || values_len == 0, "fl_column_encode_u8", "values is not null");
    fl_require(bytes != NULL || bytes_len == 0, "fl_column_encode_u8", "bytes is not null");
    fl_require(fl_is_apart(values, values_len * sizeof(uint8_t), bytes, bytes_len * sizeof(uint8_t)), "fl_column_encode_u8", "values does not overlap bytes");
    return fl_column_encode_u8(values, values_len, flags, bytes, bytes_len);
}
#define fl_column_encode_u8 fl_checked_column_encode_u8

static inline uint32_t fl_checked_column_decode_u8(const uint8_t *bytes, size_t bytes_len, uint8_t *values, size_t values_len, size_t *count, size_t *error_offset) {
    fl_require(bytes != NULL || bytes_len == 0, "fl_column_decode_u8", "bytes is not null");
    fl_require(values != NULL || values_len == 0, "fl_column_decode_u8", "values is not null");
    fl_require(count != NULL, "fl_column_decode_u8", "count is not null");
    fl_require(fl_is_aligned(count, sizeof(size_t)), "fl_column_decode_u8", "count is aligned");
    fl_require(error_offset != NULL, "fl_column_decode_u8", "error_offset is not null");
    fl_require(fl_is_aligned(error_offset, sizeof(size_t)), "fl_column_decode_u8", "error_offset is aligned");
    fl_require(fl_is_apart(bytes, bytes_len * sizeof(uint8_t), values, values_len * sizeof(uint8_t)), "fl_column_decode_u8", "bytes does not overlap values");
    fl_require(fl_is_apart(bytes, bytes_len * sizeof(uint8_t), count, sizeof(size_t)), "fl_column_decode_u8", "bytes does not overlap count");
    fl_require(fl_is_apart(bytes, bytes_len * sizeof(uint8_t), error_offset, sizeof(size_t)), "fl_column_decode_u8", "bytes does not overlap error_offset");
    fl_require(fl_is_apart(values, values_len * sizeof(uint8_t), count, sizeof(size_t)), "fl_column_decode_u8", "values does not overlap count");
    fl_require(fl_is_apart(values, values_len * sizeof(uint8_t), error_offset, sizeof(size_t)), "fl_column_decode_u8", "values does not overlap error_offset");
    fl_require(fl_is_apart(count, sizeof(size_t), error_offset, sizeof(size_t)), "fl_column_decode_u8", "count does not overlap error_offset");
    return fl_column_decode_u8(bytes, bytes_len, values, values_len, count, error_offset);
}
#define fl_column_decode_u8 fl_checked_column_decode_u8

static inline uint32_t fl_checked_column_open_u8(const uint8_t *bytes, size_t bytes_len, uint32_t flags, fl_column_u8 *column, size_t *error_offset) {
    fl_require(bytes != NULL || bytes_len == 0, "fl_column_open_u8", "bytes is not null");
    fl_require(column != NULL, "fl_column_open_u8", "column is not null");
    fl_require(fl_is_aligned(column, sizeof(void *)), "fl_column_open_u8", "column is aligned");
    fl_require(error_offset != NULL, "fl_column_open_u8", "error_offset is not null");
    fl_require(fl_is_aligned(error_offset, sizeof(size_t)), "fl_column_open_u8", "error_offset is aligned");
    fl_require(fl_is_apart(bytes, bytes_len * sizeof(uint8_t), column, sizeof(fl_column_u8)), "fl_column_open_u8", "bytes does not overlap column");
    fl_require(fl_is_apart(bytes, bytes_len * sizeof(uint8_t), error_offset, sizeof(size_t)), "fl_column_open_u8", "bytes does not overlap error_offset");
    fl_require(fl_is_apart(column, sizeof(fl_column_u8), error_offset, sizeof(size_t)), "fl_column_open_u8", "column does not overlap error_offset");
    return fl_column_open_u8(bytes, bytes_len, flags, column, error_offset);
}
#define fl_column_open_u8 fl_checked_column_open_u8

static inline uint64_t fl_checked_column_len_u8(const fl_column_u8 *column) {
    fl_require(column != NULL, "fl_column_len_u8", "column is not null");
    fl_require(fl_is_aligned(column, sizeof(void *)), "fl_column_len_u8", "column is aligned");
    fl_require(fl_is_open(column->bytes, column->bytes_len, 8), "fl_column_len_u8", "column was filled by fl_column_open_u8");
    return fl_column_len_u8(column);
}
#define fl_column_len_u8 fl_checked_column_len_u8

static inline uint8_t fl_checked_column_get_u8(const fl_column_u8 *column, uint64_t index) {
    fl_require(column != NULL, "fl_column_get_u8", "column is not null");
    fl_require(fl_is_aligned(column, sizeof(void *)), "fl_column_get_u8", "column is aligned");
    fl_require(fl_is_open(column->bytes, column->bytes_len, 8), "fl_column_get_u8", "column was filled by fl_column_open_u8");
    fl_require(index < column->len, "fl_column_get_u8", "index < fl_column_len_u8(column)");
    return fl_column_get_u8(column, index);
}
#define fl_column_get_u8 fl_checked_column_get_u8

static inline void fl_checked_column_read_u8(const fl_column_u8 *column, uint64_t start, uint8_t *values, size_t values_len) {
    fl_require(column != NULL, "fl_column_read_u8", "column is not null");
    fl_require(fl_is_aligned(column, sizeof(void *)), "fl_column_read_u8", "column is aligned");
    fl_require(values != NULL || values_len == 0, "fl_column_read_u8", "values is not null");
    fl_require(fl_is_open(column->bytes, column->bytes_len, 8), "fl_column_read_u8", "column was filled by fl_column_open_u8");
    fl_require(start <= column->len && values_len <= column->len - start, "fl_column_read_u8", "start + values_len <= fl_column_len_u8(column)");
    fl_require(fl_is_apart(column, sizeof(fl_column_u8), values, values_len * sizeof(uint8_t)), "fl_column_read_u8", "column does not overlap values");
    fl_require(fl_is_apart(values, values_len * sizeof(uint8_t), column->bytes, column->bytes_len), "fl_column_read_u8", "values does not overlap the bytes of column");
    fl_column_read_u8(column, start, values, values_len);
}
#define fl_column_read_u8 fl_checked_column_read_u8

static inline uint64_t fl_checked_column_filter_u8(const fl_column_u8 *column, uint32_t comparison, uint8_t value, uint64_t *mask, size_t mask_len) {
    fl_require(column != NULL, "fl_column_filter_u8", "column is not null");
    fl_require(fl_is_aligned(column, sizeof(void *)), "fl_column_filter_u8", "column is aligned");
    fl_require(mask != NULL || mask_len == 0, "fl_column_filter_u8", "mask is not null");
    fl_require(fl_is_aligned(mask, sizeof(uint64_t)), "fl_column_filter_u8", "mask is aligned");
    fl_require(fl_is_open(column->bytes, column->bytes_len, 8), "fl_column_filter_u8", "column was filled by fl_column_open_u8");
    fl_require(comparison <= FL_GE, "fl_column_filter_u8", "comparison <= FL_GE");
    fl_require(mask_len == column->len / 64 + (column->len % 64 != 0), "fl_column_filter_u8", "mask_len == (fl_column_len_u8(column) + 63) / 64");
    fl_require(fl_is_apart(column, sizeof(fl_column_u8), mask, mask_len * sizeof(uint64_t)), "fl_column_filter_u8", "column does not overlap mask");
    fl_require(fl_is_apart(mask, mask_len * sizeof(uint64_t), column->bytes, column->bytes_len), "fl_column_filter_u8", "mask does not overlap the bytes of column");
    return fl_column_filter_u8(column, comparison, value, mask, mask_len);
}
#define fl_column_filter_u8 fl_checked_column_filter_u8

static inline uint64_t fl_checked_column_count_u8(const fl_column_u8 *column, uint32_t comparison, uint8_t value) {
    fl_require(column != NULL, "fl_column_count_u8", "column is not null");
    fl_require(fl_is_aligned(column, sizeof(void *)), "fl_column_count_u8", "column is aligned");
    fl_require(fl_is_open(column->bytes, column->bytes_len, 8), "fl_column_count_u8", "column was filled by fl_column_open_u8");
    fl_require(comparison <= FL_GE, "fl_column_count_u8", "comparison <= FL_GE");
    return fl_column_count_u8(column, comparison, value);
}
#define fl_column_count_u8 fl_checked_column_count_u8

static inline void fl_checked_pack_u16(size_t width, const uint16_t input[1024], uint16_t *output, size_t output_len) {
    fl_require(input != NULL, "fl_pack_u16", "input is not null");
    fl_require(fl_is_aligned(input, sizeof(uint16_t)), "fl_pack_u16", "input is aligned");
    fl_require(output != NULL || output_len == 0, "fl_pack_u16", "output is not null");
    fl_require(fl_is_aligned(output, sizeof(uint16_t)), "fl_pack_u16", "output is aligned");
    fl_require(width <= 16, "fl_pack_u16", "width <= 16");
    fl_require(output_len == 64 * width, "fl_pack_u16", "output_len == 64 * width");
    fl_require(fl_is_apart(input, 1024 * sizeof(uint16_t), output, output_len * sizeof(uint16_t)), "fl_pack_u16", "input does not overlap output");
    fl_pack_u16(width, input, output, output_len);
}
#define fl_pack_u16 fl_checked_pack_u16

static inline void fl_checked_unpack_u16(size_t width, const uint16_t *input, size_t input_len, uint16_t output[1024]) {
    fl_require(input != NULL || input_len == 0, "fl_unpack_u16", "input is not null");
    fl_require(fl_is_aligned(input, sizeof(uint16_t)), "fl_unpack_u16", "input is aligned");
    fl_require(output != NULL, "fl_unpack_u16", "output is not null");
    fl_require(fl_is_aligned(output, sizeof(uint16_t)), "fl_unpack_u16", "output is aligned");
    fl_require(width <= 16, "fl_unpack_u16", "width <= 16");
    fl_require(input_len == 64 * width, "fl_unpack_u16", "input_len == 64 * width");
    fl_require(fl_is_apart(input, input_len * sizeof(uint16_t), output, 1024 * sizeof(uint16_t)), "fl_unpack_u16", "input does not overlap output");
    fl_unpack_u16(width, input, input_len, output);
}
#define fl_unpack_u16 fl_checked_unpack_u16

static inline void fl_checked_pack_blocks_u16(size_t width, size_t count, const uint16_t *input, size_t input_len, uint16_t *output, size_t output_len) {
    fl_require(input != NULL || input_len == 0, "fl_pack_blocks_u16", "input is not null");
    fl_require(fl_is_aligned(input, sizeof(uint16_t)), "fl_pack_blocks_u16", "input is aligned");
    fl_require(output != NULL || output_len == 0, "fl_pack_blocks_u16", "output is not null");
    fl_require(fl_is_aligned(output, sizeof(uint16_t)), "fl_pack_blocks_u16", "output is aligned");
    fl_require(width <= 16, "fl_pack_blocks_u16", "width <= 16");
    fl_require(fl_is_product(input_len, 1024, count), "fl_pack_blocks_u16", "input_len == 1024 * count");
    fl_require(fl_is_product(output_len, 64 * width, count), "fl_pack_blocks_u16", "output_len == 64 * width * count");
    fl_require(fl_is_apart(input, input_len * sizeof(uint16_t), output, output_len * sizeof(uint16_t)), "fl_pack_blocks_u16", "input does not overlap output");
    fl_pack_blocks_u16(width, count, input, input_len, output, output_len);
}
#define fl_pack_blocks_u16 fl_checked_pack_blocks_u16

static inline void fl_checked_unpack_blocks_u16(size_t width, size_t count, const uint16_t *input, size_t input_len, uint16_t *output, size_t output_len) {
    fl_require(input != NULL || input_len == 0, "fl_unpack_blocks_u16", "input is not null");
    fl_require(fl_is_aligned(input, sizeof(uint16_t)), "fl_unpack_blocks_u16", "input is aligned");
    fl_require(output != NULL || output_len == 0, "fl_unpack_blocks_u16", "output is not null");
    fl_require(fl_is_aligned(output, sizeof(uint16_t)), "fl_unpack_blocks_u16", "output is aligned");
    fl_require(width <= 16, "fl_unpack_blocks_u16", "width <= 16");
    fl_require(fl_is_product(input_len, 64 * width, count), "fl_unpack_blocks_u16", "input_len == 64 * width * count");
    fl_require(fl_is_product(output_len, 1024, count), "fl_unpack_blocks_u16", "output_len == 1024 * count");
    fl_require(fl_is_apart(input, input_len * sizeof(uint16_t), output, output_len * sizeof(uint16_t)), "fl_unpack_blocks_u16", "input does not overlap output");
    fl_unpack_blocks_u16(width, count, input, input_len, output, output_len);
}
#define fl_unpack_blocks_u16 fl_checked_unpack_blocks_u16

static inline uint16_t fl_checked_unpack_single_u16(size_t width, const uint16_t *input, size_t input_len, size_t index) {
    fl_require(input != NULL || input_len == 0, "fl_unpack_single_u16", "input is not null");
    fl_require(fl_is_aligned(input, sizeof(uint16_t)), "fl_unpack_single_u16", "input is aligned");
    fl_require(width <= 16, "fl_unpack_single_u16", "width <= 16");
    fl_require(input_len == 64 * width, "fl_unpack_single_u16", "input_len == 64 * width");
    fl_require(width == 0 || index < 1024, "fl_unpack_single_u16", "width == 0 || index < 1024");
    return fl_unpack_single_u16(width, input, input_len, index);
}
#define fl_unpack_single_u16 fl_checked_unpack_single_u16

static inline void fl_checked_unpack_indices_u16(size_t width, const uint16_t *input, size_t input_len, const size_t *indices, size_t indices_len, uint16_t *output, size_t output_len) {
    fl_require(input != NULL || input_len == 0, "fl_unpack_indices_u16", "input is not null");
    fl_require(fl_is_aligned(input, sizeof(uint16_t)), "fl_unpack_indices_u16", "input is aligned");
    fl_require(indices != NULL || indices_len == 0, "fl_unpack_indices_u16", "indices is not null");
    fl_require(fl_is_aligned(indices, sizeof(size_t)), "fl_unpack_indices_u16", "indices is aligned");
    fl_require(output != NULL || output_len == 0, "fl_unpack_indices_u16", "output is not null");
    fl_require(fl_is_aligned(output, sizeof(uint16_t)), "fl_unpack_indices_u16", "output is aligned");
    fl_require(width <= 16, "fl_unpack_indices_u16", "width <= 16");
    fl_require(input_len == 64 * width, "fl_unpack_indices_u16", "input_len == 64 * width");
    fl_require(width == 0 || fl_are_below(indices, indices_len, 1024), "fl_unpack_indices_u16", "width == 0 || indices[k] < 1024 for each k");
    fl_require(output_len == indices_len, "fl_unpack_indices_u16", "output_len == indices_len");
    fl_require(fl_is_apart(input, input_len * sizeof(uint16_t), output, output_len * sizeof(uint16_t)), "fl_unpack_indices_u16", "input does not overlap output");
    fl_require(fl_is_apart(indices, indices_len * sizeof(size_t), output, output_len * sizeof(uint16_t)), "fl_unpack_indices_u16", "indices does not overlap output");
    fl_unpack_indices_u16(width, input, input_len, indices, indices_len, output, output_len);
}
#define fl_unpack_indices_u16 fl_checked_unpack_indices_u16

static inline uint64_t fl_checked_unpack_sum_u16(size_t width, const uint16_t *input, size_t input_len) {
    fl_require(input != NULL || input_len == 0, "fl_unpack_sum_u16", "input is not null");
    fl_require(fl_is_aligned(input, sizeof(uint16_t)), "fl_unpack_sum_u16", "input is aligned");
    fl_require(width <= 16, "fl_unpack_sum_u16", "width <= 16");
    fl_require(input_len == 64 * width, "fl_unpack_sum_u16", "input_len == 64 * width");
    return fl_unpack_sum_u16(width, input, input_len);
}
#define fl_unpack_sum_u16 fl_checked_unpack_sum_u16

static inline void fl_checked_unpack_range_u16(size_t width, const uint16_t *input, size_t input_len, uint16_t *minimum, uint16_t *maximum) {
    fl_require(input != NULL || input_len == 0, "fl_unpack_range_u16", "input is not null");
    fl_require(fl_is_aligned(input, sizeof(uint16_t)), "fl_unpack_range_u16", "input is aligned");
    fl_require(minimum != NULL, "fl_unpack_range_u16", "minimum is not null");
    fl_require(fl_is_aligned(minimum, sizeof(uint16_t)), "fl_unpack_range_u16", "minimum is aligned");
    fl_require(maximum != NULL, "fl_unpack_range_u16", "maximum is not null");
    fl_require(fl_is_aligned(maximum, sizeof(uint16_t)), "fl_unpack_range_u16", "maximum is aligned");
    fl_require(width <= 16, "fl_unpack_range_u16", "width <= 16");
    fl_require(input_len == 64 * width, "fl_unpack_range_u16", "input_len == 64 * width");
    fl_require(fl_is_apart(input, input_len * sizeof(uint16_t), minimum, sizeof(uint16_t)), "fl_unpack_range_u16", "input does not overlap minimum");
    fl_require(fl_is_apart(input, input_len * sizeof(uint16_t), maximum, sizeof(uint16_t)), "fl_unpack_range_u16", "input does not overlap maximum");
    fl_require(fl_is_apart(minimum, sizeof(uint16_t), maximum, sizeof(uint16_t)), "fl_unpack_range_u16", "minimum does not overlap maximum");
    fl_unpack_range_u16(width, input, input_len, minimum, maximum);
}
#define fl_unpack_range_u16 fl_checked_unpack_range_u16

static inline void fl_checked_for_pack_u16(size_t width, const uint16_t input[1024], uint16_t reference, uint16_t *output, size_t output_len) {
    fl_require(input != NULL, "fl_for_pack_u16", "input is not null");
    fl_require(fl_is_aligned(input, sizeof(uint16_t)), "fl_for_pack_u16", "input is aligned");
    fl_require(output != NULL || output_len == 0, "fl_for_pack_u16", "output is not null");
    fl_require(fl_is_aligned(output, sizeof(uint16_t)), "fl_for_pack_u16", "output is aligned");
    fl_require(width <= 16, "fl_for_pack_u16", "width <= 16");
    fl_require(output_len == 64 * width, "fl_for_pack_u16", "output_len == 64 * width");
    fl_require(fl_is_apart(input, 1024 * sizeof(uint16_t), output, output_len * sizeof(uint16_t)), "fl_for_pack_u16", "input does not overlap output");
    fl_for_pack_u16(width, input, reference, output, output_len);
}
#define fl_for_pack_u16 fl_checked_for_pack_u16

static inline void fl_checked_unfor_pack_u16(size_t width, const uint16_t *input, size_t input_len, uint16_t reference, uint16_t output[1024]) {
    fl_require(input != NULL || input_len == 0, "fl_unfor_pack_u16", "input is not null");
    fl_require(fl_is_aligned(input, sizeof(uint16_t)), "fl_unfor_pack_u16", "input is aligned");
    fl_require(output != NULL, "fl_unfor_pack_u16", "output is not null");
    fl_require(fl_is_aligned(output, sizeof(uint16_t)), "fl_unfor_pack_u16", "output is aligned");
    fl_require(width <= 16, "fl_unfor_pack_u16", "width <= 16");
    fl_require(input_len == 64 * width, "fl_unfor_pack_u16", "input_len == 64 * width");
    fl_require(fl_is_apart(input, input_len * sizeof(uint16_t), output, 1024 * sizeof(uint16_t)), "fl_unfor_pack_u16", "input does not overlap output");
    fl_unfor_pack_u16(width, input, input_len, reference, output);
}
#define fl_unfor_pack_u16 fl_checked_unfor_pack_u16

static inline size_t fl_checked_frame_head_u16(const uint16_t input[1024], uint16_t *reference) {
    fl_require(input != NULL, "fl_frame_head_u16", "input is not null");
    fl_require(fl_is_aligned(input, sizeof(uint16_t)), "fl_frame_head_u16", "input is aligned");
    fl_require(reference != NULL, "fl_frame_head_u16", "reference is not null");
    fl_require(fl_is_aligned(reference, sizeof(uint16_t)), "fl_frame_head_u16", "reference is aligned");
    fl_require(fl_is_apart(input, 1024 * sizeof(uint16_t), reference, sizeof(uint16_t)), "fl_frame_head_u16", "input does not overlap reference");
    return fl_frame_head_u16(input, reference);
}
#define fl_frame_head_u16 fl_checked_frame_head_u16

static inline uint16_t fl_checked_frame_get_u16(size_t width, uint16_t reference, const uint16_t *input, size_t input_len, size_t index) {
    fl_require(input != NULL || input_len == 0, "fl_frame_get_u16", "input is not null");
    fl_require(fl_is_aligned(input, sizeof(uint16_t)), "fl_frame_get_u16", "input is aligned");
    fl_require(width <= 16, "fl_frame_get_u16", "width <= 16");
    fl_require(input_len == 64 * width, "fl_frame_get_u16", "input_len == 64 * width");
    fl_require(index < 1024, "fl_frame_get_u16", "index < 1024");
    return fl_frame_get_u16(width, reference, input, input_len, index);
}
#define fl_frame_get_u16 fl_checked_frame_get_u16

static inline void fl_checked_delta_u16(const uint16_t input[1024], const uint16_t base[64], uint16_t output[1024]) {
    fl_require(input != NULL, "fl_delta_u16", "input is not null");
    fl_require(fl_is_aligned(input, sizeof(uint16_t)), "fl_delta_u16", "input is aligned");
    fl_require(base != NULL, "fl_delta_u16", "base is not null");
    fl_require(fl_is_aligned(base, sizeof(uint16_t)), "fl_delta_u16", "base is aligned");
    fl_require(output != NULL, "fl_delta_u16", "output is not null");
    fl_require(fl_is_aligned(output, sizeof(uint16_t)), "fl_delta_u16", "output is aligned");
    fl_require(fl_is_apart(input, 1024 * sizeof(uint16_t), output, 1024 * sizeof(uint16_t)), "fl_delta_u16", "input does not overlap output");
    fl_require(fl_is_apart(base, 64 * sizeof(uint16_t), output, 1024 * sizeof(uint16_t)), "fl_delta_u16", "base does not overlap output");
    fl_delta_u16(input, base, output);
}
#define fl_delta_u16 fl_checked_delta_u16

static inline void fl_checked_undelta_u16(const uint16_t input[1024], const uint16_t base[64], uint16_t output[1024]) {
    fl_require(input != NULL, "fl_undelta_u16", "input is not null");
    fl_require(fl_is_aligned(input, sizeof(uint16_t)), "fl_undelta_u16", "input is aligned");
    fl_require(base != NULL, "fl_undelta_u16", "base is not null");
    fl_require(fl_is_aligned(base, sizeof(uint16_t)), "fl_undelta_u16", "base is aligned");
    fl_require(output != NULL, "fl_undelta_u16", "output is not null");
    fl_require(fl_is_aligned(output, sizeof(uint16_t)), "fl_undelta_u16", "output is aligned");
    fl_require(fl_is_apart(input, 1024 * sizeof(uint16_t), output, 1024 * sizeof(uint16_t)), "fl_undelta_u16", "input does not overlap output");
    fl_require(fl_is_apart(base, 64 * sizeof(uint16_t), output, 1024 * sizeof(uint16_t)), "fl_undelta_u16", "base does not overlap output");
    fl_undelta_u16(input, base, output);
}
#define fl_undelta_u16 fl_checked_undelta_u16

static inline void fl_checked_undelta_pack_u16(size_t width, const uint16_t *input, size_t input_len, const uint16_t base[64], uint16_t output[1024]) {
    fl_require(input != NULL || input_len == 0, "fl_undelta_pack_u16", "input is not null");
    fl_require(fl_is_aligned(input, sizeof(uint16_t)), "fl_undelta_pack_u16", "input is aligned");
    fl_require(base != NULL, "fl_undelta_pack_u16", "base is not null");
    fl_require(fl_is_aligned(base, sizeof(uint16_t)), "fl_undelta_pack_u16", "base is aligned");
    fl_require(output != NULL, "fl_undelta_pack_u16", "output is not null");
    fl_require(fl_is_aligned(output, sizeof(uint16_t)), "fl_undelta_pack_u16", "output is aligned");
    fl_require(width <= 16, "fl_undelta_pack_u16", "width <= 16");
    fl_require(input_len == 64 * width, "fl_undelta_pack_u16", "input_len == 64 * width");
    fl_require(fl_is_apart(input, input_len * sizeof(uint16_t), output, 1024 * sizeof(uint16_t)), "fl_undelta_pack_u16", "input does not overlap output");
    fl_require(fl_is_apart(base, 64 * sizeof(uint16_t), output, 1024 * sizeof(uint16_t)), "fl_undelta_pack_u16", "base does not overlap output");
    fl_undelta_pack_u16(width, input, input_len, base, output);
}
#define fl_undelta_pack_u16 fl_checked_undelta_pack_u16

static inline size_t fl_checked_delta_width_u16(const uint16_t input[1024], const uint16_t base[64]) {
    fl_require(input != NULL, "fl_delta_width_u16", "input is not null");
    fl_require(fl_is_aligned(input, sizeof(uint16_t)), "fl_delta_width_u16", "input is aligned");
    fl_require(base != NULL, "fl_delta_width_u16", "base is not null");
    fl_require(fl_is_aligned(base, sizeof(uint16_t)), "fl_delta_width_u16", "base is aligned");
    return fl_delta_width_u16(input, base);
}
#define fl_delta_width_u16 fl_checked_delta_width_u16

static inline void fl_checked_delta_write_u16(size_t width, const uint16_t input[1024], const uint16_t base[64], uint16_t *output, size_t output_len) {
    fl_require(input != NULL, "fl_delta_write_u16", "input is not null");
    fl_require(fl_is_aligned(input, sizeof(uint16_t)), "fl_delta_write_u16", "input is aligned");
    fl_require(base != NULL, "fl_delta_write_u16", "base is not null");
    fl_require(fl_is_aligned(base, sizeof(uint16_t)), "fl_delta_write_u16", "base is aligned");
    fl_require(output != NULL || output_len == 0, "fl_delta_write_u16", "output is not null");
    fl_require(fl_is_aligned(output, sizeof(uint16_t)), "fl_delta_write_u16", "output is aligned");
    fl_require(width <= 16, "fl_delta_write_u16", "width <= 16");
    fl_require(output_len == 64 * width, "fl_delta_write_u16", "output_len == 64 * width");
    fl_require(fl_is_apart(input, 1024 * sizeof(uint16_t), output, output_len * sizeof(uint16_t)), "fl_delta_write_u16", "input does not overlap output");
    fl_require(fl_is_apart(base, 64 * sizeof(uint16_t), output, output_len * sizeof(uint16_t)), "fl_delta_write_u16", "base does not overlap output");
    fl_delta_write_u16(width, input, base, output, output_len);
}
#define fl_delta_write_u16 fl_checked_delta_write_u16

static inline void fl_checked_delta_read_u16(size_t width, const uint16_t *input, size_t input_len, const uint16_t base[64], uint16_t output[1024]) {
    fl_require(input != NULL || input_len == 0, "fl_delta_read_u16", "input is not null");
    fl_require(fl_is_aligned(input, sizeof(uint16_t)), "fl_delta_read_u16", "input is aligned");
    fl_require(base != NULL, "fl_delta_read_u16", "base is not null");
    fl_require(fl_is_aligned(base, sizeof(uint16_t)), "fl_delta_read_u16", "base is aligned");
    fl_require(output != NULL, "fl_delta_read_u16", "output is not null");
    fl_require(fl_is_aligned(output, sizeof(uint16_t)), "fl_delta_read_u16", "output is aligned");
    fl_require(width <= 16, "fl_delta_read_u16", "width <= 16");
    fl_require(input_len == 64 * width, "fl_delta_read_u16", "input_len == 64 * width");
    fl_require(fl_is_apart(input, input_len * sizeof(uint16_t), output, 1024 * sizeof(uint16_t)), "fl_delta_read_u16", "input does not overlap output");
    fl_require(fl_is_apart(base, 64 * sizeof(uint16_t), output, 1024 * sizeof(uint16_t)), "fl_delta_read_u16", "base does not overlap output");
    fl_delta_read_u16(width, input, input_len, base, output);
}
#define fl_delta_read_u16 fl_checked_delta_read_u16

static inline void fl_checked_transpose_u16(const uint16_t input[1024], uint16_t output[1024]) {
    fl_require(input != NULL, "fl_transpose_u16", "input is not null");
    fl_require(fl_is_aligned(input, sizeof(uint16_t)), "fl_transpose_u16", "input is aligned");
    fl_require(output != NULL, "fl_transpose_u16", "output is not null");
    fl_require(fl_is_aligned(output, sizeof(uint16_t)), "fl_transpose_u16", "output is aligned");
    fl_require(fl_is_apart(input, 1024 * sizeof(uint16_t), output, 1024 * sizeof(uint16_t)), "fl_transpose_u16", "input does not overlap output");
    fl_transpose_u16(input, output);
}
#define fl_transpose_u16 fl_checked_transpose_u16

static inline void fl_checked_untranspose_u16(const uint16_t input[1024], uint16_t output[1024]) {
    fl_require(input != NULL, "fl_untranspose_u16", "input is not null");
    fl_require(fl_is_aligned(input, sizeof(uint16_t)), "fl_untranspose_u16", "input is aligned");
    fl_require(output != NULL, "fl_untranspose_u16", "output is not null");
    fl_require(fl_is_aligned(output, sizeof(uint16_t)), "fl_untranspose_u16", "output is aligned");
    fl_require(fl_is_apart(input, 1024 * sizeof(uint16_t), output, 1024 * sizeof(uint16_t)), "fl_untranspose_u16", "input does not overlap output");
    fl_untranspose_u16(input, output);
}
#define fl_untranspose_u16 fl_checked_untranspose_u16

static inline void fl_checked_transpose_bits_u16(const uint64_t input[16], uint64_t output[16]) {
    fl_require(input != NULL, "fl_transpose_bits_u16", "input is not null");
    fl_require(fl_is_aligned(input, sizeof(uint64_t)), "fl_transpose_bits_u16", "input is aligned");
    fl_require(output != NULL, "fl_transpose_bits_u16", "output is not null");
    fl_require(fl_is_aligned(output, sizeof(uint64_t)), "fl_transpose_bits_u16", "output is aligned");
    fl_require(fl_is_apart(input, 16 * sizeof(uint64_t), output, 16 * sizeof(uint64_t)), "fl_transpose_bits_u16", "input does not overlap output");
    fl_transpose_bits_u16(input, output);
}
#define fl_transpose_bits_u16 fl_checked_transpose_bits_u16

static inline void fl_checked_untranspose_bits_u16(const uint64_t input[16], uint64_t output[16]) {
    fl_require(input != NULL, "fl_untranspose_bits_u16", "input is not null");
    fl_require(fl_is_aligned(input, sizeof(uint64_t)), "fl_untranspose_bits_u16", "input is aligned");
    fl_require(output != NULL, "fl_untranspose_bits_u16", "output is not null");
    fl_require(fl_is_aligned(output, sizeof(uint64_t)), "fl_untranspose_bits_u16", "output is aligned");
    fl_require(fl_is_apart(input, 16 * sizeof(uint64_t), output, 16 * sizeof(uint64_t)), "fl_untranspose_bits_u16", "input does not overlap output");
    fl_untranspose_bits_u16(input, output);
}
#define fl_untranspose_bits_u16 fl_checked_untranspose_bits_u16

static inline size_t fl_checked_rle_encode_u16(const uint16_t input[1024], uint16_t values[1024], uint16_t indices[1024]) {
    fl_require(input != NULL, "fl_rle_encode_u16", "input is not null");
    fl_require(fl_is_aligned(input, sizeof(uint16_t)), "fl_rle_encode_u16", "input is aligned");
    fl_require(values != NULL, "fl_rle_encode_u16", "values is not null");
    fl_require(fl_is_aligned(values, sizeof(uint16_t)), "fl_rle_encode_u16", "values is aligned");
    fl_require(indices != NULL, "fl_rle_encode_u16", "indices is not null");
    fl_require(fl_is_aligned(indices, sizeof(uint16_t)), "fl_rle_encode_u16", "indices is aligned");
    fl_require(fl_is_apart(input, 1024 * sizeof(uint16_t), values, 1024 * sizeof(uint16_t)), "fl_rle_encode_u16", "input does not overlap values");
    fl_require(fl_is_apart(input, 1024 * sizeof(uint16_t), indices, 1024 * sizeof(uint16_t)), "fl_rle_encode_u16", "input does not overlap indices");
    fl_require(fl_is_apart(values, 1024 * sizeof(uint16_t), indices, 1024 * sizeof(uint16_t)), "fl_rle_encode_u16", "values does not overlap indices");
    return fl_rle_encode_u16(input, values, indices);
}
#define fl_rle_encode_u16 fl_checked_rle_encode_u16

static inline void fl_checked_rle_decode_u16(const uint16_t *values, size_t values_len, const uint16_t indices[1024], uint16_t output[1024]) {
    fl_require(values != NULL || values_len == 0, "fl_rle_decode_u16", "values is not null");
    fl_require(fl_is_aligned(values, sizeof(uint16_t)), "fl_rle_decode_u16", "values is aligned");
    fl_require(indices != NULL, "fl_rle_decode_u16", "indices is not null");
    fl_require(fl_is_aligned(indices, sizeof(uint16_t)), "fl_rle_decode_u16", "indices is aligned");
    fl_require(output != NULL, "fl_rle_decode_u16", "output is not null");
    fl_require(fl_is_aligned(output, sizeof(uint16_t)), "fl_rle_decode_u16", "output is aligned");
    fl_require(fl_are_below_16(indices, 1024, values_len), "fl_rle_decode_u16", "indices[k] < values_len for each k");
    fl_require(fl_is_apart(values, values_len * sizeof(uint16_t), output, 1024 * sizeof(uint16_t)), "fl_rle_decode_u16", "values does not overlap output");
    fl_require(fl_is_apart(indices, 1024 * sizeof(uint16_t), output, 1024 * sizeof(uint16_t)), "fl_rle_decode_u16", "indices does not overlap output");
    fl_rle_decode_u16(values, values_len, indices, output);
}
#define fl_rle_decode_u16 fl_checked_rle_decode_u16

static inline void fl_checked_unpack_cmp_u16(size_t width, const uint16_t *input, size_t input_len, uint32_t comparison, uint16_t value, uint64_t mask[16]) {
    fl_require(input != NULL || input_len == 0, "fl_unpack_cmp_u16", "input is not null");
    fl_require(fl_is_aligned(input, sizeof(uint16_t)), "fl_unpack_cmp_u16", "input is aligned");
    fl_require(mask != NULL, "fl_unpack_cmp_u16", "mask is not null");
    fl_require(fl_is_aligned(mask, sizeof(uint64_t)), "fl_unpack_cmp_u16", "mask is aligned");
    fl_require(width <= 16, "fl_unpack_cmp_u16", "width <= 16");
    fl_require(input_len == 64 * width, "fl_unpack_cmp_u16", "input_len == 64 * width");
    fl_require(comparison <= FL_GE, "fl_unpack_cmp_u16", "comparison <= FL_GE");
    fl_require(fl_is_apart(input, input_len * sizeof(uint16_t), mask, 16 * sizeof(uint64_t)), "fl_unpack_cmp_u16", "input does not overlap mask");
    fl_unpack_cmp_u16(width, input, input_len, comparison, value, mask);
}
#define fl_unpack_cmp_u16 fl_checked_unpack_cmp_u16

static inline void fl_checked_unpack_filter_u16(size_t width, const uint16_t *input, size_t input_len, uint32_t comparison, uint16_t value, uint64_t mask[16]) {
    fl_require(input != NULL || input_len == 0, "fl_unpack_filter_u16", "input is not null");
    fl_require(fl_is_aligned(input, sizeof(uint16_t)), "fl_unpack_filter_u16", "input is aligned");
    fl_require(mask != NULL, "fl_unpack_filter_u16", "mask is not null");
    fl_require(fl_is_aligned(mask, sizeof(uint64_t)), "fl_unpack_filter_u16", "mask is aligned");
    fl_require(width <= 16, "fl_unpack_filter_u16", "width <= 16");
    fl_require(input_len == 64 * width, "fl_unpack_filter_u16", "input_len == 64 * width");
    fl_require(comparison <= FL_GE, "fl_unpack_filter_u16", "comparison <= FL_GE");
    fl_require(fl_is_apart(input, input_len * sizeof(uint16_t), mask, 16 * sizeof(uint64_t)), "fl_unpack_filter_u16", "input does not overlap mask");
    fl_unpack_filter_u16(width, input, input_len, comparison, value, mask);
}
#define fl_unpack_filter_u16 fl_checked_unpack_filter_u16

static inline void fl_checked_unpack_cmp_i16(size_t width, const uint16_t *input, size_t input_len, uint32_t comparison, int16_t value, uint64_t mask[16]) {
    fl_require(input != NULL || input_len == 0, "fl_unpack_cmp_i16", "input is not null");
    fl_require(fl_is_aligned(input, sizeof(uint16_t)), "fl_unpack_cmp_i16", "input is aligned");
    fl_require(mask != NULL, "fl_unpack_cmp_i16", "mask is not null");
    fl_require(fl_is_aligned(mask, sizeof(uint64_t)), "fl_unpack_cmp_i16", "mask is aligned");
    fl_require(width <= 16, "fl_unpack_cmp_i16", "width <= 16");
    fl_require(input_len == 64 * width, "fl_unpack_cmp_i16", "input_len == 64 * width");
    fl_require(comparison <= FL_GE, "fl_unpack_cmp_i16", "comparison <= FL_GE");
    fl_require(fl_is_apart(input, input_len * sizeof(uint16_t), mask, 16 * sizeof(uint64_t)), "fl_unpack_cmp_i16", "input does not overlap mask");
    fl_unpack_cmp_i16(width, input, input_len, comparison, value, mask);
}
#define fl_unpack_cmp_i16 fl_checked_unpack_cmp_i16

static inline void fl_checked_unpack_filter_i16(size_t width, const uint16_t *input, size_t input_len, uint32_t comparison, int16_t value, uint64_t mask[16]) {
    fl_require(input != NULL || input_len == 0, "fl_unpack_filter_i16", "input is not null");
    fl_require(fl_is_aligned(input, sizeof(uint16_t)), "fl_unpack_filter_i16", "input is aligned");
    fl_require(mask != NULL, "fl_unpack_filter_i16", "mask is not null");
    fl_require(fl_is_aligned(mask, sizeof(uint64_t)), "fl_unpack_filter_i16", "mask is aligned");
    fl_require(width <= 16, "fl_unpack_filter_i16", "width <= 16");
    fl_require(input_len == 64 * width, "fl_unpack_filter_i16", "input_len == 64 * width");
    fl_require(comparison <= FL_GE, "fl_unpack_filter_i16", "comparison <= FL_GE");
    fl_require(fl_is_apart(input, input_len * sizeof(uint16_t), mask, 16 * sizeof(uint64_t)), "fl_unpack_filter_i16", "input does not overlap mask");
    fl_unpack_filter_i16(width, input, input_len, comparison, value, mask);
}
#define fl_unpack_filter_i16 fl_checked_unpack_filter_i16

static inline size_t fl_checked_column_encode_u16(const uint16_t *values, size_t values_len, uint32_t flags, uint8_t *bytes, size_t bytes_len) {
    fl_require(values != NULL || values_len == 0, "fl_column_encode_u16", "values is not null");
    fl_require(fl_is_aligned(values, sizeof(uint16_t)), "fl_column_encode_u16", "values is aligned");
    fl_require(bytes != NULL || bytes_len == 0, "fl_column_encode_u16", "bytes is not null");
    fl_require(fl_is_apart(values, values_len * sizeof(uint16_t), bytes, bytes_len * sizeof(uint8_t)), "fl_column_encode_u16", "values does not overlap bytes");
    return fl_column_encode_u16(values, values_len, flags, bytes, bytes_len);
}
#define fl_column_encode_u16 fl_checked_column_encode_u16

static inline uint32_t fl_checked_column_decode_u16(const uint8_t *bytes, size_t bytes_len, uint16_t *values, size_t values_len, size_t *count, size_t *error_offset) {
    fl_require(bytes != NULL || bytes_len == 0, "fl_column_decode_u16", "bytes is not null");
    fl_require(values != NULL || values_len == 0, "fl_column_decode_u16", "values is not null");
    fl_require(fl_is_aligned(values, sizeof(uint16_t)), "fl_column_decode_u16", "values is aligned");
    fl_require(count != NULL, "fl_column_decode_u16", "count is not null");
    fl_require(fl_is_aligned(count, sizeof(size_t)), "fl_column_decode_u16", "count is aligned");
    fl_require(error_offset != NULL, "fl_column_decode_u16", "error_offset is not null");
    fl_require(fl_is_aligned(error_offset, sizeof(size_t)), "fl_column_decode_u16", "error_offset is aligned");
    fl_require(fl_is_apart(bytes, bytes_len * sizeof(uint8_t), values, values_len * sizeof(uint16_t)), "fl_column_decode_u16", "bytes does not overlap values");
    fl_require(fl_is_apart(bytes, bytes_len * sizeof(uint8_t), count, sizeof(size_t)), "fl_column_decode_u16", "bytes does not overlap count");
    fl_require(fl_is_apart(bytes, bytes_len * sizeof(uint8_t), error_offset, sizeof(size_t)), "fl_column_decode_u16", "bytes does not overlap error_offset");
    fl_require(fl_is_apart(values, values_len * sizeof(uint16_t), count, sizeof(size_t)), "fl_column_decode_u16", "values does not overlap count");
    fl_require(fl_is_apart(values, values_len * sizeof(uint16_t), error_offset, sizeof(size_t)), "fl_column_decode_u16", "values does not overlap error_offset");
    fl_require(fl_is_apart(count, sizeof(size_t), error_offset, sizeof(size_t)), "fl_column_decode_u16", "count does not overlap error_offset");
    return fl_column_decode_u16(bytes, bytes_len, values, values_len, count, error_offset);
}
#define fl_column_decode_u16 fl_checked_column_decode_u16

static inline uint32_t fl_checked_column_open_u16(const uint8_t *bytes, size_t bytes_len, uint32_t flags, fl_column_u16 *column, size_t *error_offset) {
    fl_require(bytes != NULL || bytes_len == 0, "fl_column_open_u16", "bytes is not null");
    fl_require(column != NULL, "fl_column_open_u16", "column is not null");
    fl_require(fl_is_aligned(column, sizeof(void *)), "fl_column_open_u16", "column is aligned");
    fl_require(error_offset != NULL, "fl_column_open_u16", "error_offset is not null");
    fl_require(fl_is_aligned(error_offset, sizeof(size_t)), "fl_column_open_u16", "error_offset is aligned");
    fl_require(fl_is_apart(bytes, bytes_len * sizeof(uint8_t), column, sizeof(fl_column_u16)), "fl_column_open_u16", "bytes does not overlap column");
    fl_require(fl_is_apart(bytes, bytes_len * sizeof(uint8_t), error_offset, sizeof(size_t)), "fl_column_open_u16", "bytes does not overlap error_offset");
    fl_require(fl_is_apart(column, sizeof(fl_column_u16), error_offset, sizeof(size_t)), "fl_column_open_u16", "column does not overlap error_offset");
    return fl_column_open_u16(bytes, bytes_len, flags, column, error_offset);
}
#define fl_column_open_u16 fl_checked_column_open_u16

static inline uint64_t fl_checked_column_len_u16(const fl_column_u16 *column) {
    fl_require(column != NULL, "fl_column_len_u16", "column is not null");
    fl_require(fl_is_aligned(column, sizeof(void *)), "fl_column_len_u16", "column is aligned");
    fl_require(fl_is_open(column->bytes, column->bytes_len, 16), "fl_column_len_u16", "column was filled by fl_column_open_u16");
    return fl_column_len_u16(column);
}
#define fl_column_len_u16 fl_checked_column_len_u16

static inline uint16_t fl_checked_column_get_u16(const fl_column_u16 *column, uint64_t index) {
    fl_require(column != NULL, "fl_column_get_u16", "column is not null");
    fl_require(fl_is_aligned(column, sizeof(void *)), "fl_column_get_u16", "column is aligned");
    fl_require(fl_is_open(column->bytes, column->bytes_len, 16), "fl_column_get_u16", "column was filled by fl_column_open_u16");
    fl_require(index < column->len, "fl_column_get_u16", "index < fl_column_len_u16(column)");
    return fl_column_get_u16(column, index);
}
#define fl_column_get_u16 fl_checked_column_get_u16

static inline void fl_checked_column_read_u16(const fl_column_u16 *column, uint64_t start, uint16_t *values, size_t values_len) {
    fl_require(column != NULL, "fl_column_read_u16", "column is not null");
    fl_require(fl_is_aligned(column, sizeof(void *)), "fl_column_read_u16", "column is aligned");
    fl_require(values != NULL || values_len == 0, "fl_column_read_u16", "values is not null");
    fl_require(fl_is_aligned(values, sizeof(uint16_t)), "fl_column_read_u16", "values is aligned");
    fl_require(fl_is_open(column->bytes, column->bytes_len, 16), "fl_column_read_u16", "column was filled by fl_column_open_u16");
    fl_require(start <= column->len && values_len <= column->len - start, "fl_column_read_u16", "start + values_len <= fl_column_len_u16(column)");
    fl_require(fl_is_apart(column, sizeof(fl_column_u16), values, values_len * sizeof(uint16_t)), "fl_column_read_u16", "column does not overlap values");
    fl_require(fl_is_apart(values, values_len * sizeof(uint16_t), column->bytes, column->bytes_len), "fl_column_read_u16", "values does not overlap the bytes of column");
    fl_column_read_u16(column, start, values, values_len);
}
#define fl_column_read_u16 fl_checked_column_read_u16

static inline uint64_t fl_checked_column_filter_u16(const fl_column_u16 *column, uint32_t comparison, uint16_t value, uint64_t *mask, size_t mask_len) {
    fl_require(column != NULL, "fl_column_filter_u16", "column is not null");
    fl_require(fl_is_aligned(column, sizeof(void *)), "fl_column_filter_u16", "column is aligned");
    fl_require(mask != NULL || mask_len == 0, "fl_column_filter_u16", "mask is not null");
    fl_require(fl_is_aligned(mask, sizeof(uint64_t)), "fl_column_filter_u16", "mask is aligned");
    fl_require(fl_is_open(column->bytes, column->bytes_len, 16), "fl_column_filter_u16", "column was filled by fl_column_open_u16");
    fl_require(comparison <= FL_GE, "fl_column_filter_u16", "comparison <= FL_GE");
    fl_require(mask_len == column->len / 64 + (column->len % 64 != 0), "fl_column_filter_u16", "mask_len == (fl_column_len_u16(column) + 63) / 64");
    fl_require(fl_is_apart(column, sizeof(fl_column_u16), mask, mask_len * sizeof(uint64_t)), "fl_column_filter_u16", "column does not overlap mask");
    fl_require(fl_is_apart(mask, mask_len * sizeof(uint64_t), column->bytes, column->bytes_len), "fl_column_filter_u16", "mask does not overlap the bytes of column");
    return fl_column_filter_u16(column, comparison, value, mask, mask_len);
}
#define fl_column_filter_u16 fl_checked_column_filter_u16

static inline uint64_t fl_checked_column_count_u16(const fl_column_u16 *column, uint32_t comparison, uint16_t value) {
    fl_require(column != NULL, "fl_column_count_u16", "column is not null");
    fl_require(fl_is_aligned(column, sizeof(void *)), "fl_column_count_u16", "column is aligned");
    fl_require(fl_is_open(column->bytes, column->bytes_len, 16), "fl_column_count_u16", "column was filled by fl_column_open_u16");
    fl_require(comparison <= FL_GE, "fl_column_count_u16", "comparison <= FL_GE");
    return fl_column_count_u16(column, comparison, value);
}
#define fl_column_count_u16 fl_checked_column_count_u16

static inline void fl_checked_pack_u32(size_t width, const uint32_t input[1024], uint32_t *output, size_t output_len) {
    fl_require(input != NULL, "fl_pack_u32", "input is not null");
    fl_require(fl_is_aligned(input, sizeof(uint32_t)), "fl_pack_u32", "input is aligned");
    fl_require(output != NULL || output_len == 0, "fl_pack_u32", "output is not null");
    fl_require(fl_is_aligned(output, sizeof(uint32_t)), "fl_pack_u32", "output is aligned");
    fl_require(width <= 32, "fl_pack_u32", "width <= 32");
    fl_require(output_len == 32 * width, "fl_pack_u32", "output_len == 32 * width");
    fl_require(fl_is_apart(input, 1024 * sizeof(uint32_t), output, output_len * sizeof(uint32_t)), "fl_pack_u32", "input does not overlap output");
    fl_pack_u32(width, input, output, output_len);
}
#define fl_pack_u32 fl_checked_pack_u32

static inline void fl_checked_unpack_u32(size_t width, const uint32_t *input, size_t input_len, uint32_t output[1024]) {
    fl_require(input != NULL || input_len == 0, "fl_unpack_u32", "input is not null");
    fl_require(fl_is_aligned(input, sizeof(uint32_t)), "fl_unpack_u32", "input is aligned");
    fl_require(output != NULL, "fl_unpack_u32", "output is not null");
    fl_require(fl_is_aligned(output, sizeof(uint32_t)), "fl_unpack_u32", "output is aligned");
    fl_require(width <= 32, "fl_unpack_u32", "width <= 32");
    fl_require(input_len == 32 * width, "fl_unpack_u32", "input_len == 32 * width");
    fl_require(fl_is_apart(input, input_len * sizeof(uint32_t), output, 1024 * sizeof(uint32_t)), "fl_unpack_u32", "input does not overlap output");
    fl_unpack_u32(width, input, input_len, output);
}
#define fl_unpack_u32 fl_checked_unpack_u32

static inline void fl_checked_pack_blocks_u32(size_t width, size_t count, const uint32_t *input, size_t input_len, uint32_t *output, size_t output_len) {
    fl_require(input != NULL || input_len == 0, "fl_pack_blocks_u32", "input is not null");
    fl_require(fl_is_aligned(input, sizeof(uint32_t)), "fl_pack_blocks_u32", "input is aligned");
    fl_require(output != NULL || output_len == 0, "fl_pack_blocks_u32", "output is not null");
    fl_require(fl_is_aligned(output, sizeof(uint32_t)), "fl_pack_blocks_u32", "output is aligned");
    fl_require(width <= 32, "fl_pack_blocks_u32", "width <= 32");
    fl_require(fl_is_product(input_len, 1024, count), "fl_pack_blocks_u32", "input_len == 1024 * count");
    fl_require(fl_is_product(output_len, 32 * width, count), "fl_pack_blocks_u32", "output_len == 32 * width * count");
    fl_require(fl_is_apart(input, input_len * sizeof(uint32_t), output, output_len * sizeof(uint32_t)), "fl_pack_blocks_u32", "input does not overlap output");
    fl_pack_blocks_u32(width, count, input, input_len, output, output_len);
}
#define fl_pack_blocks_u32 fl_checked_pack_blocks_u32

static inline void fl_checked_unpack_blocks_u32(size_t width, size_t count, const uint32_t *input, size_t input_len, uint32_t *output, size_t output_len) {
    fl_require(input != NULL || input_len == 0, "fl_unpack_blocks_u32", "input is not null");
    fl_require(fl_is_aligned(input, sizeof(uint32_t)), "fl_unpack_blocks_u32", "input is aligned");
    fl_require(output != NULL || output_len == 0, "fl_unpack_blocks_u32", "output is not null");
    fl_require(fl_is_aligned(output, sizeof(uint32_t)), "fl_unpack_blocks_u32", "output is aligned");
    fl_require(width <= 32, "fl_unpack_blocks_u32", "width <= 32");
    fl_require(fl_is_product(input_len, 32 * width, count), "fl_unpack_blocks_u32", "input_len == 32 * width * count");
    fl_require(fl_is_product(output_len, 1024, count), "fl_unpack_blocks_u32", "output_len == 1024 * count");
    fl_require(fl_is_apart(input, input_len * sizeof(uint32_t), output, output_len * sizeof(uint32_t)), "fl_unpack_blocks_u32", "input does not overlap output");
    fl_unpack_blocks_u32(width, count, input, input_len, output, output_len);
}
#define fl_unpack_blocks_u32 fl_checked_unpack_blocks_u32

static inline uint32_t fl_checked_unpack_single_u32(size_t width, const uint32_t *input, size_t input_len, size_t index) {
    fl_require(input != NULL || input_len == 0, "fl_unpack_single_u32", "input is not null");
    fl_require(fl_is_aligned(input, sizeof(uint32_t)), "fl_unpack_single_u32", "input is aligned");
    fl_require(width <= 32, "fl_unpack_single_u32", "width <= 32");
    fl_require(input_len == 32 * width, "fl_unpack_single_u32", "input_len == 32 * width");
    fl_require(width == 0 || index < 1024, "fl_unpack_single_u32", "width == 0 || index < 1024");
    return fl_unpack_single_u32(width, input, input_len, index);
}
#define fl_unpack_single_u32 fl_checked_unpack_single_u32

static inline void fl_checked_unpack_indices_u32(size_t width, const uint32_t *input, size_t input_len, const size_t *indices, size_t indices_len, uint32_t *output, size_t output_len) {
    fl_require(input != NULL || input_len == 0, "fl_unpack_indices_u32", "input is not null");
    fl_require(fl_is_aligned(input, sizeof(uint32_t)), "fl_unpack_indices_u32", "input is aligned");
    fl_require(indices != NULL || indices_len == 0, "fl_unpack_indices_u32", "indices is not null");
    fl_require(fl_is_aligned(indices, sizeof(size_t)), "fl_unpack_indices_u32", "indices is aligned");
    fl_require(output != NULL || output_len == 0, "fl_unpack_indices_u32", "output is not null");
    fl_require(fl_is_aligned(output, sizeof(uint32_t)), "fl_unpack_indices_u32", "output is aligned");
    fl_require(width <= 32, "fl_unpack_indices_u32", "width <= 32");
    fl_require(input_len == 32 * width, "fl_unpack_indices_u32", "input_len == 32 * width");
    fl_require(width == 0 || fl_are_below(indices, indices_len, 1024), "fl_unpack_indices_u32", "width == 0 || indices[k] < 1024 for each k");
    fl_require(output_len == indices_len, "fl_unpack_indices_u32", "output_len == indices_len");
    fl_require(fl_is_apart(input, input_len * sizeof(uint32_t), output, output_len * sizeof(uint32_t)), "fl_unpack_indices_u32", "input does not overlap output");
    fl_require(fl_is_apart(indices, indices_len * sizeof(size_t), output, output_len * sizeof(uint32_t)), "fl_unpack_indices_u32", "indices does not overlap output");
    fl_unpack_indices_u32(width, input, input_len, indices, indices_len, output, output_len);
}
#define fl_unpack_indices_u32 fl_checked_unpack_indices_u32

static inline uint64_t fl_checked_unpack_sum_u32(size_t width, const uint32_t *input, size_t input_len) {
    fl_require(input != NULL || input_len == 0, "fl_unpack_sum_u32", "input is not null");
    fl_require(fl_is_aligned(input, sizeof(uint32_t)), "fl_unpack_sum_u32", "input is aligned");
    fl_require(width <= 32, "fl_unpack_sum_u32", "width <= 32");
    fl_require(input_len == 32 * width, "fl_unpack_sum_u32", "input_len == 32 * width");
    return fl_unpack_sum_u32(width, input, input_len);
}
#define fl_unpack_sum_u32 fl_checked_unpack_sum_u32

static inline void fl_checked_unpack_range_u32(size_t width, const uint32_t *input, size_t input_len, uint32_t *minimum, uint32_t *maximum) {
    fl_require(input != NULL || input_len == 0, "fl_unpack_range_u32", "input is not null");
    fl_require(fl_is_aligned(input, sizeof(uint32_t)), "fl_unpack_range_u32", "input is aligned");
    fl_require(minimum != NULL, "fl_unpack_range_u32", "minimum is not null");
    fl_require(fl_is_aligned(minimum, sizeof(uint32_t)), "fl_unpack_range_u32", "minimum is aligned");
    fl_require(maximum != NULL, "fl_unpack_range_u32", "maximum is not null");
    fl_require(fl_is_aligned(maximum, sizeof(uint32_t)), "fl_unpack_range_u32", "maximum is aligned");
    fl_require(width <= 32, "fl_unpack_range_u32", "width <= 32");
    fl_require(input_len == 32 * width, "fl_unpack_range_u32", "input_len == 32 * width");
    fl_require(fl_is_apart(input, input_len * sizeof(uint32_t), minimum, sizeof(uint32_t)), "fl_unpack_range_u32", "input does not overlap minimum");
    fl_require(fl_is_apart(input, input_len * sizeof(uint32_t), maximum, sizeof(uint32_t)), "fl_unpack_range_u32", "input does not overlap maximum");
    fl_require(fl_is_apart(minimum, sizeof(uint32_t), maximum, sizeof(uint32_t)), "fl_unpack_range_u32", "minimum does not overlap maximum");
    fl_unpack_range_u32(width, input, input_len, minimum, maximum);
}
#define fl_unpack_range_u32 fl_checked_unpack_range_u32

static inline void fl_checked_for_pack_u32(size_t width, const uint32_t input[1024], uint32_t reference, uint32_t *output, size_t output_len) {
    fl_require(input != NULL, "fl_for_pack_u32", "input is not null");
    fl_require(fl_is_aligned(input, sizeof(uint32_t)), "fl_for_pack_u32", "input is aligned");
    fl_require(output != NULL || output_len == 0, "fl_for_pack_u32", "output is not null");
    fl_require(fl_is_aligned(output, sizeof(uint32_t)), "fl_for_pack_u32", "output is aligned");
    fl_require(width <= 32, "fl_for_pack_u32", "width <= 32");
    fl_require(output_len == 32 * width, "fl_for_pack_u32", "output_len == 32 * width");
    fl_require(fl_is_apart(input, 1024 * sizeof(uint32_t), output, output_len * sizeof(uint32_t)), "fl_for_pack_u32", "input does not overlap output");
    fl_for_pack_u32(width, input, reference, output, output_len);
}
#define fl_for_pack_u32 fl_checked_for_pack_u32

static inline void fl_checked_unfor_pack_u32(size_t width, const uint32_t *input, size_t input_len, uint32_t reference, uint32_t output[1024]) {
    fl_require(input != NULL || input_len == 0, "fl_unfor_pack_u32", "input is not null");
    fl_require(fl_is_aligned(input, sizeof(uint32_t)), "fl_unfor_pack_u32", "input is aligned");
    fl_require(output != NULL, "fl_unfor_pack_u32", "output is not null");
    fl_require(fl_is_aligned(output, sizeof(uint32_t)), "fl_unfor_pack_u32", "output is aligned");
    fl_require(width <= 32, "fl_unfor_pack_u32", "width <= 32");
    fl_require(input_len == 32 * width, "fl_unfor_pack_u32", "input_len == 32 * width");
    fl_require(fl_is_apart(input, input_len * sizeof(uint32_t), output, 1024 * sizeof(uint32_t)), "fl_unfor_pack_u32", "input does not overlap output");
    fl_unfor_pack_u32(width, input, input_len, reference, output);
}
#define fl_unfor_pack_u32 fl_checked_unfor_pack_u32

static inline size_t fl_checked_frame_head_u32(const uint32_t input[1024], uint32_t *reference) {
    fl_require(input != NULL, "fl_frame_head_u32", "input is not null");
    fl_require(fl_is_aligned(input, sizeof(uint32_t)), "fl_frame_head_u32", "input is aligned");
    fl_require(reference != NULL, "fl_frame_head_u32", "reference is not null");
    fl_require(fl_is_aligned(reference, sizeof(uint32_t)), "fl_frame_head_u32", "reference is aligned");
    fl_require(fl_is_apart(input, 1024 * sizeof(uint32_t), reference, sizeof(uint32_t)), "fl_frame_head_u32", "input does not overlap reference");
    return fl_frame_head_u32(input, reference);
}
#define fl_frame_head_u32 fl_checked_frame_head_u32

static inline uint32_t fl_checked_frame_get_u32(size_t width, uint32_t reference, const uint32_t *input, size_t input_len, size_t index) {
    fl_require(input != NULL || input_len == 0, "fl_frame_get_u32", "input is not null");
    fl_require(fl_is_aligned(input, sizeof(uint32_t)), "fl_frame_get_u32", "input is aligned");
    fl_require(width <= 32, "fl_frame_get_u32", "width <= 32");
    fl_require(input_len == 32 * width, "fl_frame_get_u32", "input_len == 32 * width");
    fl_require(index < 1024, "fl_frame_get_u32", "index < 1024");
    return fl_frame_get_u32(width, reference, input, input_len, index);
}
#define fl_frame_get_u32 fl_checked_frame_get_u32

static inline void fl_checked_delta_u32(const uint32_t input[1024], const uint32_t base[32], uint32_t output[1024]) {
    fl_require(input != NULL, "fl_delta_u32", "input is not null");
    fl_require(fl_is_aligned(input, sizeof(uint32_t)), "fl_delta_u32", "input is aligned");
    fl_require(base != NULL, "fl_delta_u32", "base is not null");
    fl_require(fl_is_aligned(base, sizeof(uint32_t)), "fl_delta_u32", "base is aligned");
    fl_require(output != NULL, "fl_delta_u32", "output is not null");
    fl_require(fl_is_aligned(output, sizeof(uint32_t)), "fl_delta_u32", "output is aligned");
    fl_require(fl_is_apart(input, 1024 * sizeof(uint32_t), output, 1024 * sizeof(uint32_t)), "fl_delta_u32", "input does not overlap output");
    fl_require(fl_is_apart(base, 32 * sizeof(uint32_t), output, 1024 * sizeof(uint32_t)), "fl_delta_u32", "base does not overlap output");
    fl_delta_u32(input, base, output);
}
#define fl_delta_u32 fl_checked_delta_u32

static inline void fl_checked_undelta_u32(const uint32_t input[1024], const uint32_t base[32], uint32_t output[1024]) {
    fl_require(input != NULL, "fl_undelta_u32", "input is not null");
    fl_require(fl_is_aligned(input, sizeof(uint32_t)), "fl_undelta_u32", "input is aligned");
    fl_require(base != NULL, "fl_undelta_u32", "base is not null");
    fl_require(fl_is_aligned(base, sizeof(uint32_t)), "fl_undelta_u32", "base is aligned");
    fl_require(output != NULL, "fl_undelta_u32", "output is not null");
    fl_require(fl_is_aligned(output, sizeof(uint32_t)), "fl_undelta_u32", "output is aligned");
    fl_require(fl_is_apart(input, 1024 * sizeof(uint32_t), output, 1024 * sizeof(uint32_t)), "fl_undelta_u32", "input does not overlap output");
    fl_require(fl_is_apart(base, 32 * sizeof(uint32_t), output, 1024 * sizeof(uint32_t)), "fl_undelta_u32", "base does not overlap output");
    fl_undelta_u32(input, base, output);
}
#define fl_undelta_u32 fl_checked_undelta_u32

static inline void fl_checked_undelta_pack_u32(size_t width, const uint32_t *input, size_t input_len, const uint32_t base[32], uint32_t output[1024]) {
    fl_require(input != NULL || input_len == 0, "fl_undelta_pack_u32", "input is not null");
    fl_require(fl_is_aligned(input, sizeof(uint32_t)), "fl_undelta_pack_u32", "input is aligned");
    fl_require(base != NULL, "fl_undelta_pack_u32", "base is not null");
    fl_require(fl_is_aligned(base, sizeof(uint32_t)), "fl_undelta_pack_u32", "base is aligned");
    fl_require(output != NULL, "fl_undelta_pack_u32", "output is not null");
    fl_require(fl_is_aligned(output, sizeof(uint32_t)), "fl_undelta_pack_u32", "output is aligned");
    fl_require(width <= 32, "fl_undelta_pack_u32", "width <= 32");
    fl_require(input_len == 32 * width, "fl_undelta_pack_u32", "input_len == 32 * width");
    fl_require(fl_is_apart(input, input_len * sizeof(uint32_t), output, 1024 * sizeof(uint32_t)), "fl_undelta_pack_u32", "input does not overlap output");
    fl_require(fl_is_apart(base, 32 * sizeof(uint32_t), output, 1024 * sizeof(uint32_t)), "fl_undelta_pack_u32", "base does not overlap output");
    fl_undelta_pack_u32(width, input, input_len, base, output);
}
#define fl_undelta_pack_u32 fl_checked_undelta_pack_u32

static inline size_t fl_checked_delta_width_u32(const uint32_t input[1024], const uint32_t base[32]) {
    fl_require(input != NULL, "fl_delta_width_u32", "input is not null");
    fl_require(fl_is_aligned(input, sizeof(uint32_t)), "fl_delta_width_u32", "input is aligned");
    fl_require(base != NULL, "fl_delta_width_u32", "base is not null");
    fl_require(fl_is_aligned(base, sizeof(uint32_t)), "fl_delta_width_u32", "base is aligned");
    return fl_delta_width_u32(input, base);
}
#define fl_delta_width_u32 fl_checked_delta_width_u32

static inline void fl_checked_delta_write_u32(size_t width, const uint32_t input[1024], const uint32_t base[32], uint32_t *output, size_t output_len) {
    fl_require(input != NULL, "fl_delta_write_u32", "input is not null");
    fl_require(fl_is_aligned(input, sizeof(uint32_t)), "fl_delta_write_u32", "input is aligned");
    fl_require(base != NULL, "fl_delta_write_u32", "base is not null");
    fl_require(fl_is_aligned(base, sizeof(uint32_t)), "fl_delta_write_u32", "base is aligned");
    fl_require(output != NULL || output_len == 0, "fl_delta_write_u32", "output is not null");
    fl_require(fl_is_aligned(output, sizeof(uint32_t)), "fl_delta_write_u32", "output is aligned");
    fl_require(width <= 32, "fl_delta_write_u32", "width <= 32");
    fl_require(output_len == 32 * width, "fl_delta_write_u32", "output_len == 32 * width");
    fl_require(fl_is_apart(input, 1024 * sizeof(uint32_t), output, output_len * sizeof(uint32_t)), "fl_delta_write_u32", "input does not overlap output");
    fl_require(fl_is_apart(base, 32 * sizeof(uint32_t), output, output_len * sizeof(uint32_t)), "fl_delta_write_u32", "base does not overlap output");
    fl_delta_write_u32(width, input, base, output, output_len);
}
#define fl_delta_write_u32 fl_checked_delta_write_u32

static inline void fl_checked_delta_read_u32(size_t width, const uint32_t *input, size_t input_len, const uint32_t base[32], uint32_t output[1024]) {
    fl_require(input != NULL || input_len == 0, "fl_delta_read_u32", "input is not null");
    fl_require(fl_is_aligned(input, sizeof(uint32_t)), "fl_delta_read_u32", "input is aligned");
    fl_require(base != NULL, "fl_delta_read_u32", "base is not null");
    fl_require(fl_is_aligned(base, sizeof(uint32_t)), "fl_delta_read_u32", "base is aligned");
    fl_require(output != NULL, "fl_delta_read_u32", "output is not null");
    fl_require(fl_is_aligned(output, sizeof(uint32_t)), "fl_delta_read_u32", "output is aligned");
    fl_require(width <= 32, "fl_delta_read_u32", "width <= 32");
    fl_require(input_len == 32 * width, "fl_delta_read_u32", "input_len == 32 * width");
    fl_require(fl_is_apart(input, input_len * sizeof(uint32_t), output, 1024 * sizeof(uint32_t)), "fl_delta_read_u32", "input does not overlap output");
    fl_require(fl_is_apart(base, 32 * sizeof(uint32_t), output, 1024 * sizeof(uint32_t)), "fl_delta_read_u32", "base does not overlap output");
    fl_delta_read_u32(width, input, input_len, base, output);
}
#define fl_delta_read_u32 fl_checked_delta_read_u32

static inline void fl_checked_transpose_u32(const uint32_t input[1024], uint32_t output[1024]) {
    fl_require(input != NULL, "fl_transpose_u32", "input is not null");
    fl_require(fl_is_aligned(input, sizeof(uint32_t)), "fl_transpose_u32", "input is aligned");
    fl_require(output != NULL, "fl_transpose_u32", "output is not null");
    fl_require(fl_is_aligned(output, sizeof(uint32_t)), "fl_transpose_u32", "output is aligned");
    fl_require(fl_is_apart(input, 1024 * sizeof(uint32_t), output, 1024 * sizeof(uint32_t)), "fl_transpose_u32", "input does not overlap output");
    fl_transpose_u32(input, output);
}
#define fl_transpose_u32 fl_checked_transpose_u32

static inline void fl_checked_untranspose_u32(const uint32_t input[1024], uint32_t output[1024]) {
    fl_require(input != NULL, "fl_untranspose_u32", "input is not null");
    fl_require(fl_is_aligned(input, sizeof(uint32_t)), "fl_untranspose_u32", "input is aligned");
    fl_require(output != NULL, "fl_untranspose_u32", "output is not null");
    fl_require(fl_is_aligned(output, sizeof(uint32_t)), "fl_untranspose_u32", "output is aligned");
    fl_require(fl_is_apart(input, 1024 * sizeof(uint32_t), output, 1024 * sizeof(uint32_t)), "fl_untranspose_u32", "input does not overlap output");
    fl_untranspose_u32(input, output);
}
#define fl_untranspose_u32 fl_checked_untranspose_u32

static inline void fl_checked_transpose_bits_u32(const uint64_t input[16], uint64_t output[16]) {
    fl_require(input != NULL, "fl_transpose_bits_u32", "input is not null");
    fl_require(fl_is_aligned(input, sizeof(uint64_t)), "fl_transpose_bits_u32", "input is aligned");
    fl_require(output != NULL, "fl_transpose_bits_u32", "output is not null");
    fl_require(fl_is_aligned(output, sizeof(uint64_t)), "fl_transpose_bits_u32", "output is aligned");
    fl_require(fl_is_apart(input, 16 * sizeof(uint64_t), output, 16 * sizeof(uint64_t)), "fl_transpose_bits_u32", "input does not overlap output");
    fl_transpose_bits_u32(input, output);
}
#define fl_transpose_bits_u32 fl_checked_transpose_bits_u32

static inline void fl_checked_untranspose_bits_u32(const uint64_t input[16], uint64_t output[16]) {
    fl_require(input != NULL, "fl_untranspose_bits_u32", "input is not null");
    fl_require(fl_is_aligned(input, sizeof(uint64_t)), "fl_untranspose_bits_u32", "input is aligned");
    fl_require(output != NULL, "fl_untranspose_bits_u32", "output is not null");
    fl_require(fl_is_aligned(output, sizeof(uint64_t)), "fl_untranspose_bits_u32", "output is aligned");
    fl_require(fl_is_apart(input, 16 * sizeof(uint64_t), output, 16 * sizeof(uint64_t)), "fl_untranspose_bits_u32", "input does not overlap output");
    fl_untranspose_bits_u32(input, output);
}
#define fl_untranspose_bits_u32 fl_checked_untranspose_bits_u32

static inline size_t fl_checked_rle_encode_u32(const uint32_t input[1024], uint32_t values[1024], uint16_t indices[1024]) {
    fl_require(input != NULL, "fl_rle_encode_u32", "input is not null");
    fl_require(fl_is_aligned(input, sizeof(uint32_t)), "fl_rle_encode_u32", "input is aligned");
    fl_require(values != NULL, "fl_rle_encode_u32", "values is not null");
    fl_require(fl_is_aligned(values, sizeof(uint32_t)), "fl_rle_encode_u32", "values is aligned");
    fl_require(indices != NULL, "fl_rle_encode_u32", "indices is not null");
    fl_require(fl_is_aligned(indices, sizeof(uint16_t)), "fl_rle_encode_u32", "indices is aligned");
    fl_require(fl_is_apart(input, 1024 * sizeof(uint32_t), values, 1024 * sizeof(uint32_t)), "fl_rle_encode_u32", "input does not overlap values");
    fl_require(fl_is_apart(input, 1024 * sizeof(uint32_t), indices, 1024 * sizeof(uint16_t)), "fl_rle_encode_u32", "input does not overlap indices");
    fl_require(fl_is_apart(values, 1024 * sizeof(uint32_t), indices, 1024 * sizeof(uint16_t)), "fl_rle_encode_u32", "values does not overlap indices");
    return fl_rle_encode_u32(input, values, indices);
}
#define fl_rle_encode_u32 fl_checked_rle_encode_u32

static inline void fl_checked_rle_decode_u32(const uint32_t *values, size_t values_len, const uint16_t indices[1024], uint32_t output[1024]) {
    fl_require(values != NULL || values_len == 0, "fl_rle_decode_u32", "values is not null");
    fl_require(fl_is_aligned(values, sizeof(uint32_t)), "fl_rle_decode_u32", "values is aligned");
    fl_require(indices != NULL, "fl_rle_decode_u32", "indices is not null");
    fl_require(fl_is_aligned(indices, sizeof(uint16_t)), "fl_rle_decode_u32", "indices is aligned");
    fl_require(output != NULL, "fl_rle_decode_u32", "output is not null");
    fl_require(fl_is_aligned(output, sizeof(uint32_t)), "fl_rle_decode_u32", "output is aligned");
    fl_require(fl_are_below_16(indices, 1024, values_len), "fl_rle_decode_u32", "indices[k] < values_len for each k");
    fl_require(fl_is_apart(values, values_len * sizeof(uint32_t), output, 1024 * sizeof(uint32_t)), "fl_rle_decode_u32", "values does not overlap output");
    fl_require(fl_is_apart(indices, 1024 * sizeof(uint16_t), output, 1024 * sizeof(uint32_t)), "fl_rle_decode_u32", "indices does not overlap output");
    fl_rle_decode_u32(values, values_len, indices, output);
}
#define fl_rle_decode_u32 fl_checked_rle_decode_u32

static inline void fl_checked_unpack_cmp_u32(size_t width, const uint32_t *input, size_t input_len, uint32_t comparison, uint32_t value, uint64_t mask[16]) {
    fl_require(input != NULL || input_len == 0, "fl_unpack_cmp_u32", "input is not null");
    fl_require(fl_is_aligned(input, sizeof(uint32_t)), "fl_unpack_cmp_u32", "input is aligned");
    fl_require(mask != NULL, "fl_unpack_cmp_u32", "mask is not null");
    fl_require(fl_is_aligned(mask, sizeof(uint64_t)), "fl_unpack_cmp_u32", "mask is aligned");
    fl_require(width <= 32, "fl_unpack_cmp_u32", "width <= 32");
    fl_require(input_len == 32 * width, "fl_unpack_cmp_u32", "input_len == 32 * width");
    fl_require(comparison <= FL_GE, "fl_unpack_cmp_u32", "comparison <= FL_GE");
    fl_require(fl_is_apart(input, input_len * sizeof(uint32_t), mask, 16 * sizeof(uint64_t)), "fl_unpack_cmp_u32", "input does not overlap mask");
    fl_unpack_cmp_u32(width, input, input_len, comparison, value, mask);
}
#define fl_unpack_cmp_u32 fl_checked_unpack_cmp_u32

static inline void fl_checked_unpack_filter_u32(size_t width, const uint32_t *input, size_t input_len, uint32_t comparison, uint32_t value, uint64_t mask[16]) {
    fl_require(input != NULL || input_len == 0, "fl_unpack_filter_u32", "input is not null");
    fl_require(fl_is_aligned(input, sizeof(uint32_t)), "fl_unpack_filter_u32", "input is aligned");
    fl_require(mask != NULL, "fl_unpack_filter_u32", "mask is not null");
    fl_require(fl_is_aligned(mask, sizeof(uint64_t)), "fl_unpack_filter_u32", "mask is aligned");
    fl_require(width <= 32, "fl_unpack_filter_u32", "width <= 32");
    fl_require(input_len == 32 * width, "fl_unpack_filter_u32", "input_len == 32 * width");
    fl_require(comparison <= FL_GE, "fl_unpack_filter_u32", "comparison <= FL_GE");
    fl_require(fl_is_apart(input, input_len * sizeof(uint32_t), mask, 16 * sizeof(uint64_t)), "fl_unpack_filter_u32", "input does not overlap mask");
    fl_unpack_filter_u32(width, input, input_len, comparison, value, mask);
}
#define fl_unpack_filter_u32 fl_checked_unpack_filter_u32

static inline void fl_checked_unpack_cmp_i32(size_t width, const uint32_t *input, size_t input_len, uint32_t comparison, int32_t value, uint64_t mask[16]) {
    fl_require(input != NULL || input_len == 0, "fl_unpack_cmp_i32", "input is not null");
    fl_require(fl_is_aligned(input, sizeof(uint32_t)), "fl_unpack_cmp_i32", "input is aligned");
    fl_require(mask != NULL, "fl_unpack_cmp_i32", "mask is not null");
    fl_require(fl_is_aligned(mask, sizeof(uint64_t)), "fl_unpack_cmp_i32", "mask is aligned");
    fl_require(width <= 32, "fl_unpack_cmp_i32", "width <= 32");
    fl_require(input_len == 32 * width, "fl_unpack_cmp_i32", "input_len == 32 * width");
    fl_require(comparison <= FL_GE, "fl_unpack_cmp_i32", "comparison <= FL_GE");
    fl_require(fl_is_apart(input, input_len * sizeof(uint32_t), mask, 16 * sizeof(uint64_t)), "fl_unpack_cmp_i32", "input does not overlap mask");
    fl_unpack_cmp_i32(width, input, input_len, comparison, value, mask);
}
#define fl_unpack_cmp_i32 fl_checked_unpack_cmp_i32

static inline void fl_checked_unpack_filter_i32(size_t width, const uint32_t *input, size_t input_len, uint32_t comparison, int32_t value, uint64_t mask[16]) {
    fl_require(input != NULL || input_len == 0, "fl_unpack_filter_i32", "input is not null");
    fl_require(fl_is_aligned(input, sizeof(uint32_t)), "fl_unpack_filter_i32", "input is aligned");
    fl_require(mask != NULL, "fl_unpack_filter_i32", "mask is not null");
    fl_require(fl_is_aligned(mask, sizeof(uint64_t)), "fl_unpack_filter_i32", "mask is aligned");
    fl_require(width <= 32, "fl_unpack_filter_i32", "width <= 32");
    fl_require(input_len == 32 * width, "fl_unpack_filter_i32", "input_len == 32 * width");
    fl_require(comparison <= FL_GE, "fl_unpack_filter_i32", "comparison <= FL_GE");
    fl_require(fl_is_apart(input, input_len * sizeof(uint32_t), mask, 16 * sizeof(uint64_t)), "fl_unpack_filter_i32", "input does not overlap mask");
    fl_unpack_filter_i32(width, input, input_len, comparison, value, mask);
}
#define fl_unpack_filter_i32 fl_checked_unpack_filter_i32

static inline size_t fl_checked_column_encode_u32(const uint32_t *values, size_t values_len, uint32_t flags, uint8_t *bytes, size_t bytes_len) {
    fl_require(values != NULL || values_len == 0, "fl_column_encode_u32", "values is not null");
    fl_require(fl_is_aligned(values, sizeof(uint32_t)), "fl_column_encode_u32", "values is aligned");
    fl_require(bytes != NULL || bytes_len == 0, "fl_column_encode_u32", "bytes is not null");
    fl_require(fl_is_apart(values, values_len * sizeof(uint32_t), bytes, bytes_len * sizeof(uint8_t)), "fl_column_encode_u32", "values does not overlap bytes");
    return fl_column_encode_u32(values, values_len, flags, bytes, bytes_len);
}
#define fl_column_encode_u32 fl_checked_column_encode_u32

static inline uint32_t fl_checked_column_decode_u32(const uint8_t *bytes, size_t bytes_len, uint32_t *values, size_t values_len, size_t *count, size_t *error_offset) {
    fl_require(bytes != NULL || bytes_len == 0, "fl_column_decode_u32", "bytes is not null");
    fl_require(values != NULL || values_len == 0, "fl_column_decode_u32", "values is not null");
    fl_require(fl_is_aligned(values, sizeof(uint32_t)), "fl_column_decode_u32", "values is aligned");
    fl_require(count != NULL, "fl_column_decode_u32", "count is not null");
    fl_require(fl_is_aligned(count, sizeof(size_t)), "fl_column_decode_u32", "count is aligned");
    fl_require(error_offset != NULL, "fl_column_decode_u32", "error_offset is not null");
    fl_require(fl_is_aligned(error_offset, sizeof(size_t)), "fl_column_decode_u32", "error_offset is aligned");
    fl_require(fl_is_apart(bytes, bytes_len * sizeof(uint8_t), values, values_len * sizeof(uint32_t)), "fl_column_decode_u32", "bytes does not overlap values");
    fl_require(fl_is_apart(bytes, bytes_len * sizeof(uint8_t), count, sizeof(size_t)), "fl_column_decode_u32", "bytes does not overlap count");
    fl_require(fl_is_apart(bytes, bytes_len * sizeof(uint8_t), error_offset, sizeof(size_t)), "fl_column_decode_u32", "bytes does not overlap error_offset");
    fl_require(fl_is_apart(values, values_len * sizeof(uint32_t), count, sizeof(size_t)), "fl_column_decode_u32", "values does not overlap count");
    fl_require(fl_is_apart(values, values_len * sizeof(uint32_t), error_offset, sizeof(size_t)), "fl_column_decode_u32", "values does not overlap error_offset");
    fl_require(fl_is_apart(count, sizeof(size_t), error_offset, sizeof(size_t)), "fl_column_decode_u32", "count does not overlap error_offset");
    return fl_column_decode_u32(bytes, bytes_len, values, values_len, count, error_offset);
}
#define fl_column_decode_u32 fl_checked_column_decode_u32

static inline uint32_t fl_checked_column_open_u32(const uint8_t *bytes, size_t bytes_len, uint32_t flags, fl_column_u32 *column, size_t *error_offset) {
    fl_require(bytes != NULL || bytes_len == 0, "fl_column_open_u32", "bytes is not null");
    fl_require(column != NULL, "fl_column_open_u32", "column is not null");
    fl_require(fl_is_aligned(column, sizeof(void *)), "fl_column_open_u32", "column is aligned");
    fl_require(error_offset != NULL, "fl_column_open_u32", "error_offset is not null");
    fl_require(fl_is_aligned(error_offset, sizeof(size_t)), "fl_column_open_u32", "error_offset is aligned");
    fl_require(fl_is_apart(bytes, bytes_len * sizeof(uint8_t), column, sizeof(fl_column_u32)), "fl_column_open_u32", "bytes does not overlap column");
    fl_require(fl_is_apart(bytes, bytes_len * sizeof(uint8_t), error_offset, sizeof(size_t)), "fl_column_open_u32", "bytes does not overlap error_offset");
    fl_require(fl_is_apart(column, sizeof(fl_column_u32), error_offset, sizeof(size_t)), "fl_column_open_u32", "column does not overlap error_offset");
    return fl_column_open_u32(bytes, bytes_len, flags, column, error_offset);
}
#define fl_column_open_u32 fl_checked_column_open_u32

static inline uint64_t fl_checked_column_len_u32(const fl_column_u32 *column) {
    fl_require(column != NULL, "fl_column_len_u32", "column is not null");
    fl_require(fl_is_aligned(column, sizeof(void *)), "fl_column_len_u32", "column is aligned");
    fl_require(fl_is_open(column->bytes, column->bytes_len, 32), "fl_column_len_u32", "column was filled by fl_column_open_u32");
    return fl_column_len_u32(column);
}
#define fl_column_len_u32 fl_checked_column_len_u32

static inline uint32_t fl_checked_column_get_u32(const fl_column_u32 *column, uint64_t index) {
    fl_require(column != NULL, "fl_column_get_u32", "column is not null");
    fl_require(fl_is_aligned(column, sizeof(void *)), "fl_column_get_u32", "column is aligned");
    fl_require(fl_is_open(column->bytes, column->bytes_len, 32), "fl_column_get_u32", "column was filled by fl_column_open_u32");
    fl_require(index < column->len, "fl_column_get_u32", "index < fl_column_len_u32(column)");
    return fl_column_get_u32(column, index);
}
#define fl_column_get_u32 fl_checked_column_get_u32

static inline void fl_checked_column_read_u32(const fl_column_u32 *column, uint64_t start, uint32_t *values, size_t values_len) {
    fl_require(column != NULL, "fl_column_read_u32", "column is not null");
    fl_require(fl_is_aligned(column, sizeof(void *)), "fl_column_read_u32", "column is aligned");
    fl_require(values != NULL || values_len == 0, "fl_column_read_u32", "values is not null");
    fl_require(fl_is_aligned(values, sizeof(uint32_t)), "fl_column_read_u32", "values is aligned");
    fl_require(fl_is_open(column->bytes, column->bytes_len, 32), "fl_column_read_u32", "column was filled by fl_column_open_u32");
    fl_require(start <= column->len && values_len <= column->len - start, "fl_column_read_u32", "start + values_len <= fl_column_len_u32(column)");
    fl_require(fl_is_apart(column, sizeof(fl_column_u32), values, values_len * sizeof(uint32_t)), "fl_column_read_u32", "column does not overlap values");
    fl_require(fl_is_apart(values, values_len * sizeof(uint32_t), column->bytes, column->bytes_len), "fl_column_read_u32", "values does not overlap the bytes of column");
    fl_column_read_u32(column, start, values, values_len);
}
#define fl_column_read_u32 fl_checked_column_read_u32

static inline uint64_t fl_checked_column_filter_u32(const fl_column_u32 *column, uint32_t comparison, uint32_t value, uint64_t *mask, size_t mask_len) {
    fl_require(column != NULL, "fl_column_filter_u32", "column is not null");
    fl_require(fl_is_aligned(column, sizeof(void *)), "fl_column_filter_u32", "column is aligned");
    fl_require(mask != NULL || mask_len == 0, "fl_column_filter_u32", "mask is not null");
    fl_require(fl_is_aligned(mask, sizeof(uint64_t)), "fl_column_filter_u32", "mask is aligned");
    fl_require(fl_is_open(column->bytes, column->bytes_len, 32), "fl_column_filter_u32", "column was filled by fl_column_open_u32");
    fl_require(comparison <= FL_GE, "fl_column_filter_u32", "comparison <= FL_GE");
    fl_require(mask_len == column->len / 64 + (column->len % 64 != 0), "fl_column_filter_u32", "mask_len == (fl_column_len_u32(column) + 63) / 64");
    fl_require(fl_is_apart(column, sizeof(fl_column_u32), mask, mask_len * sizeof(uint64_t)), "fl_column_filter_u32", "column does not overlap mask");
    fl_require(fl_is_apart(mask, mask_len * sizeof(uint64_t), column->bytes, column->bytes_len), "fl_column_filter_u32", "mask does not overlap the bytes of column");
    return fl_column_filter_u32(column, comparison, value, mask, mask_len);
}
#define fl_column_filter_u32 fl_checked_column_filter_u32

static inline uint64_t fl_checked_column_count_u32(const fl_column_u32 *column, uint32_t comparison, uint32_t value) {
    fl_require(column != NULL, "fl_column_count_u32", "column is not null");
    fl_require(fl_is_aligned(column, sizeof(void *)), "fl_column_count_u32", "column is aligned");
    fl_require(fl_is_open(column->bytes, column->bytes_len, 32), "fl_column_count_u32", "column was filled by fl_column_open_u32");
    fl_require(comparison <= FL_GE, "fl_column_count_u32", "comparison <= FL_GE");
    return fl_column_count_u32(column, comparison, value);
}
#define fl_column_count_u32 fl_checked_column_count_u32

static inline void fl_checked_pack_u64(size_t width, const uint64_t input[1024], uint64_t *output, size_t output_len) {
    fl_require(input != NULL, "fl_pack_u64", "input is not null");
    fl_require(fl_is_aligned(input, sizeof(uint64_t)), "fl_pack_u64", "input is aligned");
    fl_require(output != NULL || output_len == 0, "fl_pack_u64", "output is not null");
    fl_require(fl_is_aligned(output, sizeof(uint64_t)), "fl_pack_u64", "output is aligned");
    fl_require(width <= 64, "fl_pack_u64", "width <= 64");
    fl_require(output_len == 16 * width, "fl_pack_u64", "output_len == 16 * width");
    fl_require(fl_is_apart(input, 1024 * sizeof(uint64_t), output, output_len * sizeof(uint64_t)), "fl_pack_u64", "input does not overlap output");
    fl_pack_u64(width, input, output, output_len);
}
#define fl_pack_u64 fl_checked_pack_u64

static inline void fl_checked_unpack_u64(size_t width, const uint64_t *input, size_t input_len, uint64_t output[1024]) {
    fl_require(input != NULL || input_len == 0, "fl_unpack_u64", "input is not null");
    fl_require(fl_is_aligned(input, sizeof(uint64_t)), "fl_unpack_u64", "input is aligned");
    fl_require(output != NULL, "fl_unpack_u64", "output is not null");
    fl_require(fl_is_aligned(output, sizeof(uint64_t)), "fl_unpack_u64", "output is aligned");
    fl_require(width <= 64, "fl_unpack_u64", "width <= 64");
    fl_require(input_len == 16 * width, "fl_unpack_u64", "input_len == 16 * width");
    fl_require(fl_is_apart(input, input_len * sizeof(uint64_t), output, 1024 * sizeof(uint64_t)), "fl_unpack_u64", "input does not overlap output");
    fl_unpack_u64(width, input, input_len, output);
}
#define fl_unpack_u64 fl_checked_unpack_u64

static inline void fl_checked_pack_blocks_u64(size_t width, size_t count, const uint64_t *input, size_t input_len, uint64_t *output, size_t output_len) {
    fl_require(input != NULL || input_len == 0, "fl_pack_blocks_u64", "input is not null");
    fl_require(fl_is_aligned(input, sizeof(uint64_t)), "fl_pack_blocks_u64", "input is aligned");
    fl_require(output != NULL || output_len == 0, "fl_pack_blocks_u64", "output is not null");
    fl_require(fl_is_aligned(output, sizeof(uint64_t)), "fl_pack_blocks_u64", "output is aligned");
    fl_require(width <= 64, "fl_pack_blocks_u64", "width <= 64");
    fl_require(fl_is_product(input_len, 1024, count), "fl_pack_blocks_u64", "input_len == 1024 * count");
    fl_require(fl_is_product(output_len, 16 * width, count), "fl_pack_blocks_u64", "output_len == 16 * width * count");
    fl_require(fl_is_apart(input, input_len * sizeof(uint64_t), output, output_len * sizeof(uint64_t)), "fl_pack_blocks_u64", "input does not overlap output");
    fl_pack_blocks_u64(width, count, input, input_len, output, output_len);
}
#define fl_pack_blocks_u64 fl_checked_pack_blocks_u64

static inline void fl_checked_unpack_blocks_u64(size_t width, size_t count, const uint64_t *input, size_t input_len, uint64_t *output, size_t output_len) {
    fl_require(input != NULL || input_len == 0, "fl_unpack_blocks_u64", "input is not null");
    fl_require(fl_is_aligned(input, sizeof(uint64_t)), "fl_unpack_blocks_u64", "input is aligned");
    fl_require(output != NULL || output_len == 0, "fl_unpack_blocks_u64", "output is not null");
    fl_require(fl_is_aligned(output, sizeof(uint64_t)), "fl_unpack_blocks_u64", "output is aligned");
    fl_require(width <= 64, "fl_unpack_blocks_u64", "width <= 64");
    fl_require(fl_is_product(input_len, 16 * width, count), "fl_unpack_blocks_u64", "input_len == 16 * width * count");
    fl_require(fl_is_product(output_len, 1024, count), "fl_unpack_blocks_u64", "output_len == 1024 * count");
    fl_require(fl_is_apart(input, input_len * sizeof(uint64_t), output, output_len * sizeof(uint64_t)), "fl_unpack_blocks_u64", "input does not overlap output");
    fl_unpack_blocks_u64(width, count, input, input_len, output, output_len);
}
#define fl_unpack_blocks_u64 fl_checked_unpack_blocks_u64

static inline uint64_t fl_checked_unpack_single_u64(size_t width, const uint64_t *input, size_t input_len, size_t index) {
    fl_require(input != NULL || input_len == 0, "fl_unpack_single_u64", "input is not null");
    fl_require(fl_is_aligned(input, sizeof(uint64_t)), "fl_unpack_single_u64", "input is aligned");
    fl_require(width <= 64, "fl_unpack_single_u64", "width <= 64");
    fl_require(input_len == 16 * width, "fl_unpack_single_u64", "input_len == 16 * width");
    fl_require(width == 0 || index < 1024, "fl_unpack_single_u64", "width == 0 || index < 1024");
    return fl_unpack_single_u64(width, input, input_len, index);
}
#define fl_unpack_single_u64 fl_checked_unpack_single_u64

static inline void fl_checked_unpack_indices_u64(size_t width, const uint64_t *input, size_t input_len, const size_t *indices, size_t indices_len, uint64_t *output, size_t output_len) {
    fl_require(input != NULL || input_len == 0, "fl_unpack_indices_u64", "input is not null");
    fl_require(fl_is_aligned(input, sizeof(uint64_t)), "fl_unpack_indices_u64", "input is aligned");
    fl_require(indices != NULL || indices_len == 0, "fl_unpack_indices_u64", "indices is not null");
    fl_require(fl_is_aligned(indices, sizeof(size_t)), "fl_unpack_indices_u64", "indices is aligned");
    fl_require(output != NULL || output_len == 0, "fl_unpack_indices_u64", "output is not null");
    fl_require(fl_is_aligned(output, sizeof(uint64_t)), "fl_unpack_indices_u64", "output is aligned");
    fl_require(width <= 64, "fl_unpack_indices_u64", "width <= 64");
    fl_require(input_len == 16 * width, "fl_unpack_indices_u64", "input_len == 16 * width");
    fl_require(width == 0 || fl_are_below(indices, indices_len, 1024), "fl_unpack_indices_u64", "width == 0 || indices[k] < 1024 for each k");
    fl_require(output_len == indices_len, "fl_unpack_indices_u64", "output_len == indices_len");
    fl_require(fl_is_apart(input, input_len * sizeof(uint64_t), output, output_len * sizeof(uint64_t)), "fl_unpack_indices_u64", "input does not overlap output");
    fl_require(fl_is_apart(indices, indices_len * sizeof(size_t), output, output_len * sizeof(uint64_t)), "fl_unpack_indices_u64", "indices does not overlap output");
    fl_unpack_indices_u64(width, input, input_len, indices, indices_len, output, output_len);
}
#define fl_unpack_indices_u64 fl_checked_unpack_indices_u64

static inline uint64_t fl_checked_unpack_sum_u64(size_t width, const uint64_t *input, size_t input_len) {
    fl_require(input != NULL || input_len == 0, "fl_unpack_sum_u64", "input is not null");
    fl_require(fl_is_aligned(input, sizeof(uint64_t)), "fl_unpack_sum_u64", "input is aligned");
    fl_require(width <= 64, "fl_unpack_sum_u64", "width <= 64");
    fl_require(input_len == 16 * width, "fl_unpack_sum_u64", "input_len == 16 * width");
    return fl_unpack_sum_u64(width, input, input_len);
}
#define fl_unpack_sum_u64 fl_checked_unpack_sum_u64

static inline void fl_checked_unpack_range_u64(size_t width, const uint64_t *input, size_t input_len, uint64_t *minimum, uint64_t *maximum) {
    fl_require(input != NULL || input_len == 0, "fl_unpack_range_u64", "input is not null");
    fl_require(fl_is_aligned(input, sizeof(uint64_t)), "fl_unpack_range_u64", "input is aligned");
    fl_require(minimum != NULL, "fl_unpack_range_u64", "minimum is not null");
    fl_require(fl_is_aligned(minimum, sizeof(uint64_t)), "fl_unpack_range_u64", "minimum is aligned");
    fl_require(maximum != NULL, "fl_unpack_range_u64", "maximum is not null");
    fl_require(fl_is_aligned(maximum, sizeof(uint64_t)), "fl_unpack_range_u64", "maximum is aligned");
    fl_require(width <= 64, "fl_unpack_range_u64", "width <= 64");
    fl_require(input_len == 16 * width, "fl_unpack_range_u64", "input_len == 16 * width");
    fl_require(fl_is_apart(input, input_len * sizeof(uint64_t), minimum, sizeof(uint64_t)), "fl_unpack_range_u64", "input does not overlap minimum");
    fl_require(fl_is_apart(input, input_len * sizeof(uint64_t), maximum, sizeof(uint64_t)), "fl_unpack_range_u64", "input does not overlap maximum");
    fl_require(fl_is_apart(minimum, sizeof(uint64_t), maximum, sizeof(uint64_t)), "fl_unpack_range_u64", "minimum does not overlap maximum");
    fl_unpack_range_u64(width, input, input_len, minimum, maximum);
}
#define fl_unpack_range_u64 fl_checked_unpack_range_u64

static inline void fl_checked_for_pack_u64(size_t width, const uint64_t input[1024], uint64_t reference, uint64_t *output, size_t output_len) {
    fl_require(input != NULL, "fl_for_pack_u64", "input is not null");
    fl_require(fl_is_aligned(input, sizeof(uint64_t)), "fl_for_pack_u64", "input is aligned");
    fl_require(output != NULL || output_len == 0, "fl_for_pack_u64", "output is not null");
    fl_require(fl_is_aligned(output, sizeof(uint64_t)), "fl_for_pack_u64", "output is aligned");
    fl_require(width <= 64, "fl_for_pack_u64", "width <= 64");
    fl_require(output_len == 16 * width, "fl_for_pack_u64", "output_len == 16 * width");
    fl_require(fl_is_apart(input, 1024 * sizeof(uint64_t), output, output_len * sizeof(uint64_t)), "fl_for_pack_u64", "input does not overlap output");
    fl_for_pack_u64(width, input, reference, output, output_len);
}
#define fl_for_pack_u64 fl_checked_for_pack_u64

static inline void fl_checked_unfor_pack_u64(size_t width, const uint64_t *input, size_t input_len, uint64_t reference, uint64_t output[1024]) {
    fl_require(input != NULL || input_len == 0, "fl_unfor_pack_u64", "input is not null");
    fl_require(fl_is_aligned(input, sizeof(uint64_t)), "fl_unfor_pack_u64", "input is aligned");
    fl_require(output != NULL, "fl_unfor_pack_u64", "output is not null");
    fl_require(fl_is_aligned(output, sizeof(uint64_t)), "fl_unfor_pack_u64", "output is aligned");
    fl_require(width <= 64, "fl_unfor_pack_u64", "width <= 64");
    fl_require(input_len == 16 * width, "fl_unfor_pack_u64", "input_len == 16 * width");
    fl_require(fl_is_apart(input, input_len * sizeof(uint64_t), output, 1024 * sizeof(uint64_t)), "fl_unfor_pack_u64", "input does not overlap output");
    fl_unfor_pack_u64(width, input, input_len, reference, output);
}
#define fl_unfor_pack_u64 fl_checked_unfor_pack_u64

static inline size_t fl_checked_frame_head_u64(const uint64_t input[1024], uint64_t *reference) {
    fl_require(input != NULL, "fl_frame_head_u64", "input is not null");
    fl_require(fl_is_aligned(input, sizeof(uint64_t)), "fl_frame_head_u64", "input is aligned");
    fl_require(reference != NULL, "fl_frame_head_u64", "reference is not null");
    fl_require(fl_is_aligned(reference, sizeof(uint64_t)), "fl_frame_head_u64", "reference is aligned");
    fl_require(fl_is_apart(input, 1024 * sizeof(uint64_t), reference, sizeof(uint64_t)), "fl_frame_head_u64", "input does not overlap reference");
    return fl_frame_head_u64(input, reference);
}
#define fl_frame_head_u64 fl_checked_frame_head_u64

static inline uint64_t fl_checked_frame_get_u64(size_t width, uint64_t reference, const uint64_t *input, size_t input_len, size_t index) {
    fl_require(input != NULL || input_len == 0, "fl_frame_get_u64", "input is not null");
    fl_require(fl_is_aligned(input, sizeof(uint64_t)), "fl_frame_get_u64", "input is aligned");
    fl_require(width <= 64, "fl_frame_get_u64", "width <= 64");
    fl_require(input_len == 16 * width, "fl_frame_get_u64", "input_len == 16 * width");
    fl_require(index < 1024, "fl_frame_get_u64", "index < 1024");
    return fl_frame_get_u64(width, reference, input, input_len, index);
}
#define fl_frame_get_u64 fl_checked_frame_get_u64

static inline void fl_checked_delta_u64(const uint64_t input[1024], const uint64_t base[16], uint64_t output[1024]) {
    fl_require(input != NULL, "fl_delta_u64", "input is not null");
    fl_require(fl_is_aligned(input, sizeof(uint64_t)), "fl_delta_u64", "input is aligned");
    fl_require(base != NULL, "fl_delta_u64", "base is not null");
    fl_require(fl_is_aligned(base, sizeof(uint64_t)), "fl_delta_u64", "base is aligned");
    fl_require(output != NULL, "fl_delta_u64", "output is not null");
    fl_require(fl_is_aligned(output, sizeof(uint64_t)), "fl_delta_u64", "output is aligned");
    fl_require(fl_is_apart(input, 1024 * sizeof(uint64_t), output, 1024 * sizeof(uint64_t)), "fl_delta_u64", "input does not overlap output");
    fl_require(fl_is_apart(base, 16 * sizeof(uint64_t), output, 1024 * sizeof(uint64_t)), "fl_delta_u64", "base does not overlap output");
    fl_delta_u64(input, base, output);
}
#define fl_delta_u64 fl_checked_delta_u64

static inline void fl_checked_undelta_u64(const uint64_t input[1024], const uint64_t base[16], uint64_t output[1024]) {
    fl_require(input != NULL, "fl_undelta_u64", "input is not null");
    fl_require(fl_is_aligned(input, sizeof(uint64_t)), "fl_undelta_u64", "input is aligned");
    fl_require(base != NULL, "fl_undelta_u64", "base is not null");
    fl_require(fl_is_aligned(base, sizeof(uint64_t)), "fl_undelta_u64", "base is aligned");
    fl_require(output != NULL, "fl_undelta_u64", "output is not null");
    fl_require(fl_is_aligned(output, sizeof(uint64_t)), "fl_undelta_u64", "output is aligned");
    fl_require(fl_is_apart(input, 1024 * sizeof(uint64_t), output, 1024 * sizeof(uint64_t)), "fl_undelta_u64", "input does not overlap output");
    fl_require(fl_is_apart(base, 16 * sizeof(uint64_t), output, 1024 * sizeof(uint64_t)), "fl_undelta_u64", "base does not overlap output");
    fl_undelta_u64(input, base, output);
}
#define fl_undelta_u64 fl_checked_undelta_u64

static inline void fl_checked_undelta_pack_u64(size_t width, const uint64_t *input, size_t input_len, const uint64_t base[16], uint64_t output[1024]) {
    fl_require(input != NULL || input_len == 0, "fl_undelta_pack_u64", "input is not null");
    fl_require(fl_is_aligned(input, sizeof(uint64_t)), "fl_undelta_pack_u64", "input is aligned");
    fl_require(base != NULL, "fl_undelta_pack_u64", "base is not null");
    fl_require(fl_is_aligned(base, sizeof(uint64_t)), "fl_undelta_pack_u64", "base is aligned");
    fl_require(output != NULL, "fl_undelta_pack_u64", "output is not null");
    fl_require(fl_is_aligned(output, sizeof(uint64_t)), "fl_undelta_pack_u64", "output is aligned");
    fl_require(width <= 64, "fl_undelta_pack_u64", "width <= 64");
    fl_require(input_len == 16 * width, "fl_undelta_pack_u64", "input_len == 16 * width");
    fl_require(fl_is_apart(input, input_len * sizeof(uint64_t), output, 1024 * sizeof(uint64_t)), "fl_undelta_pack_u64", "input does not overlap output");
    fl_require(fl_is_apart(base, 16 * sizeof(uint64_t), output, 1024 * sizeof(uint64_t)), "fl_undelta_pack_u64", "base does not overlap output");
    fl_undelta_pack_u64(width, input, input_len, base, output);
}
#define fl_undelta_pack_u64 fl_checked_undelta_pack_u64

static inline size_t fl_checked_delta_width_u64(const uint64_t input[1024], const uint64_t base[16]) {
    fl_require(input != NULL, "fl_delta_width_u64", "input is not null");
    fl_require(fl_is_aligned(input, sizeof(uint64_t)), "fl_delta_width_u64", "input is aligned");
    fl_require(base != NULL, "fl_delta_width_u64", "base is not null");
    fl_require(fl_is_aligned(base, sizeof(uint64_t)), "fl_delta_width_u64", "base is aligned");
    return fl_delta_width_u64(input, base);
}
#define fl_delta_width_u64 fl_checked_delta_width_u64

static inline void fl_checked_delta_write_u64(size_t width, const uint64_t input[1024], const uint64_t base[16], uint64_t *output, size_t output_len) {
    fl_require(input != NULL, "fl_delta_write_u64", "input is not null");
    fl_require(fl_is_aligned(input, sizeof(uint64_t)), "fl_delta_write_u64", "input is aligned");
    fl_require(base != NULL, "fl_delta_write_u64", "base is not null");
    fl_require(fl_is_aligned(base, sizeof(uint64_t)), "fl_delta_write_u64", "base is aligned");
    fl_require(output != NULL || output_len == 0, "fl_delta_write_u64", "output is not null");
    fl_require(fl_is_aligned(output, sizeof(uint64_t)), "fl_delta_write_u64", "output is aligned");
    fl_require(width <= 64, "fl_delta_write_u64", "width <= 64");
    fl_require(output_len == 16 * width, "fl_delta_write_u64", "output_len == 16 * width");
    fl_require(fl_is_apart(input, 1024 * sizeof(uint64_t), output, output_len * sizeof(uint64_t)), "fl_delta_write_u64", "input does not overlap output");
    fl_require(fl_is_apart(base, 16 * sizeof(uint64_t), output, output_len * sizeof(uint64_t)), "fl_delta_write_u64", "base does not overlap output");
    fl_delta_write_u64(width, input, base, output, output_len);
}
#define fl_delta_write_u64 fl_checked_delta_write_u64

static inline void fl_checked_delta_read_u64(size_t width, const uint64_t *input, size_t input_len, const uint64_t base[16], uint64_t output[1024]) {
    fl_require(input != NULL || input_len == 0, "fl_delta_read_u64", "input is not null");
    fl_require(fl_is_aligned(input, sizeof(uint64_t)), "fl_delta_read_u64", "input is aligned");
    fl_require(base != NULL, "fl_delta_read_u64", "base is not null");
    fl_require(fl_is_aligned(base, sizeof(uint64_t)), "fl_delta_read_u64", "base is aligned");
    fl_require(output != NULL, "fl_delta_read_u64", "output is not null");
    fl_require(fl_is_aligned(output, sizeof(uint64_t)), "fl_delta_read_u64", "output is aligned");
    fl_require(width <= 64, "fl_delta_read_u64", "width <= 64");
    fl_require(input_len == 16 * width, "fl_delta_read_u64", "input_len == 16 * width");
    fl_require(fl_is_apart(input, input_len * sizeof(uint64_t), output, 1024 * sizeof(uint64_t)), "fl_delta_read_u64", "input does not overlap output");
    fl_require(fl_is_apart(base, 16 * sizeof(uint64_t), output, 1024 * sizeof(uint64_t)), "fl_delta_read_u64", "base does not overlap output");
    fl_delta_read_u64(width, input, input_len, base, output);
}
#define fl_delta_read_u64 fl_checked_delta_read_u64

static inline void fl_checked_transpose_u64(const uint64_t input[1024], uint64_t output[1024]) {
    fl_require(input != NULL, "fl_transpose_u64", "input is not null");
    fl_require(fl_is_aligned(input, sizeof(uint64_t)), "fl_transpose_u64", "input is aligned");
    fl_require(output != NULL, "fl_transpose_u64", "output is not null");
    fl_require(fl_is_aligned(output, sizeof(uint64_t)), "fl_transpose_u64", "output is aligned");
    fl_require(fl_is_apart(input, 1024 * sizeof(uint64_t), output, 1024 * sizeof(uint64_t)), "fl_transpose_u64", "input does not overlap output");
    fl_transpose_u64(input, output);
}
#define fl_transpose_u64 fl_checked_transpose_u64

static inline void fl_checked_untranspose_u64(const uint64_t input[1024], uint64_t output[1024]) {
    fl_require(input != NULL, "fl_untranspose_u64", "input is not null");
    fl_require(fl_is_aligned(input, sizeof(uint64_t)), "fl_untranspose_u64", "input is aligned");
    fl_require(output != NULL, "fl_untranspose_u64", "output is not null");
    fl_require(fl_is_aligned(output, sizeof(uint64_t)), "fl_untranspose_u64", "output is aligned");
    fl_require(fl_is_apart(input, 1024 * sizeof(uint64_t), output, 1024 * sizeof(uint64_t)), "fl_untranspose_u64", "input does not overlap output");
    fl_untranspose_u64(input, output);
}
#define fl_untranspose_u64 fl_checked_untranspose_u64

static inline void fl_checked_transpose_bits_u64(const uint64_t input[16], uint64_t output[16]) {
    fl_require(input != NULL, "fl_transpose_bits_u64", "input is not null");
    fl_require(fl_is_aligned(input, sizeof(uint64_t)), "fl_transpose_bits_u64", "input is aligned");
    fl_require(output != NULL, "fl_transpose_bits_u64", "output is not null");
    fl_require(fl_is_aligned(output, sizeof(uint64_t)), "fl_transpose_bits_u64", "output is aligned");
    fl_require(fl_is_apart(input, 16 * sizeof(uint64_t), output, 16 * sizeof(uint64_t)), "fl_transpose_bits_u64", "input does not overlap output");
    fl_transpose_bits_u64(input, output);
}
#define fl_transpose_bits_u64 fl_checked_transpose_bits_u64

static inline void fl_checked_untranspose_bits_u64(const uint64_t input[16], uint64_t output[16]) {
    fl_require(input != NULL, "fl_untranspose_bits_u64", "input is not null");
    fl_require(fl_is_aligned(input, sizeof(uint64_t)), "fl_untranspose_bits_u64", "input is aligned");
    fl_require(output != NULL, "fl_untranspose_bits_u64", "output is not null");
    fl_require(fl_is_aligned(output, sizeof(uint64_t)), "fl_untranspose_bits_u64", "output is aligned");
    fl_require(fl_is_apart(input, 16 * sizeof(uint64_t), output, 16 * sizeof(uint64_t)), "fl_untranspose_bits_u64", "input does not overlap output");
    fl_untranspose_bits_u64(input, output);
}
#define fl_untranspose_bits_u64 fl_checked_untranspose_bits_u64

static inline size_t fl_checked_rle_encode_u64(const uint64_t input[1024], uint64_t values[1024], uint16_t indices[1024]) {
    fl_require(input != NULL, "fl_rle_encode_u64", "input is not null");
    fl_require(fl_is_aligned(input, sizeof(uint64_t)), "fl_rle_encode_u64", "input is aligned");
    fl_require(values != NULL, "fl_rle_encode_u64", "values is not null");
    fl_require(fl_is_aligned(values, sizeof(uint64_t)), "fl_rle_encode_u64", "values is aligned");
    fl_require(indices != NULL, "fl_rle_encode_u64", "indices is not null");
    fl_require(fl_is_aligned(indices, sizeof(uint16_t)), "fl_rle_encode_u64", "indices is aligned");
    fl_require(fl_is_apart(input, 1024 * sizeof(uint64_t), values, 1024 * sizeof(uint64_t)), "fl_rle_encode_u64", "input does not overlap values");
    fl_require(fl_is_apart(input, 1024 * sizeof(uint64_t), indices, 1024 * sizeof(uint16_t)), "fl_rle_encode_u64", "input does not overlap indices");
    fl_require(fl_is_apart(values, 1024 * sizeof(uint64_t), indices, 1024 * sizeof(uint16_t)), "fl_rle_encode_u64", "values does not overlap indices");
    return fl_rle_encode_u64(input, values, indices);
}
#define fl_rle_encode_u64 fl_checked_rle_encode_u64

static inline void fl_checked_rle_decode_u64(const uint64_t *values, size_t values_len, const uint16_t indices[1024], uint64_t output[1024]) {
    fl_require(values != NULL || values_len == 0, "fl_rle_decode_u64", "values is not null");
    fl_require(fl_is_aligned(values, sizeof(uint64_t)), "fl_rle_decode_u64", "values is aligned");
    fl_require(indices != NULL, "fl_rle_decode_u64", "indices is not null");
    fl_require(fl_is_aligned(indices, sizeof(uint16_t)), "fl_rle_decode_u64", "indices is aligned");
    fl_require(output != NULL, "fl_rle_decode_u64", "output is not null");
    fl_require(fl_is_aligned(output, sizeof(uint64_t)), "fl_rle_decode_u64", "output is aligned");
    fl_require(fl_are_below_16(indices, 1024, values_len), "fl_rle_decode_u64", "indices[k] < values_len for each k");
    fl_require(fl_is_apart(values, values_len * sizeof(uint64_t), output, 1024 * sizeof(uint64_t)), "fl_rle_decode_u64", "values does not overlap output");
    fl_require(fl_is_apart(indices, 1024 * sizeof(uint16_t), output, 1024 * sizeof(uint64_t)), "fl_rle_decode_u64", "indices does not overlap output");
    fl_rle_decode_u64(values, values_len, indices, output);
}
#define fl_rle_decode_u64 fl_checked_rle_decode_u64

static inline void fl_checked_unpack_cmp_u64(size_t width, const uint64_t *input, size_t input_len, uint32_t comparison, uint64_t value, uint64_t mask[16]) {
    fl_require(input != NULL || input_len == 0, "fl_unpack_cmp_u64", "input is not null");
    fl_require(fl_is_aligned(input, sizeof(uint64_t)), "fl_unpack_cmp_u64", "input is aligned");
    fl_require(mask != NULL, "fl_unpack_cmp_u64", "mask is not null");
    fl_require(fl_is_aligned(mask, sizeof(uint64_t)), "fl_unpack_cmp_u64", "mask is aligned");
    fl_require(width <= 64, "fl_unpack_cmp_u64", "width <= 64");
    fl_require(input_len == 16 * width, "fl_unpack_cmp_u64", "input_len == 16 * width");
    fl_require(comparison <= FL_GE, "fl_unpack_cmp_u64", "comparison <= FL_GE");
    fl_require(fl_is_apart(input, input_len * sizeof(uint64_t), mask, 16 * sizeof(uint64_t)), "fl_unpack_cmp_u64", "input does not overlap mask");
    fl_unpack_cmp_u64(width, input, input_len, comparison, value, mask);
}
#define fl_unpack_cmp_u64 fl_checked_unpack_cmp_u64

static inline void fl_checked_unpack_filter_u64(size_t width, const uint64_t *input, size_t input_len, uint32_t comparison, uint64_t value, uint64_t mask[16]) {
    fl_require(input != NULL || input_len == 0, "fl_unpack_filter_u64", "input is not null");
    fl_require(fl_is_aligned(input, sizeof(uint64_t)), "fl_unpack_filter_u64", "input is aligned");
    fl_require(mask != NULL, "fl_unpack_filter_u64", "mask is not null");
    fl_require(fl_is_aligned(mask, sizeof(uint64_t)), "fl_unpack_filter_u64", "mask is aligned");
    fl_require(width <= 64, "fl_unpack_filter_u64", "width <= 64");
    fl_require(input_len == 16 * width, "fl_unpack_filter_u64", "input_len == 16 * width");
    fl_require(comparison <= FL_GE, "fl_unpack_filter_u64", "comparison <= FL_GE");
    fl_require(fl_is_apart(input, input_len * sizeof(uint64_t), mask, 16 * sizeof(uint64_t)), "fl_unpack_filter_u64", "input does not overlap mask");
    fl_unpack_filter_u64(width, input, input_len, comparison, value, mask);
}
#define fl_unpack_filter_u64 fl_checked_unpack_filter_u64

static inline void fl_checked_unpack_cmp_i64(size_t width, const uint64_t *input, size_t input_len, uint32_t comparison, int64_t value, uint64_t mask[16]) {
    fl_require(input != NULL || input_len == 0, "fl_unpack_cmp_i64", "input is not null");
    fl_require(fl_is_aligned(input, sizeof(uint64_t)), "fl_unpack_cmp_i64", "input is aligned");
    fl_require(mask != NULL, "fl_unpack_cmp_i64", "mask is not null");
    fl_require(fl_is_aligned(mask, sizeof(uint64_t)), "fl_unpack_cmp_i64", "mask is aligned");
    fl_require(width <= 64, "fl_unpack_cmp_i64", "width <= 64");
    fl_require(input_len == 16 * width, "fl_unpack_cmp_i64", "input_len == 16 * width");
    fl_require(comparison <= FL_GE, "fl_unpack_cmp_i64", "comparison <= FL_GE");
    fl_require(fl_is_apart(input, input_len * sizeof(uint64_t), mask, 16 * sizeof(uint64_t)), "fl_unpack_cmp_i64", "input does not overlap mask");
    fl_unpack_cmp_i64(width, input, input_len, comparison, value, mask);
}
#define fl_unpack_cmp_i64 fl_checked_unpack_cmp_i64

static inline void fl_checked_unpack_filter_i64(size_t width, const uint64_t *input, size_t input_len, uint32_t comparison, int64_t value, uint64_t mask[16]) {
    fl_require(input != NULL || input_len == 0, "fl_unpack_filter_i64", "input is not null");
    fl_require(fl_is_aligned(input, sizeof(uint64_t)), "fl_unpack_filter_i64", "input is aligned");
    fl_require(mask != NULL, "fl_unpack_filter_i64", "mask is not null");
    fl_require(fl_is_aligned(mask, sizeof(uint64_t)), "fl_unpack_filter_i64", "mask is aligned");
    fl_require(width <= 64, "fl_unpack_filter_i64", "width <= 64");
    fl_require(input_len == 16 * width, "fl_unpack_filter_i64", "input_len == 16 * width");
    fl_require(comparison <= FL_GE, "fl_unpack_filter_i64", "comparison <= FL_GE");
    fl_require(fl_is_apart(input, input_len * sizeof(uint64_t), mask, 16 * sizeof(uint64_t)), "fl_unpack_filter_i64", "input does not overlap mask");
    fl_unpack_filter_i64(width, input, input_len, comparison, value, mask);
}
#define fl_unpack_filter_i64 fl_checked_unpack_filter_i64

static inline size_t fl_checked_column_encode_u64(const uint64_t *values, size_t values_len, uint32_t flags, uint8_t *bytes, size_t bytes_len) {
    fl_require(values != NULL || values_len == 0, "fl_column_encode_u64", "values is not null");
    fl_require(fl_is_aligned(values, sizeof(uint64_t)), "fl_column_encode_u64", "values is aligned");
    fl_require(bytes != NULL || bytes_len == 0, "fl_column_encode_u64", "bytes is not null");
    fl_require(fl_is_apart(values, values_len * sizeof(uint64_t), bytes, bytes_len * sizeof(uint8_t)), "fl_column_encode_u64", "values does not overlap bytes");
    return fl_column_encode_u64(values, values_len, flags, bytes, bytes_len);
}
#define fl_column_encode_u64 fl_checked_column_encode_u64

static inline uint32_t fl_checked_column_decode_u64(const uint8_t *bytes, size_t bytes_len, uint64_t *values, size_t values_len, size_t *count, size_t *error_offset) {
    fl_require(bytes != NULL || bytes_len == 0, "fl_column_decode_u64", "bytes is not null");
    fl_require(values != NULL || values_len == 0, "fl_column_decode_u64", "values is not null");
    fl_require(fl_is_aligned(values, sizeof(uint64_t)), "fl_column_decode_u64", "values is aligned");
    fl_require(count != NULL, "fl_column_decode_u64", "count is not null");
    fl_require(fl_is_aligned(count, sizeof(size_t)), "fl_column_decode_u64", "count is aligned");
    fl_require(error_offset != NULL, "fl_column_decode_u64", "error_offset is not null");
    fl_require(fl_is_aligned(error_offset, sizeof(size_t)), "fl_column_decode_u64", "error_offset is aligned");
    fl_require(fl_is_apart(bytes, bytes_len * sizeof(uint8_t), values, values_len * sizeof(uint64_t)), "fl_column_decode_u64", "bytes does not overlap values");
    fl_require(fl_is_apart(bytes, bytes_len * sizeof(uint8_t), count, sizeof(size_t)), "fl_column_decode_u64", "bytes does not overlap count");
    fl_require(fl_is_apart(bytes, bytes_len * sizeof(uint8_t), error_offset, sizeof(size_t)), "fl_column_decode_u64", "bytes does not overlap error_offset");
    fl_require(fl_is_apart(values, values_len * sizeof(uint64_t), count, sizeof(size_t)), "fl_column_decode_u64", "values does not overlap count");
    fl_require(fl_is_apart(values, values_len * sizeof(uint64_t), error_offset, sizeof(size_t)), "fl_column_decode_u64", "values does not overlap error_offset");
    fl_require(fl_is_apart(count, sizeof(size_t), error_offset, sizeof(size_t)), "fl_column_decode_u64", "count does not overlap error_offset");
    return fl_column_decode_u64(bytes, bytes_len, values, values_len, count, error_offset);
}
#define fl_column_decode_u64 fl_checked_column_decode_u64

static inline uint32_t fl_checked_column_open_u64(const uint8_t *bytes, size_t bytes_len, uint32_t flags, fl_column_u64 *column, size_t *error_offset) {
    fl_require(bytes != NULL || bytes_len == 0, "fl_column_open_u64", "bytes is not null");
    fl_require(column != NULL, "fl_column_open_u64", "column is not null");
    fl_require(fl_is_aligned(column, sizeof(void *)), "fl_column_open_u64", "column is aligned");
    fl_require(error_offset != NULL, "fl_column_open_u64", "error_offset is not null");
    fl_require(fl_is_aligned(error_offset, sizeof(size_t)), "fl_column_open_u64", "error_offset is aligned");
    fl_require(fl_is_apart(bytes, bytes_len * sizeof(uint8_t), column, sizeof(fl_column_u64)), "fl_column_open_u64", "bytes does not overlap column");
    fl_require(fl_is_apart(bytes, bytes_len * sizeof(uint8_t), error_offset, sizeof(size_t)), "fl_column_open_u64", "bytes does not overlap error_offset");
    fl_require(fl_is_apart(column, sizeof(fl_column_u64), error_offset, sizeof(size_t)), "fl_column_open_u64", "column does not overlap error_offset");
    return fl_column_open_u64(bytes, bytes_len, flags, column, error_offset);
}
#define fl_column_open_u64 fl_checked_column_open_u64

static inline uint64_t fl_checked_column_len_u64(const fl_column_u64 *column) {
    fl_require(column != NULL, "fl_column_len_u64", "column is not null");
    fl_require(fl_is_aligned(column, sizeof(void *)), "fl_column_len_u64", "column is aligned");
    fl_require(fl_is_open(column->bytes, column->bytes_len, 64), "fl_column_len_u64", "column was filled by fl_column_open_u64");
    return fl_column_len_u64(column);
}
#define fl_column_len_u64 fl_checked_column_len_u64

static inline uint64_t fl_checked_column_get_u64(const fl_column_u64 *column, uint64_t index) {
    fl_require(column != NULL, "fl_column_get_u64", "column is not null");
    fl_require(fl_is_aligned(column, sizeof(void *)), "fl_column_get_u64", "column is aligned");
    fl_require(fl_is_open(column->bytes, column->bytes_len, 64), "fl_column_get_u64", "column was filled by fl_column_open_u64");
    fl_require(index < column->len, "fl_column_get_u64", "index < fl_column_len_u64(column)");
    return fl_column_get_u64(column, index);
}
#define fl_column_get_u64 fl_checked_column_get_u64

static inline void fl_checked_column_read_u64(const fl_column_u64 *column, uint64_t start, uint64_t *values, size_t values_len) {
    fl_require(column != NULL, "fl_column_read_u64", "column is not null");
    fl_require(fl_is_aligned(column, sizeof(void *)), "fl_column_read_u64", "column is aligned");
    fl_require(values != NULL || values_len == 0, "fl_column_read_u64", "values is not null");
    fl_require(fl_is_aligned(values, sizeof(uint64_t)), "fl_column_read_u64", "values is aligned");
    fl_require(fl_is_open(column->bytes, column->bytes_len, 64), "fl_column_read_u64", "column was filled by fl_column_open_u64");
    fl_require(start <= column->len && values_len <= column->len - start, "fl_column_read_u64", "start + values_len <= fl_column_len_u64(column)");
    fl_require(fl_is_apart(column, sizeof(fl_column_u64), values, values_len * sizeof(uint64_t)), "fl_column_read_u64", "column does not overlap values");
    fl_require(fl_is_apart(values, values_len * sizeof(uint64_t), column->bytes, column->bytes_len), "fl_column_read_u64", "values does not overlap the bytes of column");
    fl_column_read_u64(column, start, values, values_len);
}
#define fl_column_read_u64 fl_checked_column_read_u64

static inline uint64_t fl_checked_column_filter_u64(const fl_column_u64 *column, uint32_t comparison, uint64_t value, uint64_t *mask, size_t mask_len) {
    fl_require(column != NULL, "fl_column_filter_u64", "column is not null");
    fl_require(fl_is_aligned(column, sizeof(void *)), "fl_column_filter_u64", "column is aligned");
    fl_require(mask != NULL || mask_len == 0, "fl_column_filter_u64", "mask is not null");
    fl_require(fl_is_aligned(mask, sizeof(uint64_t)), "fl_column_filter_u64", "mask is aligned");
    fl_require(fl_is_open(column->bytes, column->bytes_len, 64), "fl_column_filter_u64", "column was filled by fl_column_open_u64");
    fl_require(comparison <= FL_GE, "fl_column_filter_u64", "comparison <= FL_GE");
    fl_require(mask_len == column->len / 64 + (column->len % 64 != 0), "fl_column_filter_u64", "mask_len == (fl_column_len_u64(column) + 63) / 64");
    fl_require(fl_is_apart(column, sizeof(fl_column_u64), mask, mask_len * sizeof(uint64_t)), "fl_column_filter_u64", "column does not overlap mask");
    fl_require(fl_is_apart(mask, mask_len * sizeof(uint64_t), column->bytes, column->bytes_len), "fl_column_filter_u64", "mask does not overlap the bytes of column");
    return fl_column_filter_u64(column, comparison, value, mask, mask_len);
}
#define fl_column_filter_u64 fl_checked_column_filter_u64

static inline uint64_t fl_checked_column_count_u64(const fl_column_u64 *column, uint32_t comparison, uint64_t value) {
    fl_require(column != NULL, "fl_column_count_u64", "column is not null");
    fl_require(fl_is_aligned(column, sizeof(void *)), "fl_column_count_u64", "column is aligned");
    fl_require(fl_is_open(column->bytes, column->bytes_len, 64), "fl_column_count_u64", "column was filled by fl_column_open_u64");
    fl_require(comparison <= FL_GE, "fl_column_count_u64", "comparison <= FL_GE");
    return fl_column_count_u64(column, comparison, value);
}
#define fl_column_count_u64 fl_checked_column_count_u64

#endif
