/*
 * With -DFASTLANES_CHECKED, makes each call with its preconditions met, and with each of them broken, in a process of its own. Prints
 * `returned` and the name of each call that returned to standard output. The calls that abort print their line to standard error.
 */
#include <stdbool.h>
#include <stdio.h>
#include <string.h>
#include <sys/wait.h>
#include <unistd.h>

#include "fastlanes.h"

/* Whether this process is the child that makes the call. */
static bool is_child(const char *call) {
    fflush(stdout);
    pid_t child = fork();
    if (child == 0) return true;
    int status = 0;
    if (child < 0 || waitpid(child, &status, 0) < 0) _exit(3);
    if (!WIFSIGNALED(status) && (!WIFEXITED(status) || WEXITSTATUS(status))) _exit(4);
    if (WIFEXITED(status)) printf("returned %.*s\n", (int)strcspn(call, "("), call);
    return false;
}
#define CALL(...) \
    do { \
        if (is_child(#__VA_ARGS__)) { \
            (void)(__VA_ARGS__); \
            _exit(0); \
        } \
    } while (0)

/* Memory whose parts do not overlap, and a pointer into a part that is not aligned. */
#define ODD(E, at) ((E *)(void *)((char *)(at) + 1))

#define BLOCKS(E, type, T) \
    static void blocks_##type(void) { \
        enum { LANES = 1024 / T, W = 3, LEN = LANES * W }; \
        static E block[2048], packed[2048], out[2048], base[2048], two[2]; \
        static size_t indices[4] = {1, 2, 3, 4}, beyond[4] = {1, 2, 1024, 4}; \
        static uint16_t runs[1024], far[1024] = {1024}; \
        static uint64_t bits[16], mask[16]; \
        CALL(fl_pack_##type(W, block, packed, LEN)); \
        CALL(fl_pack_##type(W, NULL, packed, LEN)); \
        CALL(fl_pack_##type(W, block, NULL, LEN)); \
        CALL(fl_pack_##type(T + 1, block, packed, LANES * (T + 1))); \
        CALL(fl_pack_##type(W, block, packed, LEN - 1)); \
        CALL(fl_pack_##type(W, block, block + 1023, LEN)); \
        CALL(fl_unpack_##type(W, packed, LEN, out)); \
        CALL(fl_unpack_##type(W, NULL, LEN, out)); \
        CALL(fl_unpack_##type(W, packed, LEN, NULL)); \
        CALL(fl_unpack_##type(T + 1, packed, LANES * (T + 1), out)); \
        CALL(fl_unpack_##type(W, packed, LEN + 1, out)); \
        CALL(fl_unpack_##type(W, packed, LEN, packed + LEN - 1)); \
        CALL(fl_pack_blocks_##type(W, 2, block, 2048, packed, 2 * LEN)); \
        CALL(fl_pack_blocks_##type(W, 2, NULL, 2048, packed, 2 * LEN)); \
        CALL(fl_pack_blocks_##type(W, 2, block, 2048, NULL, 2 * LEN)); \
        CALL(fl_pack_blocks_##type(T + 1, 1, block, 1024, packed, LANES * (T + 1))); \
        CALL(fl_pack_blocks_##type(W, SIZE_MAX / 1024 + 1, block, 0, packed, 0)); \
        CALL(fl_pack_blocks_##type(W, 2, block, 2048, packed, LEN)); \
        CALL(fl_pack_blocks_##type(W, 2, block, 2048, block + 2047, 2 * LEN)); \
        CALL(fl_unpack_blocks_##type(W, 2, packed, 2 * LEN, out, 2048)); \
        CALL(fl_unpack_blocks_##type(W, 2, NULL, 2 * LEN, out, 2048)); \
        CALL(fl_unpack_blocks_##type(W, 2, packed, 2 * LEN, NULL, 2048)); \
        CALL(fl_unpack_blocks_##type(T + 1, 1, packed, LANES * (T + 1), out, 1024)); \
        CALL(fl_unpack_blocks_##type(W, 2, packed, LEN, out, 2048)); \
        CALL(fl_unpack_blocks_##type(W, 2, packed, 2 * LEN, out, 1024)); \
        CALL(fl_unpack_blocks_##type(W, 2, packed, 2 * LEN, packed, 2048)); \
        CALL(fl_unpack_single_##type(W, packed, LEN, 1023)); \
        CALL(fl_unpack_single_##type(W, NULL, LEN, 1023)); \
        CALL(fl_unpack_single_##type(T + 1, packed, LANES * (T + 1), 0)); \
        CALL(fl_unpack_single_##type(W, packed, 0, 0)); \
        CALL(fl_unpack_single_##type(W, packed, LEN, 1024)); \
        CALL(fl_unpack_indices_##type(W, packed, LEN, indices, 4, out, 4)); \
        CALL(fl_unpack_indices_##type(0, packed, 0, beyond, 4, out, 4)); \
        CALL(fl_unpack_indices_##type(W, NULL, LEN, indices, 4, out, 4)); \
        CALL(fl_unpack_indices_##type(W, packed, LEN, NULL, 4, out, 4)); \
        CALL(fl_unpack_indices_##type(W, packed, LEN, ODD(size_t, indices), 3, out, 3)); \
        CALL(fl_unpack_indices_##type(W, packed, LEN, indices, 4, NULL, 4)); \
        CALL(fl_unpack_indices_##type(T + 1, packed, LANES * (T + 1), indices, 4, out, 4)); \
        CALL(fl_unpack_indices_##type(W, packed, LEN + LANES, indices, 4, out, 4)); \
        CALL(fl_unpack_indices_##type(W, packed, LEN, beyond, 4, out, 4)); \
        CALL(fl_unpack_indices_##type(W, packed, LEN, indices, 4, out, 3)); \
        CALL(fl_unpack_indices_##type(W, packed, LEN, indices, 4, packed, 4)); \
        CALL(fl_unpack_indices_##type(W, packed, LEN, indices, 4, (E *)(void *)indices, 4)); \
        CALL(fl_unpack_sum_##type(W, packed, LEN)); \
        CALL(fl_unpack_sum_##type(W, NULL, LEN)); \
        CALL(fl_unpack_sum_##type(T + 1, packed, LANES * (T + 1))); \
        CALL(fl_unpack_sum_##type(W, packed, LEN - 1)); \
        CALL(fl_unpack_range_##type(W, packed, LEN, two, two + 1)); \
        CALL(fl_unpack_range_##type(W, NULL, LEN, two, two + 1)); \
        CALL(fl_unpack_range_##type(W, packed, LEN, NULL, two + 1)); \
        CALL(fl_unpack_range_##type(W, packed, LEN, two, NULL)); \
        CALL(fl_unpack_range_##type(T + 1, packed, LANES * (T + 1), two, two + 1)); \
        CALL(fl_unpack_range_##type(W, packed, 0, two, two + 1)); \
        CALL(fl_unpack_range_##type(W, packed, LEN, packed, two + 1)); \
        CALL(fl_unpack_range_##type(W, packed, LEN, two, packed)); \
        CALL(fl_unpack_range_##type(W, packed, LEN, two, two)); \
        CALL(fl_for_pack_##type(W, block, 7, packed, LEN)); \
        CALL(fl_for_pack_##type(W, NULL, 7, packed, LEN)); \
        CALL(fl_for_pack_##type(W, block, 7, NULL, LEN)); \
        CALL(fl_for_pack_##type(T + 1, block, 7, packed, LANES * (T + 1))); \
        CALL(fl_for_pack_##type(W, block, 7, packed, 1)); \
        CALL(fl_for_pack_##type(W, block, 7, block, LEN)); \
        CALL(fl_unfor_pack_##type(W, packed, LEN, 7, out)); \
        CALL(fl_unfor_pack_##type(W, NULL, LEN, 7, out)); \
        CALL(fl_unfor_pack_##type(W, packed, LEN, 7, NULL)); \
        CALL(fl_unfor_pack_##type(T + 1, packed, LANES * (T + 1), 7, out)); \
        CALL(fl_unfor_pack_##type(W, packed, 1, 7, out)); \
        CALL(fl_unfor_pack_##type(W, packed, LEN, 7, packed)); \
        CALL(fl_frame_head_##type(block, two)); \
        CALL(fl_frame_head_##type(NULL, two)); \
        CALL(fl_frame_head_##type(block, NULL)); \
        CALL(fl_frame_head_##type(block, block + 1023)); \
        CALL(fl_frame_get_##type(W, 7, packed, LEN, 1023)); \
        CALL(fl_frame_get_##type(W, 7, NULL, LEN, 1023)); \
        CALL(fl_frame_get_##type(T + 1, 7, packed, LANES * (T + 1), 0)); \
        CALL(fl_frame_get_##type(W, 7, packed, 0, 0)); \
        CALL(fl_frame_get_##type(0, 7, packed, 0, 1024)); \
        CALL(fl_delta_##type(block, base, out)); \
        CALL(fl_delta_##type(NULL, base, out)); \
        CALL(fl_delta_##type(block, NULL, out)); \
        CALL(fl_delta_##type(block, base, NULL)); \
        CALL(fl_delta_##type(block, base, block)); \
        CALL(fl_delta_##type(block, base, base + LANES - 1)); \
        CALL(fl_undelta_##type(block, base, out)); \
        CALL(fl_undelta_##type(NULL, base, out)); \
        CALL(fl_undelta_##type(block, NULL, out)); \
        CALL(fl_undelta_##type(block, base, NULL)); \
        CALL(fl_undelta_##type(block, base, block)); \
        CALL(fl_undelta_##type(block, base, base)); \
        CALL(fl_undelta_pack_##type(W, packed, LEN, base, out)); \
        CALL(fl_undelta_pack_##type(W, NULL, LEN, base, out)); \
        CALL(fl_undelta_pack_##type(W, packed, LEN, NULL, out)); \
        CALL(fl_undelta_pack_##type(W, packed, LEN, base, NULL)); \
        CALL(fl_undelta_pack_##type(T + 1, packed, LANES * (T + 1), base, out)); \
        CALL(fl_undelta_pack_##type(W, packed, 0, base, out)); \
        CALL(fl_undelta_pack_##type(W, packed, LEN, base, packed)); \
        CALL(fl_undelta_pack_##type(W, packed, LEN, base, base)); \
        CALL(fl_delta_width_##type(block, base)); \
        CALL(fl_delta_width_##type(NULL, base)); \
        CALL(fl_delta_width_##type(block, NULL)); \
        CALL(fl_delta_write_##type(W, block, base, packed, LEN)); \
        CALL(fl_delta_write_##type(W, NULL, base, packed, LEN)); \
        CALL(fl_delta_write_##type(W, block, NULL, packed, LEN)); \
        CALL(fl_delta_write_##type(W, block, base, NULL, LEN)); \
        CALL(fl_delta_write_##type(T + 1, block, base, packed, LANES * (T + 1))); \
        CALL(fl_delta_write_##type(W, block, base, packed, 0)); \
        CALL(fl_delta_write_##type(W, block, base, block, LEN)); \
        CALL(fl_delta_write_##type(W, block, base, base, LEN)); \
        CALL(fl_delta_read_##type(W, packed, LEN, base, out)); \
        CALL(fl_delta_read_##type(W, NULL, LEN, base, out)); \
        CALL(fl_delta_read_##type(W, packed, LEN, NULL, out)); \
        CALL(fl_delta_read_##type(W, packed, LEN, base, NULL)); \
        CALL(fl_delta_read_##type(T + 1, packed, LANES * (T + 1), base, out)); \
        CALL(fl_delta_read_##type(W, packed, 0, base, out)); \
        CALL(fl_delta_read_##type(W, packed, LEN, base, packed)); \
        CALL(fl_delta_read_##type(W, packed, LEN, base, base)); \
        CALL(fl_transpose_##type(block, out)); \
        CALL(fl_transpose_##type(NULL, out)); \
        CALL(fl_transpose_##type(block, NULL)); \
        CALL(fl_transpose_##type(block, block + 1)); \
        CALL(fl_untranspose_##type(block, out)); \
        CALL(fl_untranspose_##type(NULL, out)); \
        CALL(fl_untranspose_##type(block, NULL)); \
        CALL(fl_untranspose_##type(block + 1, block)); \
        CALL(fl_transpose_bits_##type(bits, mask)); \
        CALL(fl_transpose_bits_##type(NULL, mask)); \
        CALL(fl_transpose_bits_##type(ODD(uint64_t, bits), mask)); \
        CALL(fl_transpose_bits_##type(bits, NULL)); \
        CALL(fl_transpose_bits_##type(bits, ODD(uint64_t, mask))); \
        CALL(fl_transpose_bits_##type(bits, bits)); \
        CALL(fl_untranspose_bits_##type(bits, mask)); \
        CALL(fl_untranspose_bits_##type(NULL, mask)); \
        CALL(fl_untranspose_bits_##type(ODD(uint64_t, bits), mask)); \
        CALL(fl_untranspose_bits_##type(bits, NULL)); \
        CALL(fl_untranspose_bits_##type(bits, ODD(uint64_t, mask))); \
        CALL(fl_untranspose_bits_##type(bits, bits)); \
        CALL(fl_rle_encode_##type(block, out, runs)); \
        CALL(fl_rle_encode_##type(NULL, out, runs)); \
        CALL(fl_rle_encode_##type(block, NULL, runs)); \
        CALL(fl_rle_encode_##type(block, out, NULL)); \
        CALL(fl_rle_encode_##type(block, out, ODD(uint16_t, runs))); \
        CALL(fl_rle_encode_##type(block, block, runs)); \
        CALL(fl_rle_encode_##type(block, out, (uint16_t *)(void *)block)); \
        CALL(fl_rle_encode_##type(block, out, (uint16_t *)(void *)out)); \
        CALL(fl_rle_decode_##type(block, 1024, runs, out)); \
        CALL(fl_rle_decode_##type(NULL, 1024, runs, out)); \
        CALL(fl_rle_decode_##type(block, 1024, NULL, out)); \
        CALL(fl_rle_decode_##type(block, 1024, ODD(uint16_t, runs), out)); \
        CALL(fl_rle_decode_##type(block, 1024, runs, NULL)); \
        CALL(fl_rle_decode_##type(block, 1024, far, out)); \
        CALL(fl_rle_decode_##type(block, 1024, runs, block)); \
        CALL(fl_rle_decode_##type(block, 1024, runs, (E *)(void *)runs)); \
    } \
    /* Pointers that are not aligned, of types that have more than one byte. */ \
    static void odd_##type(void) { \
        enum { LANES = 1024 / T, W = 3, LEN = LANES * W }; \
        static E block[2050], packed[2050], out[2050], base[2050], two[4]; \
        static size_t indices[4]; \
        static uint16_t runs[1024]; \
        CALL(fl_pack_##type(W, ODD(E, block), packed, LEN)); \
        CALL(fl_pack_##type(W, block, ODD(E, packed), LEN)); \
        CALL(fl_unpack_##type(W, ODD(E, packed), LEN, out)); \
        CALL(fl_unpack_##type(W, packed, LEN, ODD(E, out))); \
        CALL(fl_pack_blocks_##type(W, 2, ODD(E, block), 2048, packed, 2 * LEN)); \
        CALL(fl_pack_blocks_##type(W, 2, block, 2048, ODD(E, packed), 2 * LEN)); \
        CALL(fl_unpack_blocks_##type(W, 2, ODD(E, packed), 2 * LEN, out, 2048)); \
        CALL(fl_unpack_blocks_##type(W, 2, packed, 2 * LEN, ODD(E, out), 2048)); \
        CALL(fl_unpack_single_##type(W, ODD(E, packed), LEN, 1023)); \
        CALL(fl_unpack_indices_##type(W, ODD(E, packed), LEN, indices, 4, out, 4)); \
        CALL(fl_unpack_indices_##type(W, packed, LEN, indices, 4, ODD(E, out), 4)); \
        CALL(fl_unpack_sum_##type(W, ODD(E, packed), LEN)); \
        CALL(fl_unpack_range_##type(W, ODD(E, packed), LEN, two, two + 1)); \
        CALL(fl_unpack_range_##type(W, packed, LEN, ODD(E, two), two + 2)); \
        CALL(fl_unpack_range_##type(W, packed, LEN, two, ODD(E, two + 1))); \
        CALL(fl_for_pack_##type(W, ODD(E, block), 7, packed, LEN)); \
        CALL(fl_for_pack_##type(W, block, 7, ODD(E, packed), LEN)); \
        CALL(fl_unfor_pack_##type(W, ODD(E, packed), LEN, 7, out)); \
        CALL(fl_unfor_pack_##type(W, packed, LEN, 7, ODD(E, out))); \
        CALL(fl_frame_head_##type(ODD(E, block), two)); \
        CALL(fl_frame_head_##type(block, ODD(E, two))); \
        CALL(fl_frame_get_##type(W, 7, ODD(E, packed), LEN, 1023)); \
        CALL(fl_delta_##type(ODD(E, block), base, out)); \
        CALL(fl_delta_##type(block, ODD(E, base), out)); \
        CALL(fl_delta_##type(block, base, ODD(E, out))); \
        CALL(fl_undelta_##type(ODD(E, block), base, out)); \
        CALL(fl_undelta_##type(block, ODD(E, base), out)); \
        CALL(fl_undelta_##type(block, base, ODD(E, out))); \
        CALL(fl_undelta_pack_##type(W, ODD(E, packed), LEN, base, out)); \
        CALL(fl_undelta_pack_##type(W, packed, LEN, ODD(E, base), out)); \
        CALL(fl_undelta_pack_##type(W, packed, LEN, base, ODD(E, out))); \
        CALL(fl_delta_width_##type(ODD(E, block), base)); \
        CALL(fl_delta_width_##type(block, ODD(E, base))); \
        CALL(fl_delta_write_##type(W, ODD(E, block), base, packed, LEN)); \
        CALL(fl_delta_write_##type(W, block, ODD(E, base), packed, LEN)); \
        CALL(fl_delta_write_##type(W, block, base, ODD(E, packed), LEN)); \
        CALL(fl_delta_read_##type(W, ODD(E, packed), LEN, base, out)); \
        CALL(fl_delta_read_##type(W, packed, LEN, ODD(E, base), out)); \
        CALL(fl_delta_read_##type(W, packed, LEN, base, ODD(E, out))); \
        CALL(fl_transpose_##type(ODD(E, block), out)); \
        CALL(fl_transpose_##type(block, ODD(E, out))); \
        CALL(fl_untranspose_##type(ODD(E, block), out)); \
        CALL(fl_untranspose_##type(block, ODD(E, out))); \
        CALL(fl_rle_encode_##type(ODD(E, block), out, runs)); \
        CALL(fl_rle_encode_##type(block, ODD(E, out), runs)); \
        CALL(fl_rle_decode_##type(ODD(E, block), 1024, runs, out)); \
        CALL(fl_rle_decode_##type(block, 1024, runs, ODD(E, out))); \
    }

#define COMPARISONS(E, type, T) \
    static void comparisons_##type(void) { \
        enum { LANES = 1024 / T, W = 3, LEN = LANES * W }; \
        static E packed[1088]; \
        static uint64_t mask[17]; \
        CALL(fl_unpack_cmp_##type(W, packed, LEN, FL_GE, 1, mask)); \
        CALL(fl_unpack_cmp_##type(W, NULL, LEN, FL_EQ, 1, mask)); \
        CALL(fl_unpack_cmp_##type(W, packed, LEN, FL_EQ, 1, NULL)); \
        CALL(fl_unpack_cmp_##type(W, packed, LEN, FL_EQ, 1, ODD(uint64_t, mask))); \
        CALL(fl_unpack_cmp_##type(T + 1, packed, LANES * (T + 1), FL_EQ, 1, mask)); \
        CALL(fl_unpack_cmp_##type(W, packed, LEN - 1, FL_EQ, 1, mask)); \
        CALL(fl_unpack_cmp_##type(W, packed, LEN, 6, 1, mask)); \
        CALL(fl_unpack_cmp_##type(W, packed, LEN, FL_EQ, 1, (uint64_t *)(void *)packed)); \
        CALL(fl_unpack_filter_##type(W, packed, LEN, FL_GE, 1, mask)); \
        CALL(fl_unpack_filter_##type(W, NULL, LEN, FL_EQ, 1, mask)); \
        CALL(fl_unpack_filter_##type(W, packed, LEN, FL_EQ, 1, NULL)); \
        CALL(fl_unpack_filter_##type(W, packed, LEN, FL_EQ, 1, ODD(uint64_t, mask))); \
        CALL(fl_unpack_filter_##type(T + 1, packed, LANES * (T + 1), FL_EQ, 1, mask)); \
        CALL(fl_unpack_filter_##type(W, packed, LEN - 1, FL_EQ, 1, mask)); \
        CALL(fl_unpack_filter_##type(W, packed, LEN, 6, 1, mask)); \
        CALL(fl_unpack_filter_##type(W, packed, LEN, FL_EQ, 1, (uint64_t *)(void *)packed)); \
        if (T > 8) { \
            CALL(fl_unpack_cmp_##type(W, ODD(E, packed), LEN, FL_EQ, 1, mask)); \
            CALL(fl_unpack_filter_##type(W, ODD(E, packed), LEN, FL_EQ, 1, mask)); \
        } \
    }

#define COLUMNS(E, type, T) \
    static void columns_##type(void) { \
        static E values[100], back[101]; \
        static uint8_t bytes[4096 * T]; \
        static uint64_t mask[3]; \
        static size_t count[2], offset[2]; \
        static fl_column_##type column, other[2]; \
        size_t len = fl_column_encode_##type(values, 100, 0, bytes, sizeof bytes); \
        if (!len || fl_column_open_##type(bytes, len, 0, &column, offset)) _exit(5); \
        CALL(fl_column_encode_##type(values, 100, 0, bytes, sizeof bytes)); \
        CALL(fl_column_encode_##type(NULL, 100, 0, bytes, sizeof bytes)); \
        CALL(fl_column_encode_##type(values, 100, 0, NULL, sizeof bytes)); \
        CALL(fl_column_encode_##type(values, 100, 0, (uint8_t *)(void *)values, sizeof values)); \
        CALL(fl_column_decode_##type(bytes, len, back, 100, count, offset)); \
        CALL(fl_column_decode_##type(NULL, len, back, 100, count, offset)); \
        CALL(fl_column_decode_##type(bytes, len, NULL, 100, count, offset)); \
        CALL(fl_column_decode_##type(bytes, len, back, 100, NULL, offset)); \
        CALL(fl_column_decode_##type(bytes, len, back, 100, ODD(size_t, count), offset)); \
        CALL(fl_column_decode_##type(bytes, len, back, 100, count, NULL)); \
        CALL(fl_column_decode_##type(bytes, len, back, 100, count, ODD(size_t, offset))); \
        CALL(fl_column_decode_##type(bytes, len, (E *)(void *)bytes, 100, count, offset)); \
        CALL(fl_column_decode_##type((uint8_t *)count, sizeof count, back, 100, count, offset)); \
        CALL(fl_column_decode_##type((uint8_t *)offset, sizeof offset, back, 100, count, offset)); \
        CALL(fl_column_decode_##type(bytes, len, (E *)(void *)count, 1, count, offset)); \
        CALL(fl_column_decode_##type(bytes, len, (E *)(void *)offset, 1, count, offset)); \
        CALL(fl_column_decode_##type(bytes, len, back, 100, count, count)); \
        CALL(fl_column_open_##type(bytes, len, 0, other, offset)); \
        CALL(fl_column_open_##type(NULL, len, 0, other, offset)); \
        CALL(fl_column_open_##type(bytes, len, 0, NULL, offset)); \
        CALL(fl_column_open_##type(bytes, len, 0, ODD(fl_column_##type, other), offset)); \
        CALL(fl_column_open_##type(bytes, len, 0, other, NULL)); \
        CALL(fl_column_open_##type(bytes, len, 0, other, ODD(size_t, offset))); \
        CALL(fl_column_open_##type((uint8_t *)other, len, 0, other, offset)); \
        CALL(fl_column_open_##type((uint8_t *)offset, sizeof offset, 0, other, offset)); \
        CALL(fl_column_open_##type(bytes, len, 0, other, (size_t *)(void *)other)); \
        CALL(fl_column_len_##type(&column)); \
        CALL(fl_column_len_##type(NULL)); \
        CALL(fl_column_len_##type(ODD(fl_column_##type, other))); \
        CALL(fl_column_len_##type(other)); \
        CALL(fl_column_get_##type(&column, 99)); \
        CALL(fl_column_get_##type(NULL, 99)); \
        CALL(fl_column_get_##type(ODD(fl_column_##type, other), 99)); \
        CALL(fl_column_get_##type(other, 0)); \
        CALL(fl_column_get_##type(&column, 100)); \
        CALL(fl_column_read_##type(&column, 1, back, 99)); \
        CALL(fl_column_read_##type(NULL, 1, back, 99)); \
        CALL(fl_column_read_##type(ODD(fl_column_##type, other), 1, back, 99)); \
        CALL(fl_column_read_##type(&column, 1, NULL, 99)); \
        CALL(fl_column_read_##type(other, 0, back, 0)); \
        CALL(fl_column_read_##type(&column, 2, back, 99)); \
        CALL(fl_column_read_##type(&column, UINT64_MAX, back, 99)); \
        CALL(fl_column_read_##type(&column, 1, (E *)(void *)&column, 99)); \
        CALL(fl_column_read_##type(&column, 1, (E *)(void *)bytes, 99)); \
        CALL(fl_column_filter_##type(&column, FL_GE, 1, mask, 2)); \
        CALL(fl_column_filter_##type(NULL, FL_GE, 1, mask, 2)); \
        CALL(fl_column_filter_##type(ODD(fl_column_##type, other), FL_GE, 1, mask, 2)); \
        CALL(fl_column_filter_##type(&column, FL_GE, 1, NULL, 2)); \
        CALL(fl_column_filter_##type(&column, FL_GE, 1, ODD(uint64_t, mask), 2)); \
        CALL(fl_column_filter_##type(other, FL_GE, 1, mask, 2)); \
        CALL(fl_column_filter_##type(&column, 6, 1, mask, 2)); \
        CALL(fl_column_filter_##type(&column, FL_GE, 1, mask, 1)); \
        CALL(fl_column_filter_##type(&column, FL_GE, 1, (uint64_t *)(void *)&column, 2)); \
        CALL(fl_column_filter_##type(&column, FL_GE, 1, (uint64_t *)(void *)bytes, 2)); \
        CALL(fl_column_count_##type(&column, FL_GE, 1)); \
        CALL(fl_column_count_##type(NULL, FL_GE, 1)); \
        CALL(fl_column_count_##type(ODD(fl_column_##type, other), FL_GE, 1)); \
        CALL(fl_column_count_##type(other, FL_GE, 1)); \
        CALL(fl_column_count_##type(&column, 6, 1)); \
        if (T > 8) { \
            CALL(fl_column_encode_##type(ODD(E, values), 99, 0, bytes, sizeof bytes)); \
            CALL(fl_column_decode_##type(bytes, len, ODD(E, back), 100, count, offset)); \
            CALL(fl_column_read_##type(&column, 1, ODD(E, back), 99)); \
        } \
    }

BLOCKS(uint8_t, u8, 8)
BLOCKS(uint16_t, u16, 16)
BLOCKS(uint32_t, u32, 32)
BLOCKS(uint64_t, u64, 64)
COMPARISONS(uint8_t, u8, 8)
COMPARISONS(uint16_t, u16, 16)
COMPARISONS(uint32_t, u32, 32)
COMPARISONS(uint64_t, u64, 64)
COMPARISONS(uint8_t, i8, 8)
COMPARISONS(uint16_t, i16, 16)
COMPARISONS(uint32_t, i32, 32)
COMPARISONS(uint64_t, i64, 64)
COLUMNS(uint8_t, u8, 8)
COLUMNS(uint16_t, u16, 16)
COLUMNS(uint32_t, u32, 32)
COLUMNS(uint64_t, u64, 64)

int main(void) {
    (void)odd_u8;
    blocks_u8(), blocks_u16(), blocks_u32(), blocks_u64();
    odd_u16(), odd_u32(), odd_u64();
    comparisons_u8(), comparisons_u16(), comparisons_u32(), comparisons_u64();
    comparisons_i8(), comparisons_i16(), comparisons_i32(), comparisons_i64();
    columns_u8(), columns_u16(), columns_u32(), columns_u64();
    return 0;
}
