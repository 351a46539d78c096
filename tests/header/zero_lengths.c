/*
 * Passes a null pointer wherever a length is 0: packed blocks at width 0, no chosen places and no blocks at any width, and a column
 * of no values, as well as no bytes. Ends with 0 if each call gives what it has to. With an argument it passes one where the length
 * is not 0, which has to be found.
 */
#include <string.h>

#include "fastlanes.h"

/* The calls of a type: 1 where one gives something else. T is its bits. */
#define CALLS(E, type, T) \
    static int calls_##type(void) { \
        enum { LANES = 1024 / T }; \
        static E block[1024], packed[1024], output[1024], zeros[1024], base[LANES]; \
        static E neighbours[1024], lanes[1024]; \
        const size_t places[3] = {1024, 0, SIZE_MAX}; \
        for (size_t i = 0; i < 1024; i++) block[i] = packed[i] = (E)(i * 2654435761u + 97); \
        for (size_t lane = 0; lane < LANES; lane++) base[lane] = (E)(lane + 5); \
\
        fl_pack_##type(0, block, NULL, 0); \
        fl_for_pack_##type(0, block, 7, NULL, 0); \
        if (fl_unpack_single_##type(0, NULL, 0, 641) != 0 || fl_unpack_single_##type(0, NULL, 0, SIZE_MAX) != 0) return 1; \
        memset(output, 255, sizeof output); \
        fl_unpack_##type(0, NULL, 0, output); \
        if (memcmp(output, zeros, sizeof output)) return 1; \
        memset(output, 255, sizeof output); \
        fl_unpack_indices_##type(0, NULL, 0, places, 3, output, 3); \
        if (output[0] || output[1] || output[2] || output[3] != (E)-1) return 1; \
        E least = 1, greatest = 2; \
        if (fl_unpack_sum_##type(0, NULL, 0) != 0) return 1; \
        fl_unpack_range_##type(0, NULL, 0, &least, &greatest); \
        if (least || greatest) return 1; \
        fl_unfor_pack_##type(0, NULL, 0, 7, output); \
        for (size_t i = 0; i < 1024; i++) \
            if (output[i] != 7) return 1; \
        if (fl_frame_get_##type(0, 7, NULL, 0, 1023) != 7) return 1; \
        fl_undelta_pack_##type(0, NULL, 0, base, output); \
        for (size_t i = 0; i < 1024; i++) \
            if (output[i] != base[i % LANES]) return 1; \
        fl_delta_write_##type(0, block, base, NULL, 0); \
        fl_delta_read_##type(0, NULL, 0, base, neighbours); \
        fl_transpose_##type(neighbours, lanes); \
        if (memcmp(lanes, output, sizeof lanes)) return 1; \
\
        fl_unpack_indices_##type(0, NULL, 0, NULL, 0, NULL, 0); \
        for (size_t width = 1; width <= T; width++) \
            fl_unpack_indices_##type(width, packed, LANES * width, NULL, 0, NULL, 0); \
\
        for (size_t width = 0; width <= T; width++) { \
            fl_pack_blocks_##type(width, 0, NULL, 0, NULL, 0); \
            fl_unpack_blocks_##type(width, 0, NULL, 0, NULL, 0); \
        } \
        fl_pack_blocks_##type(0, 1, block, 1024, NULL, 0); \
        memset(output, 255, sizeof output); \
        fl_unpack_blocks_##type(0, 1, NULL, 0, output, 1024); \
        if (memcmp(output, zeros, sizeof output)) return 1; \
\
        uint8_t bytes[32]; \
        size_t count = 1, place = 1; \
        if (fl_column_encode_##type(NULL, 0, 0, NULL, 0) || fl_column_encode_##type(block, 1024, 0, NULL, 0)) return 1; \
        if (fl_column_encode_##type(NULL, 0, 0, bytes, 32) != 32) return 1; \
        if (fl_column_decode_##type(bytes, 32, NULL, 0, &count, &place) || count != 0 || place != 1) return 1; \
        if (fl_column_decode_##type(NULL, 0, NULL, 0, &count, &place) != FL_ERR_TRUNCATED || place != 0) return 1; \
\
        fl_column_##type column = {0}; \
        if (fl_column_open_##type(NULL, 0, 0, &column, &place) != FL_ERR_TRUNCATED || fl_column_open_##type(bytes, 32, 0, &column, &place)) return 1; \
        if (fl_column_len_##type(&column) || fl_column_count_##type(&column, FL_NE, 0)) return 1; \
        fl_column_read_##type(&column, 0, NULL, 0); \
        if (fl_column_filter_##type(&column, FL_EQ, 0, NULL, 0)) return 1; \
        return memcmp(packed, block, sizeof packed) != 0; \
    }

CALLS(uint8_t, u8, 8)
CALLS(uint16_t, u16, 16)
CALLS(uint32_t, u32, 32)
CALLS(uint64_t, u64, 64)

/* Whether all bits of a mask are such a bit. */
static int all_are(int bit, const uint64_t *mask) {
    for (size_t k = 0; k < 16; k++)
        if (mask[k] != (bit ? UINT64_MAX : 0)) return 0;
    return 1;
}

/* The comparisons with a value at width 0, where each digit is 0: 1 where one gives something else. */
#define COMPARISONS(V, type) \
    static int comparisons_##type(V value) { \
        static V digit; \
        uint64_t mask[16]; \
        const int holds[6] = {digit == value, digit != value, digit < value, \
                              digit <= value, digit > value, digit >= value}; \
        fl_unpack_cmp_##type(0, NULL, 0, FL_EQ, value, mask); \
        if (!all_are(holds[FL_EQ], mask)) return 1; \
        fl_unpack_cmp_##type(0, NULL, 0, FL_NE, value, mask); \
        if (!all_are(holds[FL_NE], mask)) return 1; \
        fl_unpack_cmp_##type(0, NULL, 0, FL_LT, value, mask); \
        if (!all_are(holds[FL_LT], mask)) return 1; \
        fl_unpack_cmp_##type(0, NULL, 0, FL_LE, value, mask); \
        if (!all_are(holds[FL_LE], mask)) return 1; \
        fl_unpack_cmp_##type(0, NULL, 0, FL_GT, value, mask); \
        if (!all_are(holds[FL_GT], mask)) return 1; \
        fl_unpack_cmp_##type(0, NULL, 0, FL_GE, value, mask); \
        if (!all_are(holds[FL_GE], mask)) return 1; \
        for (uint32_t comparison = FL_EQ; comparison <= FL_GE; comparison++) { \
            fl_unpack_filter_##type(0, NULL, 0, comparison, value, mask); \
            if (!all_are(holds[comparison], mask)) return 1; \
        } \
        return 0; \
    }

COMPARISONS(uint8_t, u8)
COMPARISONS(uint16_t, u16)
COMPARISONS(uint32_t, u32)
COMPARISONS(uint64_t, u64)
COMPARISONS(int8_t, i8)
COMPARISONS(int16_t, i16)
COMPARISONS(int32_t, i32)
COMPARISONS(int64_t, i64)

static int all_comparisons(void) {
    return comparisons_u8(0) || comparisons_u8(1) || comparisons_u8(UINT8_MAX) || comparisons_u16(1) || comparisons_u32(1)
        || comparisons_u64(UINT64_MAX) || comparisons_i8(INT8_MAX) || comparisons_i8(INT8_MIN) || comparisons_i16(-1)
        || comparisons_i32(1) || comparisons_i64(INT64_MIN) || comparisons_i64(INT64_MAX);
}

int main(int count, char **words) {
    static uint16_t output[1024];
    (void)words;
    if (count > 1) fl_unpack_u16(1, NULL, 64, output);
    return calls_u8() || calls_u16() || calls_u32() || calls_u64() || all_comparisons();
}
