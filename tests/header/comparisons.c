/*
 * Calls every comparison of the header at each width, with values of every kind, on words that no packing wrote, and holds
 * each bit of its mask against the digit as the layout's formula has it. Ends with 0 if they agree.
 */
#include <string.h>

#include "fastlanes.h"

static const unsigned ORDER[8] = {0, 4, 2, 6, 1, 5, 3, 7};

static int bit_of(const uint64_t *mask, size_t bit) { return mask[bit / 64] >> bit % 64 & 1; }

/* Whether a mask has the answers for the rows of the lanes: in the order of places, or else of lanes. */
static int has(const uint64_t *mask, int in_places, const unsigned char *answers, size_t T) {
    for (size_t lane = 0; lane < 1024 / T; lane++)
        for (size_t row = 0; row < T; row++) {
            size_t place = ORDER[row / 8] * 16 + row % 8 * 128 + lane, bit = lane * T + row;
            if (bit_of(mask, in_places ? place : bit) != answers[bit]) return 0;
        }
    return 1;
}

/* The comparisons with a value: 1 where a mask is another one. The number of a row of a lane is the bits of that row. */
#define COMPARISONS(V, E, type, T) \
    static int with_##type(size_t width, const E *packed, V value) { \
        static unsigned char answers[6][1024]; \
        enum { LANES = 1024 / T }; \
        size_t words = LANES * width; \
        uint64_t masks[6][16], places[16]; \
        for (size_t lane = 0; lane < LANES; lane++) \
            for (size_t row = 0; row < T; row++) { \
                E digit = 0; \
                V number; \
                for (size_t n = 0; n < width; n++) { \
                    size_t at = row * width + n; \
                    digit = (E)(digit | (E)((E)(packed[LANES * (at / T) + lane] >> at % T & 1) << n)); \
                } \
                memcpy(&number, &digit, sizeof number); \
                unsigned char holds[6] = {number == value, number != value, number < value, \
                                          number <= value, number > value, number >= value}; \
                for (size_t k = 0; k < 6; k++) answers[k][lane * T + row] = holds[k]; \
            } \
        memset(masks, 0x55, sizeof masks); \
        fl_unpack_cmp_##type(width, packed, words, FL_EQ, value, masks[FL_EQ]); \
        fl_unpack_cmp_##type(width, packed, words, FL_NE, value, masks[FL_NE]); \
        fl_unpack_cmp_##type(width, packed, words, FL_LT, value, masks[FL_LT]); \
        fl_unpack_cmp_##type(width, packed, words, FL_LE, value, masks[FL_LE]); \
        fl_unpack_cmp_##type(width, packed, words, FL_GT, value, masks[FL_GT]); \
        fl_unpack_cmp_##type(width, packed, words, FL_GE, value, masks[FL_GE]); \
        for (uint32_t k = 0; k < 6; k++) { \
            memset(places, 0x55, sizeof places); \
            fl_unpack_filter_##type(width, packed, words, k, value, places); \
            if (!has(masks[k], 0, answers[k], T) || !has(places, 1, answers[k], T)) return 1; \
        } \
        return 0; \
    } \
    static int all_##type(void) { \
        static E packed[1024]; \
        uint64_t seed = 1; \
        for (size_t width = 0; width <= T; width++) { \
            for (size_t i = 0; i < 1024; i++) { \
                seed = seed * 6364136223846793005u + 1442695040888963407u; \
                /* Every fourth word is zeros or ones, so that there are the least and the greatest digits too. */ \
                packed[i] = (E)(i % 4 ? seed >> 32 ^ seed : i % 8 ? 0 : UINT64_MAX); \
            } \
            E highest = (E)((E)1 << (T - 1)), greatest = (E)(width ? (E)-1 >> (T - width) : 0); \
            E values[9] = {0, 1, (E)-1, highest, (E)(highest - 1), greatest, (E)(greatest / 2), (E)(greatest + 1), (E)seed}; \
            for (size_t k = 0; k < 9; k++) { \
                V value; \
                memcpy(&value, &values[k], sizeof value); \
                if (with_##type(width, packed, value)) return 1; \
            } \
        } \
        return 0; \
    }

COMPARISONS(uint8_t, uint8_t, u8, 8)
COMPARISONS(uint16_t, uint16_t, u16, 16)
COMPARISONS(uint32_t, uint32_t, u32, 32)
COMPARISONS(uint64_t, uint64_t, u64, 64)
COMPARISONS(int8_t, uint8_t, i8, 8)
COMPARISONS(int16_t, uint16_t, i16, 16)
COMPARISONS(int32_t, uint32_t, i32, 32)
COMPARISONS(int64_t, uint64_t, i64, 64)

int main(void) {
    if (all_u8() || all_u16() || all_u32() || all_u64()) return 1;
    return all_i8() || all_i16() || all_i32() || all_i64();
}
