/*
 * Prints a line `type width sum least greatest` for each element type and width: of the digits of words whose lines by the Rust
 * crate are stored (tests/header/stored_rows). Before that it holds these calls, of these words and of others, against the elements
 * that fl_unpack writes, and ends with 1 where they do not agree.
 */
#include <inttypes.h>
#include <stdio.h>

#include "fastlanes.h"

#define FOLDS(E, type, T) \
    /* Whether the calls give the sum, the least and the greatest of what the words unpack to, and write nothing beside it. */ \
    static int agree_##type(size_t width, const E *packed) { \
        static E block[1024]; \
        size_t words = 1024 / T * width; \
        uint64_t sum = 0; \
        E found[4] = {3, (E)-1, 0, 5}; \
        fl_unpack_##type(width, packed, words, block); \
        E least = block[0], greatest = block[0]; \
        for (size_t i = 0; i < 1024; i++) { \
            sum += block[i]; \
            if (block[i] < least) least = block[i]; \
            if (block[i] > greatest) greatest = block[i]; \
        } \
        fl_unpack_range_##type(width, packed, words, &found[1], &found[2]); \
        return fl_unpack_sum_##type(width, packed, words) == sum && found[0] == 3 && found[1] == least && found[2] == greatest \
            && found[3] == 5; \
    } \
\
    /* Of ones, and of zeros, with one word of others, each in turn: the least or the greatest digit is one that this word is part of. */ \
    static int all_agree_##type(const E *mixed) { \
        static E packed[1024]; \
        uint64_t seed = T; \
        for (size_t width = 0; width <= T; width++) { \
            if (!agree_##type(width, mixed)) return 0; \
            for (int ones = 0; ones < 2; ones++) { \
                for (size_t i = 0; i < 1024; i++) packed[i] = (E)(ones ? UINT64_MAX : 0); \
                if (!agree_##type(width, packed)) return 0; \
                for (size_t i = 0; i < 1024 / T * width; i++) { \
                    const E same = packed[i]; \
                    seed = seed * 6364136223846793005u + 1442695040888963407u; \
                    packed[i] = (E)(seed >> 32 ^ seed); \
                    if (!agree_##type(width, packed)) return 0; \
                    packed[i] = same; \
                } \
            } \
        } \
        return 1; \
    } \
\
    static int of_##type(int prints) { \
        static E mixed[1024]; \
        for (size_t k = 0; k < 1024; k++) mixed[k] = (E)((k + 1) * UINT64_C(0x9e3779b97f4a7c15) >> (64 - T)); \
        if (!prints) return all_agree_##type(mixed); \
        for (size_t width = 0; width <= T; width++) { \
            E least, greatest; \
            fl_unpack_range_##type(width, mixed, 1024 / T * width, &least, &greatest); \
            printf("%s %zu %" PRIu64 " %" PRIu64 " %" PRIu64 "\n", #type, width, \
                   fl_unpack_sum_##type(width, mixed, 1024 / T * width), (uint64_t)least, (uint64_t)greatest); \
        } \
        return 1; \
    }

FOLDS(uint8_t, u8, 8)
FOLDS(uint16_t, u16, 16)
FOLDS(uint32_t, u32, 32)
FOLDS(uint64_t, u64, 64)

int main(void) {
    for (int prints = 0; prints < 2; prints++)
        if (!of_u8(prints) || !of_u16(prints) || !of_u32(prints) || !of_u64(prints)) return 1;
    return 0;
}
