/*
 * Packs and unpacks blocks one after another, of each element type at each width, and holds what comes out against calls of one
 * block. Ends with 1 where the two do not agree, or where an element before or behind an output is written to.
 */
#include <string.h>

#include "fastlanes.h"

enum { MOST = 5 };

#define BLOCKS(E, type, T) \
    /* So many blocks, whose elements are `mixed`, and as many packed blocks, of the first of these. Outputs held `fill`. */ \
    static int agree_##type(size_t width, size_t count, const E *mixed, int fill) { \
        static E found[1024 * MOST + 2], wanted[1024 * MOST + 2]; \
        size_t words = 1024 / T * width; \
        memset(found, fill, sizeof found), memset(wanted, fill, sizeof wanted); \
        fl_pack_blocks_##type(width, count, mixed, 1024 * count, found + 1, words * count); \
        for (size_t block = 0; block < count; block++) \
            fl_pack_##type(width, mixed + 1024 * block, wanted + 1 + words * block, words); \
        if (memcmp(found, wanted, sizeof found)) return 0; \
        memset(found, fill, sizeof found), memset(wanted, fill, sizeof wanted); \
        fl_unpack_blocks_##type(width, count, mixed, words * count, found + 1, 1024 * count); \
        for (size_t block = 0; block < count; block++) \
            fl_unpack_##type(width, mixed + words * block, words, wanted + 1 + 1024 * block); \
        return !memcmp(found, wanted, sizeof found); \
    } \
\
    static int all_agree_##type(void) { \
        static E mixed[1024 * MOST]; \
        for (size_t k = 0; k < 1024 * MOST; k++) mixed[k] = (E)((k + 1) * UINT64_C(0x9e3779b97f4a7c15) >> (64 - T)); \
        for (size_t width = 0; width <= T; width++) \
            for (size_t count = 0; count <= MOST; count++) \
                if (!agree_##type(width, count, mixed, 0) || !agree_##type(width, count, mixed, 255)) return 0; \
        return 1; \
    }

BLOCKS(uint8_t, u8, 8)
BLOCKS(uint16_t, u16, 16)
BLOCKS(uint32_t, u32, 32)
BLOCKS(uint64_t, u64, 64)

int main(void) { return !(all_agree_u8() && all_agree_u16() && all_agree_u32() && all_agree_u64()); }
