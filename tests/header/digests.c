/*
 * Prints a line `operation type width input digest` for each function of the header that the Rust crate has too, each width and
 * fixed input, as the program in bench/oracle does over that crate: in the same words, in another order. A reader of packed words
 * reads the first words of the input.
 */
#include <inttypes.h>
#include <stdio.h>
#include <string.h>

#include "fastlanes.h"

enum { ZEROS, ONES, RAMP, ODD, TOP, MIXED, HUNDREDS };
static const char *const names[] = {"zeros", "ones", "ramp", "odd", "top", "mixed", "hundreds"};

/* The number of an input at a place, for elements of T bits. */
static uint64_t number(int input, size_t place, int T) {
    uint64_t hash = (UINT64_C(2654435761) * (place + 1) & 0xffffffff) >> 12;
    switch (input) {
    case ZEROS: return 0;
    case ONES: return UINT64_MAX;
    case RAMP: return place;
    case ODD: return UINT64_C(2654435761) * place + 97;
    case TOP: return (UINT64_C(1) << (T - 1)) + place;
    case MIXED: return hash * (1 + (UINT64_C(1) << 20) + (UINT64_C(1) << 40) + (UINT64_C(1) << 60));
    default: return place / 100 + 1;
    }
}

static const uint64_t EMPTY = UINT64_C(0xcbf29ce484222325);

/* The FNV-1a hash with these bytes added, which are those of little-endian numbers. */
static uint64_t digest(uint64_t hash, const void *bytes, size_t len) {
    for (size_t i = 0; i < len; i++) hash = (hash ^ ((const unsigned char *)bytes)[i]) * UINT64_C(0x100000001b3);
    return hash;
}

static void put(const char *operation, const char *type, int width, const char *input, uint64_t hash) {
    if (width < 0) printf("%s %s - %s %016" PRIx64 "\n", operation, type, input, hash);
    else printf("%s %s %d %s %016" PRIx64 "\n", operation, type, width, input, hash);
}

/* Makes a call, which writes to `out`, and prints its line. */
#define PUT(operation, width, count, call) \
    do { \
        memset(out, 0xa5, sizeof out); \
        call; \
        put(operation, name, width, names[input], digest(EMPTY, out, (count) * sizeof *out)); \
    } while (0)
#define PUT_BITS(operation, width, call) \
    do { \
        memset(mask, 0xa5, sizeof mask); \
        call; \
        put(operation, name, width, names[input], digest(EMPTY, mask, sizeof mask)); \
    } while (0)

static size_t places[107] = {1023, 0, 17, 17, 511, 17, 511};

#define TYPE(E, S, type, signed_type, T) \
    static void at_width_##type(int width, int input, const E *block) { \
        static const char *const name = #type; \
        static E base[1024 / T], out[1024]; \
        static uint64_t mask[16]; \
        const size_t words = 1024 / T * (size_t)width; \
        const E odd = (E)number(ODD, 4, T), max = (E)UINT64_MAX, digit = fl_unpack_single_##type(width, block, words, 777); \
        for (size_t lane = 0; lane < 1024 / T; lane++) base[lane] = (E)(3 * lane + 1); \
        PUT("pack", width, words, fl_pack_##type(width, block, out, words)); \
        PUT("unpack", width, 1024, fl_unpack_##type(width, block, words, out)); \
        PUT("unpack_single", width, 1024, \
            for (size_t place = 0; place < 1024; place++) out[place] = fl_unpack_single_##type(width, block, words, place)); \
        PUT("unpack_indices", width, 107, fl_unpack_indices_##type(width, block, words, places, 107, out, 107)); \
        PUT("for_pack:odd4", width, words, fl_for_pack_##type(width, block, odd, out, words)); \
        PUT("for_pack:max", width, words, fl_for_pack_##type(width, block, max, out, words)); \
        PUT("unfor_pack:odd4", width, 1024, fl_unfor_pack_##type(width, block, words, odd, out)); \
        PUT("unfor_pack:max", width, 1024, fl_unfor_pack_##type(width, block, words, max, out)); \
        PUT("undelta_pack", width, 1024, fl_undelta_pack_##type(width, block, words, base, out)); \
        PUT_BITS("unpack_cmp:eq:u", width, fl_unpack_cmp_##type(width, block, words, FL_EQ, digit, mask)); \
        PUT_BITS("unpack_cmp:lt:u", width, fl_unpack_cmp_##type(width, block, words, FL_LT, digit, mask)); \
        PUT_BITS("unpack_cmp:gt:u", width, fl_unpack_cmp_##type(width, block, words, FL_GT, digit, mask)); \
        PUT_BITS("unpack_cmp:eq:s", width, fl_unpack_cmp_##signed_type(width, block, words, FL_EQ, (S)digit, mask)); \
        PUT_BITS("unpack_cmp:lt:s", width, fl_unpack_cmp_##signed_type(width, block, words, FL_LT, (S)digit, mask)); \
        PUT_BITS("unpack_cmp:gt:s", width, fl_unpack_cmp_##signed_type(width, block, words, FL_GT, (S)digit, mask)); \
    } \
\
    static void of_##type(int input) { \
        static const char *const name = #type; \
        static E base[1024 / T], block[1024], out[1024]; \
        static uint64_t bits[16], mask[16]; \
        static uint16_t indexes[1024]; \
        for (size_t place = 0; place < 1024; place++) block[place] = (E)number(input, place, T); \
        const size_t count = fl_rle_encode_##type(block, out, indexes); \
        const uint64_t head = count; \
        put("rle_encode", name, -1, names[input], \
            digest(digest(digest(EMPTY, &head, 8), out, count * sizeof *out), indexes, sizeof indexes)); \
        if (input == HUNDREDS) return; \
        for (int width = 0; width <= T; width++) at_width_##type(width, input, block); \
        for (size_t lane = 0; lane < 1024 / T; lane++) base[lane] = (E)(3 * lane + 1); \
        for (size_t word = 0; word < 16; word++) bits[word] = number(input, word, 64); \
        for (size_t place = 0; place < 1024; place++) indexes[place] = (uint16_t)((7 * place + 3) % 1024); \
        PUT("delta", -1, 1024, fl_delta_##type(block, base, out)); \
        PUT("undelta", -1, 1024, fl_undelta_##type(block, base, out)); \
        PUT("transpose", -1, 1024, fl_transpose_##type(block, out)); \
        PUT("untranspose", -1, 1024, fl_untranspose_##type(block, out)); \
        PUT("rle_decode:u16", -1, 1024, fl_rle_decode_##type(block, 1024, indexes, out)); \
        PUT_BITS("transpose_bits", -1, fl_transpose_bits_##type(bits, mask)); \
        PUT_BITS("untranspose_bits", -1, fl_untranspose_bits_##type(bits, mask)); \
    }

TYPE(uint8_t, int8_t, u8, i8, 8)
TYPE(uint16_t, int16_t, u16, i16, 16)
TYPE(uint32_t, int32_t, u32, i32, 32)
TYPE(uint64_t, int64_t, u64, i64, 64)

int main(void) {
    for (size_t i = 0; i < 100; i++) places[7 + i] = (389 * i + 7) % 1024;
    for (int input = ZEROS; input <= HUNDREDS; input++) of_u8(input), of_u16(input), of_u32(input), of_u64(input);
    return 0;
}
