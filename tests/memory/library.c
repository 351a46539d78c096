/*
 * Calls every function of the header at each width, on words that no packing wrote, while each request for memory ends the
 * program with status 3. Each buffer ends where a page begins that must not be touched, and another such page stands before
 * it: a read or write past either end of it ends the program too. Prints how many calls were made, and how many bytes of
 * stack they took, those of blocks and those of columns, with those of the functions here.
 */
#define _GNU_SOURCE
#include <errno.h>
#include <stdio.h>
#include <string.h>
#include <sys/mman.h>
#include <ucontext.h>
#include <unistd.h>

#include "fastlanes.h"

static int refused;

static void *request(void) {
    if (refused) _exit(3);
    errno = ENOMEM;
    return NULL;
}

/* Before the calls, nothing in this program needs memory either. */
void *malloc(size_t size) { return (void)size, request(); }
void *calloc(size_t count, size_t size) { return (void)count, (void)size, request(); }
void *realloc(void *old, size_t size) { return (void)old, (void)size, request(); }
void *aligned_alloc(size_t alignment, size_t size) { return (void)alignment, (void)size, request(); }
void *memalign(size_t alignment, size_t size) { return (void)alignment, (void)size, request(); }
int posix_memalign(void **out, size_t alignment, size_t size) {
    return (void)out, (void)alignment, (void)size, (void)request(), ENOMEM;
}
void free(void *old) { (void)old; }

enum { PAGE = 4096, ROOM = 16 * PAGE };

/* A buffer of so many bytes between two pages that must not be touched; it ends where the second begins. */
static void *buffer(size_t bytes) {
    char *room = mmap(NULL, ROOM + 2 * PAGE, PROT_NONE, MAP_PRIVATE | MAP_ANONYMOUS, -1, 0);
    size_t pages = (bytes + PAGE - 1) / PAGE * PAGE;
    if (room == MAP_FAILED || (pages && mprotect(room + PAGE, pages, PROT_READ | PROT_WRITE))) _exit(4);
    return room + PAGE + pages - bytes;
}

static void unmap(void *at, size_t bytes) {
    size_t pages = (bytes + PAGE - 1) / PAGE * PAGE;
    munmap((char *)at + bytes - pages - PAGE, ROOM + 2 * PAGE);
}

/* Numbers that follow from a seed. */
static void scramble(void *at, size_t bytes, uint64_t seed) {
    for (size_t i = 0; i < bytes; i++) {
        seed = seed * 6364136223846793005u + 1442695040888963407u;
        ((unsigned char *)at)[i] = (unsigned char)(seed >> 56);
    }
}

static size_t calls;

/* Every comparison with a value of a type at one width. */
#define COMPARE(V, E, type, name) \
    static void name(size_t width, const E *packed, size_t words, uint64_t *mask, E value) { \
        fl_unpack_cmp_##type(width, packed, words, FL_EQ, (V)value, mask); \
        fl_unpack_cmp_##type(width, packed, words, FL_NE, (V)value, mask); \
        fl_unpack_cmp_##type(width, packed, words, FL_LT, (V)value, mask); \
        fl_unpack_cmp_##type(width, packed, words, FL_LE, (V)value, mask); \
        fl_unpack_cmp_##type(width, packed, words, FL_GT, (V)value, mask); \
        fl_unpack_cmp_##type(width, packed, words, FL_GE, (V)value, mask); \
        for (uint32_t comparison = FL_EQ; comparison <= FL_GE; comparison++) \
            fl_unpack_filter_##type(width, packed, words, comparison, (V)value, mask); \
        calls += 12; \
    }

COMPARE(uint8_t, uint8_t, u8, compare_u8)
COMPARE(uint16_t, uint16_t, u16, compare_u16)
COMPARE(uint32_t, uint32_t, u32, compare_u32)
COMPARE(uint64_t, uint64_t, u64, compare_u64)
COMPARE(int8_t, uint8_t, i8, compare_signed_u8)
COMPARE(int16_t, uint16_t, i16, compare_signed_u16)
COMPARE(int32_t, uint32_t, i32, compare_signed_u32)
COMPARE(int64_t, uint64_t, i64, compare_signed_u64)

/* Every function of a type at one width; a block has 1024 elements, and a packed block LANES * width. */
#define AT_WIDTH(E, type, T) \
    static void at_width_##type(size_t width, uint64_t seed) { \
        size_t words = 1024 / T * width, lanes = 1024 / T; \
        E *packed = buffer(words * sizeof(E)), *block = buffer(sizeof(E[1024])), *out = buffer(sizeof(E[1024])); \
        E *base = buffer(lanes * sizeof(E)), *chosen = buffer(sizeof(E[5])); \
        E *least = buffer(sizeof(E)), *greatest = buffer(sizeof(E)), low = 0, high = 0; \
        E *many = buffer(3 * words * sizeof(E)), *again = buffer(3 * words * sizeof(E)), *blocks = buffer(sizeof(E[3072])); \
        uint64_t sum = 0, *mask = buffer(sizeof(uint64_t[16])), *bits = buffer(sizeof(uint64_t[16])); \
        uint16_t *indexes = buffer(sizeof(uint16_t[1024])); \
        size_t *places = buffer(sizeof(size_t[5])); \
        static const size_t some[5] = {0, 1023, 0, 1023, 0}; \
        memcpy(places, some, sizeof some); \
        scramble(packed, words * sizeof(E), seed); \
        scramble(block, sizeof(E[1024]), seed + 1); \
        scramble(base, lanes * sizeof(E), seed + 2); \
        scramble(bits, sizeof(uint64_t[16]), seed + 3); \
        scramble(many, 3 * words * sizeof(E), seed + 4); \
        memcpy(many + words, packed, words * sizeof(E)); \
        refused = 1; \
        fl_unpack_##type(width, packed, words, out); \
        for (size_t place = 0; place < 1024; place++, calls++) \
            if (fl_unpack_single_##type(width, packed, words, place) != out[place]) _exit(5); \
        fl_unpack_indices_##type(width, packed, words, places, 5, chosen, 5); \
        if (chosen[1] != out[1023] || chosen[4] != out[0]) _exit(5); \
        low = high = out[0]; \
        for (size_t place = 0; place < 1024; place++) { \
            sum += out[place]; \
            if (out[place] < low) low = out[place]; \
            if (out[place] > high) high = out[place]; \
        } \
        fl_unpack_range_##type(width, packed, words, least, greatest); \
        if (*least != low || *greatest != high || fl_unpack_sum_##type(width, packed, words) != sum) _exit(5); \
        fl_unpack_blocks_##type(width, 3, many, 3 * words, blocks, 3072); \
        if (memcmp(blocks + 1024, out, sizeof(E[1024]))) _exit(5); \
        fl_pack_blocks_##type(width, 3, blocks, 3072, again, 3 * words); \
        if (memcmp(again, many, 3 * words * sizeof(E))) _exit(5); \
        fl_unfor_pack_##type(width, packed, words, base[0], out); \
        for (size_t place = 0; place < 1024; place++, calls++) \
            if (fl_frame_get_##type(width, base[0], packed, words, place) != out[place]) _exit(5); \
        fl_delta_read_##type(width, packed, words, base, out); \
        fl_undelta_pack_##type(width, packed, words, base, out); \
        compare_##type(width, packed, words, mask, base[0]); \
        compare_signed_##type(width, packed, words, mask, base[0]); \
        fl_pack_##type(width, block, packed, words); \
        fl_for_pack_##type(width, block, base[0], packed, words); \
        if (fl_frame_head_##type(block, chosen) > T || fl_delta_width_##type(block, base) > T) _exit(5); \
        fl_delta_write_##type(width, block, base, packed, words); \
        fl_delta_##type(block, base, out); \
        fl_undelta_##type(block, base, out); \
        fl_transpose_##type(block, out); \
        fl_untranspose_##type(block, out); \
        fl_transpose_bits_##type(bits, mask); \
        fl_untranspose_bits_##type(bits, mask); \
        size_t count = fl_rle_encode_##type(block, out, indexes); \
        fl_rle_decode_##type(out, count, indexes, block); \
        refused = 0; \
        calls += 22; \
        unmap(packed, words * sizeof(E)), unmap(block, sizeof(E[1024])), unmap(out, sizeof(E[1024])); \
        unmap(base, lanes * sizeof(E)), unmap(chosen, sizeof(E[5])); \
        unmap(least, sizeof(E)), unmap(greatest, sizeof(E)); \
        unmap(many, 3 * words * sizeof(E)), unmap(again, 3 * words * sizeof(E)), unmap(blocks, sizeof(E[3072])); \
        unmap(mask, sizeof(uint64_t[16])), unmap(bits, sizeof(uint64_t[16])); \
        unmap(indexes, sizeof(uint16_t[1024])), unmap(places, sizeof(size_t[5])); \
    }

AT_WIDTH(uint8_t, u8, 8)
AT_WIDTH(uint16_t, u16, 16)
AT_WIDTH(uint32_t, u32, 32)
AT_WIDTH(uint64_t, u64, 64)

static void at_all_widths(void) {
    for (uint64_t seed = 0; seed < 8; seed++) {
        for (size_t width = 0; width <= 8; width++) at_width_u8(width, seed);
        for (size_t width = 0; width <= 16; width++) at_width_u16(width, seed);
        for (size_t width = 0; width <= 32; width++) at_width_u32(width, seed);
        for (size_t width = 0; width <= 64; width++) at_width_u64(width, seed);
    }
}

/* Writes a column of a block's values, and reads it back, whole, opened, and by a comparison; one byte less of it is none. */
#define STORE(E, type) \
    static void store_##type(const E *block, uint32_t flags) { \
        size_t most = fl_column_encode_bound_##type(1024), count = 0, place = 0; \
        uint8_t *bytes = buffer(most); \
        E *back = buffer(sizeof(E[1024])); \
        size_t len = fl_column_encode_##type(block, 1024, flags, bytes, most); \
        if (fl_column_decode_##type(bytes, len, back, 1024, &count, &place) || count != 1024 || place) _exit(5); \
        if (memcmp(back, block, sizeof(E[1024]))) _exit(5); \
        if (fl_column_decode_##type(bytes, len - 1, back, 1024, &count, &place) != FL_ERR_TRUNCATED) _exit(5); \
        fl_column_##type *column = buffer(sizeof *column); \
        uint64_t *mask = buffer(sizeof(uint64_t[16])), ones = 0; \
        if (fl_column_open_##type(bytes, len, 0, column, &place) || fl_column_len_##type(column) != 1024) _exit(5); \
        if (fl_column_get_##type(column, 1000) != block[1000]) _exit(5); \
        fl_column_read_##type(column, 1, back, 1023); \
        if (memcmp(back, block + 1, sizeof(E[1023]))) _exit(5); \
        fl_column_filter_##type(column, FL_LE, block[500], mask, 16); \
        for (size_t i = 0; i < 1024; i++) ones += mask[i / 64] >> i % 64 & 1; \
        if (fl_column_count_##type(column, FL_LE, block[500]) != ones) _exit(5); \
        calls += 10; \
        unmap(bytes, most), unmap(back, sizeof(E[1024])), unmap(column, sizeof *column), unmap(mask, sizeof(uint64_t[16])); \
    } \
\
    /* The columns of blocks at one width: of digits beside a reference, and of sums of digits. */ \
    static void columns_at_width_##type(size_t width, uint64_t seed) { \
        size_t words = sizeof(uint8_t[128]) * width / sizeof(E), lanes = sizeof(uint8_t[128]) / sizeof(E); \
        E *packed = buffer(words * sizeof(E)), *base = buffer(lanes * sizeof(E)), *out = buffer(sizeof(E[1024])); \
        scramble(packed, words * sizeof(E), seed); \
        scramble(base, lanes * sizeof(E), seed + 2); \
        refused = 1; \
        fl_unfor_pack_##type(width, packed, words, base[0], out); \
        store_##type(out, FL_COLUMN_FOR_ONLY | (seed % 2 ? 0 : FL_COLUMN_NO_CHECKSUMS)); \
        fl_delta_read_##type(width, packed, words, base, out); \
        store_##type(out, seed % 2 ? 0 : FL_COLUMN_NO_CHECKSUMS); \
        refused = 0; \
        calls += 2; \
        unmap(packed, words * sizeof(E)), unmap(base, lanes * sizeof(E)), unmap(out, sizeof(E[1024])); \
    }

STORE(uint8_t, u8)
STORE(uint16_t, u16)
STORE(uint32_t, u32)
STORE(uint64_t, u64)

static void columns_at_all_widths(void) {
    for (uint64_t seed = 0; seed < 8; seed++) {
        for (size_t width = 0; width <= 8; width++) columns_at_width_u8(width, seed);
        for (size_t width = 0; width <= 16; width++) columns_at_width_u16(width, seed);
        for (size_t width = 0; width <= 32; width++) columns_at_width_u32(width, seed);
        for (size_t width = 0; width <= 64; width++) columns_at_width_u64(width, seed);
    }
}

/* How many bytes of a stack of its own, which grows downwards and is all 1 at first, a function writes over. */
static size_t stack_of(void (*function)(void)) {
    static unsigned char stack[64 * PAGE];
    static ucontext_t here, there;
    size_t left = 0;
    memset(stack, 1, sizeof stack);
    getcontext(&there);
    there.uc_stack.ss_sp = stack;
    there.uc_stack.ss_size = sizeof stack;
    there.uc_link = &here;
    makecontext(&there, function, 0);
    swapcontext(&here, &there);
    while (left < sizeof stack && stack[left] == 1) left++;
    return sizeof stack - left;
}

int main(void) {
    static char line[64];
    size_t stack = stack_of(at_all_widths), columns_stack = stack_of(columns_at_all_widths);
    int len = snprintf(line, sizeof line, "%zu calls\n%zu %zu bytes of stack\n", calls, stack, columns_stack);
    return write(1, line, (size_t)len) == len ? 0 : 6;
}
