/*
 * Writes columns of values that are computed here, and reads them back, whole, in parts, one by one, and by comparisons: each type,
 * forms and checksums as they may be chosen, and counts about the ends of blocks and pages. Then reads what is no column: each one
 * cut anywhere, with a bit that is another, with room for too few values. Each buffer ends where a page begins that must not be touched, and another such page stands before it.
 * Ends with 0 if each call gives what it has to, else with the number of the line that found another.
 */
#define _GNU_SOURCE
#include <stdbool.h>
#include <stdio.h>
#include <string.h>
#include <sys/mman.h>
#include <unistd.h>

#include "fastlanes.h"

#define WANT(fact) \
    do { \
        if (!(fact)) fprintf(stderr, "line %d: not %s\n", __LINE__, #fact), _exit(1); \
    } while (0)

enum { PAGE = 4096 };

static size_t whole_pages(size_t bytes) { return (bytes + PAGE - 1) / PAGE * PAGE; }

/* A buffer of so many bytes between two pages that must not be touched; it ends where the second begins. */
static void *buffer(size_t bytes) {
    size_t pages = whole_pages(bytes);
    char *room = mmap(NULL, pages + 2 * PAGE, PROT_NONE, MAP_PRIVATE | MAP_ANONYMOUS, -1, 0);
    WANT(room != MAP_FAILED && (!pages || !mprotect(room + PAGE, pages, PROT_READ | PROT_WRITE)));
    return room + PAGE + pages - bytes;
}

static void unmap(void *at, size_t bytes) {
    size_t pages = whole_pages(bytes);
    munmap((char *)at + bytes - pages - PAGE, pages + 2 * PAGE);
}

/* A copy in a buffer of its own, which must not be written to. */
static void *copy(const void *from, size_t bytes) {
    char *at = buffer(bytes);
    if (bytes) {
        memcpy(at, from, bytes);
        WANT(!mprotect(at + bytes - whole_pages(bytes), whole_pages(bytes), PROT_READ));
    }
    return at;
}

/* Whether all bytes are this one. */
static int all_are(unsigned char byte, const void *at, size_t bytes) {
    for (size_t i = 0; i < bytes; i++)
        if (((const unsigned char *)at)[i] != byte) return 0;
    return 1;
}

enum { KINDS = 6 };

/* Value number i of a kind: equal ones, neighbours near one another, bits of all sorts, few bits beside a great value, values that
   pass the greatest and go on from 0, and blocks of different kinds in turn. */
static uint64_t value(int kind, uint64_t i) {
    uint64_t mixed = (i + 1) * 0x9E3779B97F4A7C15u;
    mixed ^= mixed >> 29;
    switch (kind) {
    case 0: return 77;
    case 1: return 1000000000 + 10 * i + mixed % 8;
    case 2: return mixed * 0xBF58476D1CE4E5B9u;
    case 3: return 0x8000000000000000u + mixed % 13;
    case 4: return UINT64_MAX - 1500 + i;
    default: return value((int)(i / 1024 % 5), i);
    }
}

/* Whether a comparison holds. */
static int holds(uint32_t comparison, uint64_t x, uint64_t y) {
    const int answers[6] = {x == y, x != y, x < y, x <= y, x > y, x >= y};
    return answers[comparison];
}

/* One column of each element type T bits long. */
#define COLUMNS(E, type, T) \
    /* Writes a column, whose bytes have a buffer of their own. */ \
    static uint8_t *written_##type(const E *values, size_t count, uint32_t flags, size_t *len) { \
        size_t most = fl_column_encode_bound_##type(count); \
        WANT(most == 32 + (count + 65535) / 65536 * 16 + (count + 1023) / 1024 * (16 + 128 * T)); \
        uint8_t *room = buffer(most); \
        memset(room, 0xA5, most); \
        WANT(fl_column_encode_##type(values, count, flags, room + 1, most - 1) == 0); \
        WANT(fl_column_encode_##type(values, count, flags | 4, room, most) == 0); \
        WANT(fl_column_encode_##type(values, count, flags | 1u << 31, room, most) == 0); \
        WANT(all_are(0xA5, room, most)); \
        *len = fl_column_encode_##type(values, count, flags, room, most); \
        WANT(*len >= 32 && *len <= most && all_are(0xA5, room + *len, most - *len)); \
        const uint8_t head[8] = {'F', 'L', 'C', 1, T, flags & FL_COLUMN_NO_CHECKSUMS ? 0 : 3, 0, 0}; \
        WANT(!memcmp(room, head, 8)); \
        uint8_t *bytes = copy(room, *len); \
        unmap(room, most); \
        return bytes; \
    } \
\
    /* A column comes back, and where there is room for one value less it is refused, and nothing is written. */ \
    static void comes_back_##type(const E *values, size_t count, const uint8_t *bytes, size_t len) { \
        size_t found = 12345, place = 54321; \
        E *back = buffer((count + 3) * sizeof(E)); \
        memset(back, 0x5A, (count + 3) * sizeof(E)); \
        WANT(fl_column_decode_##type(bytes, len, back, count + 3, &found, &place) == FL_ERR_NONE); \
        WANT(found == count && place == 54321 && !memcmp(back, values, count * sizeof(E))); \
        WANT(all_are(0x5A, back + count, 3 * sizeof(E))); \
        memset(back, 0x5A, count * sizeof(E)); \
        found = 12345; \
        WANT(fl_column_decode_##type(bytes, len, back + 3, count, &found, &place) == FL_ERR_NONE); \
        WANT(found == count && place == 54321 && !memcmp(back + 3, values, count * sizeof(E))); \
        if (count) { \
            memset(back, 0x5A, (count + 3) * sizeof(E)); \
            found = 12345; \
            WANT(fl_column_decode_##type(bytes, len, back + 4, count - 1, &found, &place) == FL_ERR_BUFFER_TOO_SMALL); \
            WANT(found == 12345 && place == len && all_are(0x5A, back, (count + 3) * sizeof(E))); \
        } \
        unmap(back, (count + 3) * sizeof(E)); \
    } \
\
    /* The values of an opened column that a comparison holds of. */ \
    static void filtered_##type(const fl_column_##type *column, const E *values, size_t count, uint32_t comparison, E other) { \
        size_t words = (count + 63) / 64, wanted = 0; \
        uint64_t *mask = buffer(8 * words); \
        memset(mask, 0xA5, 8 * words); \
        uint64_t told = fl_column_filter_##type(column, comparison, other, mask, words); \
        WANT(told <= (count + 1023) / 1024); \
        for (size_t i = 0; i < 64 * words; i++) { \
            int bit = i < count && holds(comparison, values[i], other); \
            WANT((mask[i / 64] >> i % 64 & 1) == (uint64_t)bit); \
            wanted += bit; \
        } \
        WANT(fl_column_count_##type(column, comparison, other) == wanted); \
        unmap(mask, 8 * words); \
    } \
\
    /* A column is opened, and read in parts, one by one, and by comparisons. */ \
    static void opened_##type(const E *values, size_t count, const uint8_t *bytes, size_t len) { \
        static const size_t places[] = {0, 1, 700, 1023, 1024, 2047, 65535, 65536}, lens[] = {0, 1, 2, 324, 1024, 1025, 5000}; \
        size_t place = 54321, step = count < 3000 ? 1 : 97; \
        for (uint32_t flags = 1; flags; flags *= 2) { \
            fl_column_##type closed = {0}; \
            WANT(fl_column_open_##type(bytes, len, flags, &closed, &place) == FL_ERR_FLAGS && place == 0); \
            WANT(all_are(0, &closed, sizeof closed)); \
            place = 54321; \
        } \
        fl_column_##type *filled = buffer(sizeof *filled); \
        WANT(fl_column_open_##type(bytes, len, 0, filled, &place) == FL_ERR_NONE && place == 54321); \
        fl_column_##type *column = copy(filled, sizeof *filled); \
        unmap(filled, sizeof *filled); \
        WANT(fl_column_len_##type(column) == count); \
        for (size_t i = 0; i < count; i += step) WANT(fl_column_get_##type(column, i) == values[i]); \
        if (count) WANT(fl_column_get_##type(column, count - 1) == values[count - 1]); \
        for (size_t k = 0; k < sizeof places / sizeof *places; k++) \
            for (size_t l = 0; l < sizeof lens / sizeof *lens; l++) { \
                size_t from = places[k], read = lens[l]; \
                if (from + read > count) read = from > count ? 0 : count - from; \
                if (from > count) from = count; \
                E *part = buffer(read * sizeof(E)); \
                memset(part, 0x5A, read * sizeof(E)); \
                fl_column_read_##type(column, from, part, read); \
                WANT(!memcmp(part, values + from, read * sizeof(E))); \
                unmap(part, read * sizeof(E)); \
            } \
        for (uint32_t comparison = FL_EQ; comparison <= FL_GE; comparison++) { \
            if (count) filtered_##type(column, values, count, comparison, values[count / 2]); \
            if (count > 3000) continue; \
            filtered_##type(column, values, count, comparison, 0); \
            filtered_##type(column, values, count, comparison, (E)-1); \
            if (count) filtered_##type(column, values, count, comparison, (E)(values[count - 1] + 1)); \
        } \
        unmap(column, sizeof *column); \
    } \
\
    /* Bytes that are no column are refused, at one of them or behind them, and nothing is written. */ \
    static uint32_t refused_##type(const uint8_t *bytes, size_t len, E *back, size_t room) { \
        size_t found = 12345, place = 54321; \
        static fl_column_##type column; \
        memset(&column, 0, sizeof column); \
        uint32_t opened = fl_column_open_##type(bytes, len, 0, &column, &place); \
        WANT(opened > FL_ERR_NONE && opened < FL_ERR_BUFFER_TOO_SMALL && place <= len && all_are(0, &column, sizeof column)); \
        size_t there = place; \
        memset(back, 0x5A, room * sizeof(E)); \
        uint32_t flaw = fl_column_decode_##type(bytes, len, back, room, &found, &place); \
        WANT(flaw == opened && place == there); \
        WANT(found == 12345 && all_are(0x5A, back, room * sizeof(E))); \
        return flaw; \
    } \
\
    static void flaws_##type(const E *values, size_t count, bool frames_only) { \
        size_t len; \
        uint8_t *bytes = written_##type(values, count, frames_only ? FL_COLUMN_FOR_ONLY : 0, &len); \
        E *back = buffer(count * sizeof(E)); \
        /* Cut anywhere, with the first byte that is gone in a page that must not be touched. */ \
        for (size_t left = 0; left < len; left += left < 200 || len - left < 60 ? 1 : 37) { \
            uint8_t *part = copy(bytes, left); \
            refused_##type(part, left, back, count); \
            unmap(part, left); \
        } \
        /* With one bit that is another: the checksums tell. */ \
        uint8_t *changed = buffer(len + 1); \
        memcpy(changed, bytes, len); \
        changed[len] = 0; \
        for (size_t i = 0; i < len; i += i < 200 || len - i < 60 ? 1 : 29) \
            for (int bit = 0; bit < 8; bit++) { \
                changed[i] ^= (uint8_t)(1 << bit); \
                refused_##type(changed, len, back, count); \
                changed[i] ^= (uint8_t)(1 << bit); \
            } \
        /* With a byte after the end. */ \
        WANT(refused_##type(changed, len + 1, back, count) == FL_ERR_TRAILING); \
        comes_back_##type(values, count, changed, len); \
        unmap(bytes, len); \
        unmap(changed, len + 1); \
        /* Where there are no checksums, a column with another bit is one of other values, or is refused. */ \
        bytes = written_##type(values, count, (frames_only ? FL_COLUMN_FOR_ONLY : 0) | FL_COLUMN_NO_CHECKSUMS, &len); \
        changed = buffer(len); \
        memcpy(changed, bytes, len); \
        for (size_t i = 0; i < len; i += i < 200 || len - i < 60 ? 1 : 29) \
            for (int bit = 0; bit < 8; bit++) { \
                size_t found = 0, place = 0; \
                changed[i] ^= (uint8_t)(1 << bit); \
                uint32_t flaw = fl_column_decode_##type(changed, len, back, count, &found, &place); \
                WANT(flaw <= FL_ERR_BUFFER_TOO_SMALL && place <= len && found == (flaw ? 0 : count)); \
                if (!flaw && (i + (size_t)bit) % 101 == 0) opened_##type(back, count, changed, len); \
                changed[i] ^= (uint8_t)(1 << bit); \
            } \
        /* What each part of the head and of the first page has to be. */ \
        static const struct { size_t at; uint8_t byte; uint32_t flaw; } parts[] = { \
            {0, 'f', FL_ERR_MAGIC}, {3, 2, FL_ERR_MAGIC}, {4, T == 8 ? 16 : 8, FL_ERR_TYPE}, {5, 1, FL_ERR_CHECKSUM_KIND}, \
            {6, 1, FL_ERR_RESERVED}, {14, 1, FL_ERR_PAGE_VALUES}, {20, 1, FL_ERR_RESERVED}, {24, 2, FL_ERR_FORM}, \
            {25, T + 1, FL_ERR_WIDTH}, {26, 1, FL_ERR_RESERVED}, {28, 1, FL_ERR_BLOCK_OFFSET}, {8, 1, FL_ERR_CHECKSUM}}; \
        for (size_t k = 0; k < sizeof parts / sizeof *parts; k++) { \
            uint8_t was = changed[parts[k].at]; \
            changed[parts[k].at] = parts[k].byte; \
            WANT(refused_##type(changed, len, back, count) == parts[k].flaw); \
            changed[parts[k].at] = was; \
        } \
        changed[len - 8]++; \
        WANT(refused_##type(changed, len, back, count) == FL_ERR_TOTAL); \
        unmap(bytes, len), unmap(changed, len), unmap(back, count * sizeof(E)); \
    } \
\
    static void columns_##type(void) { \
        static const size_t counts[] = {0, 1, 2, 63, 1023, 1024, 1025, 2500, 65535, 65536, 65537, 70000}; \
        for (int kind = 0; kind < KINDS; kind++) \
            for (size_t k = 0; k < sizeof counts / sizeof *counts; k++) { \
                size_t count = counts[k], len; \
                E *values = buffer(count * sizeof(E)); \
                for (size_t i = 0; i < count; i++) values[i] = (E)value(kind, i); \
                for (uint32_t flags = 0; flags < 4; flags++) { \
                    uint8_t *bytes = written_##type(values, count, flags, &len); \
                    comes_back_##type(values, count, bytes, len); \
                    opened_##type(values, count, bytes, len); \
                    unmap(bytes, len); \
                } \
                if (count == 2500) flaws_##type(values, count, kind % 2); \
                unmap(values, count * sizeof(E)); \
            } \
        WANT(fl_column_encode_bound_##type((size_t)1 << 60) == SIZE_MAX); \
        WANT(fl_column_encode_bound_##type(SIZE_MAX) == SIZE_MAX); \
    }

COLUMNS(uint8_t, u8, 8)
COLUMNS(uint16_t, u16, 16)
COLUMNS(uint32_t, u32, 32)
COLUMNS(uint64_t, u64, 64)

/* A column of more pages than those whose places are kept: others are passed on the way to a value. */
static void many_pages(void) {
    size_t count = 600 * 65536 + 12345, len, place;
    uint8_t *values = buffer(count);
    for (size_t i = 0; i < count; i++) values[i] = (uint8_t)(i / 65536 + i % 3);
    uint8_t *bytes = written_u8(values, count, FL_COLUMN_FOR_ONLY | FL_COLUMN_NO_CHECKSUMS, &len);
    fl_column_u8 *column = buffer(sizeof *column);
    WANT(fl_column_open_u8(bytes, len, 0, column, &place) == FL_ERR_NONE && fl_column_len_u8(column) == count);
    for (size_t i = 0; i < count; i += 32749) WANT(fl_column_get_u8(column, i) == values[i]);
    for (size_t i = 0; i < count; i += 65536) WANT(fl_column_get_u8(column, i) == values[i]);
    WANT(fl_column_get_u8(column, count - 1) == values[count - 1]);
    unmap(values, count), unmap(bytes, len), unmap(column, sizeof *column);
}

/* A comparison decides all delta blocks of ascending values except the one that may have the value. */
static void ascending(void) {
    enum { COUNT = 20 * 1024 };
    size_t len, place;
    uint32_t *values = buffer(COUNT * sizeof *values);
    for (size_t i = 0; i < COUNT; i++) values[i] = (uint32_t)(1000 + 3 * i);
    uint8_t *bytes = written_u32(values, COUNT, 0, &len);
    WANT(len == 8 + 16 + 20 * (16 + 128 * 3) + 24);
    fl_column_u32 *column = buffer(sizeof *column);
    WANT(fl_column_open_u32(bytes, len, 0, column, &place) == FL_ERR_NONE);
    static uint64_t mask[COUNT / 64];
    WANT(fl_column_filter_u32(column, FL_LT, values[10000], mask, COUNT / 64) == 19);
    WANT(fl_column_filter_u32(column, FL_LT, values[0], mask, COUNT / 64) == 19);
    WANT(fl_column_filter_u32(column, FL_LT, 999, mask, COUNT / 64) == 20 && all_are(0, mask, sizeof mask));
    WANT(fl_column_filter_u32(column, FL_LT, UINT32_MAX, mask, COUNT / 64) == 20 && all_are(0xFF, mask, sizeof mask));
    unmap(values, COUNT * sizeof *values), unmap(bytes, len), unmap(column, sizeof *column);
}

int main(void) {
    many_pages();
    ascending();
    columns_u8();
    columns_u16();
    columns_u32();
    columns_u64();
    /* Each error has a description of its own, and so have unknown numbers. */
    for (uint32_t error = 0; error <= FL_ERR_FLAGS + 1; error++)
        for (uint32_t other = 0; other < error; other++) WANT(strcmp(fl_column_error_string(error), fl_column_error_string(other)));
    WANT(!strcmp(fl_column_error_string(FL_ERR_FLAGS + 1), fl_column_error_string(UINT32_MAX)));
    return 0;
}
