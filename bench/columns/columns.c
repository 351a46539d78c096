/* Times encoded columns against zstd, lz4 and plain copies, on five kinds of a million values, and on 65,536 values of one kind, which
 * fit the cache. The values are the same in each run. Prints a line with the versions of zstd and lz4, then CSV: for each kind and way
 * of storing it the bytes per value and the gigabytes of values that are written and read per second, and for columns the nanoseconds
 * of random access, the microseconds of a filter of all values, and the number of blocks that the filter decides without their packed
 * words. Each figure is the best of 15 passes, or of 240 for 65,536 values. */
#include <lz4.h>
#include <stdbool.h>
#include <stdint.h>
#include <stdio.h>
#include <stdlib.h>
#include <string.h>
#include <time.h>
#include <zstd.h>

#include "fastlanes.h"

enum { COUNT = 1000000 };

/* The values of a kind that are stored, and the passes over them. */
static size_t count;
static int passes;

static uint32_t values[COUNT], back[COUNT];
static uint32_t places[COUNT];
static uint64_t mask[(COUNT + 63) / 64];
static uint8_t *bytes;
static size_t room;

/* A generator of 64 bits (xorshift, shifts 13, 7 and 17). */
static uint64_t state;

static uint32_t below(uint32_t bound) {
    state ^= state << 13;
    state ^= state >> 7;
    state ^= state << 17;
    return (uint32_t)((state >> 32) * bound >> 32);
}

static void timestamps(void) {
    uint32_t at = 1700000000;
    for (size_t i = 0; i < count; i++) values[i] = at += 900 + below(200);
}

static void postings(void) {
    uint32_t at = 0;
    for (size_t i = 0; i < count; i++) values[i] = at += 1 + below(60);
}

static void prices(void) {
    uint32_t price = 10000;
    for (size_t i = 0; i < count; i++) {
        if (below(20) == 0) price += below(101) - 50;
        values[i] = price;
    }
}

static void noise(void) {
    for (size_t i = 0; i < count; i++) values[i] = below(UINT32_MAX);
}

static void categories(void) {
    for (size_t i = 0; i < count; i++) values[i] = below(12);
}

/* How many bytes a way takes, and whether it reads them back. */
typedef size_t (*Write)(void);
typedef bool (*Read)(size_t len);

static size_t write_copy(void) { memcpy(bytes, values, count * sizeof *values); return count * sizeof *values; }
static bool read_copy(size_t len) { memcpy(back, bytes, len); return true; }

static size_t write_column(uint32_t flags) {
    return fl_column_encode_u32(values, count, flags, bytes, room);
}
static size_t write_either(void) { return write_column(0); }
static size_t write_unchecked(void) { return write_column(FL_COLUMN_NO_CHECKSUMS); }
static size_t write_frames(void) { return write_column(FL_COLUMN_FOR_ONLY | FL_COLUMN_NO_CHECKSUMS); }
static bool read_column(size_t len) {
    size_t found, error_offset;
    return fl_column_decode_u32(bytes, len, back, count, &found, &error_offset) == FL_ERR_NONE && found == count;
}

static size_t write_zstd(void) { return ZSTD_compress(bytes, room, values, count * sizeof *values, 1); }
static bool read_zstd(size_t len) { return ZSTD_decompress(back, count * sizeof *back, bytes, len) == count * sizeof *back; }

static size_t write_lz4(void) {
    return (size_t)LZ4_compress_default((const char *)values, (char *)bytes, count * sizeof *values, (int)room);
}
static bool read_lz4(size_t len) {
    return LZ4_decompress_safe((const char *)bytes, (char *)back, (int)len, (int)(count * sizeof *back)) == (int)(count * sizeof *back);
}

static double seconds(void) {
    struct timespec now;
    clock_gettime(CLOCK_MONOTONIC, &now);
    return (double)now.tv_sec + (double)now.tv_nsec * 1e-9;
}

/* One value after another by its number, and which values are at least the one of number 990,000. */
static void time_calls(const char *kind, size_t len) {
    double got = 1e9, filtered = 1e9;
    uint64_t told = 0;
    size_t error_offset;
    fl_column_u32 column = {0};
    if (fl_column_open_u32(bytes, len, 0, &column, &error_offset) != FL_ERR_NONE) exit(1);
    for (int pass = 0; pass < passes; pass++) {
        uint32_t sum = 0, expected = 0;
        double begin = seconds();
        for (size_t i = 0; i < count; i++) sum += fl_column_get_u32(&column, places[i]);
        double middle = seconds();
        told = fl_column_filter_u32(&column, FL_GE, values[count - count / 100], mask, (count + 63) / 64);
        double end = seconds();
        for (size_t i = 0; i < count; i++) expected += values[places[i]];
        if (sum != expected) {
            fprintf(stderr, "%s: other values\n", kind);
            exit(1);
        }
        if (middle - begin < got) got = middle - begin;
        if (end - middle < filtered) filtered = end - middle;
    }
    printf(",%.1f,%.1f,%d\n", got / (double)count * 1e9, filtered * 1e6, (int)told);
}

static void time_way(const char *kind, const char *name, Write write, Read read) {
    double written = 1e9, was_read = 1e9;
    size_t len = 0;
    for (int pass = 0; pass < passes; pass++) {
        double begin = seconds();
        len = write();
        double middle = seconds();
        memset(back, 255, count * sizeof *back);
        double again = seconds();
        bool is_read = read(len);
        double end = seconds();
        if (!is_read || memcmp(back, values, count * sizeof *values)) {
            fprintf(stderr, "%s: %s does not come back\n", kind, name);
            exit(1);
        }
        if (middle - begin < written) written = middle - begin;
        if (end - again < was_read) was_read = end - again;
    }
    printf("%s,%s,%.3f,%.2f,%.2f", kind, name, (double)len / (double)count, count * sizeof *values / written * 1e-9, count * sizeof *values / was_read * 1e-9);
    if (read == read_column) time_calls(kind, len);
    else puts(",,,");
}

int main(void) {
    static const struct {
        const char *name;
        void (*make)(void);
        size_t count;
    } kinds[] = {
        {"timestamps", timestamps, COUNT}, {"postings", postings, COUNT},     {"prices", prices, COUNT},
        {"noise", noise, COUNT},           {"categories", categories, COUNT}, {"timestamps in cache", timestamps, 65536},
    };
    room = fl_column_encode_bound_u32(COUNT);
    if (room < ZSTD_compressBound(sizeof values)) room = ZSTD_compressBound(sizeof values);
    if (room < (size_t)LZ4_compressBound(sizeof values)) room = (size_t)LZ4_compressBound(sizeof values);
    bytes = malloc(room);
    if (!bytes) return 1;
    printf("# zstd %s and lz4 %s\n", ZSTD_versionString(), LZ4_versionString());
    puts("values,stored,bytes_a_value,written_gb_s,read_gb_s,one_value_ns,filter_us,blocks_told");
    for (size_t k = 0; k < sizeof kinds / sizeof *kinds; k++) {
        count = kinds[k].count;
        passes = count < COUNT ? 240 : 15;
        state = 88172645463325252;
        for (size_t i = 0; i < count; i++) places[i] = below((uint32_t)count);
        state = 88172645463325252;
        kinds[k].make();
        time_way(kinds[k].name, "column with checksums", write_either, read_column);
        time_way(kinds[k].name, "column", write_unchecked, read_column);
        time_way(kinds[k].name, "column of frames", write_frames, read_column);
        time_way(kinds[k].name, "zstd -1", write_zstd, read_zstd);
        time_way(kinds[k].name, "lz4", write_lz4, read_lz4);
        time_way(kinds[k].name, "copy", write_copy, read_copy);
    }
    free(bytes);
    return 0;
}
