/* Stores a million values as a column of blocks, each at the least width that holds it, and reads them by their numbers. */
#include <stdio.h>

#include "fastlanes.h"

enum { VALUES = 1000000, BLOCKS = (VALUES + 1023) / 1024, LANES = 32 };

static uint32_t value(size_t i) { return (uint32_t)(1600000000 + 7 * i + i * i % 1000); }

/* The words of the blocks, one after another, and for each block how it is packed and where its words begin. */
static uint32_t words[BLOCKS * 1024], references[BLOCKS];
static size_t widths[BLOCKS], starts[BLOCKS];

static uint32_t get(size_t i) {
    size_t b = i / 1024;
    return fl_frame_get_u32(widths[b], references[b], words + starts[b], LANES * widths[b], i % 1024);
}

int main(void) {
    size_t len = 0;
    for (size_t b = 0; b < BLOCKS; b++) {
        uint32_t block[1024];
        for (size_t k = 0; k < 1024; k++) {
            /* The last block is filled with the last value. */
            size_t i = b * 1024 + k;
            block[k] = value(i < VALUES ? i : VALUES - 1);
        }
        widths[b] = fl_frame_head_u32(block, &references[b]);
        starts[b] = len;
        fl_for_pack_u32(widths[b], block, references[b], words + len, LANES * widths[b]);
        len += LANES * widths[b];
    }
    printf("%zu words\n", len);

    for (size_t i = 0; i < VALUES; i++)
        if (get(i) != value(i)) return 1;
    printf("%u %u %u\n", (unsigned)get(0), (unsigned)get(123456), (unsigned)get(999999));
    return 0;
}
