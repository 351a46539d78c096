/* Packs the block of 0, 1, 2 .. to four bits, prints its first sixteen words, and reads it back. C99 or later. */
#include <stdio.h>

#include "fastlanes.h"

int main(void) {
    uint16_t values[1024], packed[64 * 4], back[1024];
    for (size_t i = 0; i < 1024; i++) values[i] = (uint16_t)i;

    fl_pack_u16(4, values, packed, 64 * 4);
    for (size_t k = 0; k < 16; k++) printf("%04x\n", (unsigned)packed[k]);

    fl_unpack_u16(4, packed, 64 * 4, back);
    for (size_t i = 0; i < 1024; i++)
        if (back[i] != i % 16 || fl_unpack_single_u16(4, packed, 64 * 4, i) != i % 16) return 1;
    return 0;
}
