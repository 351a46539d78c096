/* Stores a million values as a column of bytes, and reads them: one, all, and which are of some range; then the same bytes with one that
   is another. */
#include <stdio.h>
#include <stdlib.h>
#include <string.h>

#include "fastlanes.h"

enum { VALUES = 1000000 };

static uint32_t values[VALUES], back[VALUES];

int main(void) {
    for (size_t i = 0; i < VALUES; i++) values[i] = (uint32_t)(1600000000 + 7 * i + i * i % 1000);

    size_t bound = fl_column_encode_bound_u32(VALUES);
    uint8_t *bytes = malloc(bound);
    if (!bytes) return 1;
    size_t len = fl_column_encode_u32(values, VALUES, 0, bytes, bound);
    printf("%zu bytes\n", len);

    size_t count = 0, error_offset = 0;
    uint32_t error = fl_column_decode_u32(bytes, len, back, VALUES, &count, &error_offset);
    if (error != FL_ERR_NONE || count != VALUES || memcmp(back, values, sizeof values)) return 1;

    fl_column_u32 column = {0};
    if (fl_column_open_u32(bytes, len, 0, &column, &error_offset) != FL_ERR_NONE) return 1;
    printf("value 123456 is %u\n", (unsigned)fl_column_get_u32(&column, 123456));
    static uint64_t mask[(VALUES + 63) / 64];
    uint64_t told = fl_column_filter_u32(&column, FL_LT, 1600123456, mask, sizeof mask / sizeof *mask);
    printf("%u are less than 1600123456; of %u blocks the heads alone told it\n",
           (unsigned)fl_column_count_u32(&column, FL_LT, 1600123456), (unsigned)told);
    for (size_t i = 0; i < VALUES; i++)
        if ((mask[i / 64] >> i % 64 & 1) != (values[i] < 1600123456)) return 1;

    bytes[50000] ^= 1;
    error = fl_column_decode_u32(bytes, len, back, VALUES, &count, &error_offset);
    printf("at byte %zu: %s\n", error_offset, fl_column_error_string(error));
    free(bytes);
    return 0;
}
