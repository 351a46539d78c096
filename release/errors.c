/* The descriptions of errors. Written by crates/fastlanes_c/blocks/write.py from crates/fastlanes_format/errors.txt. It includes no
   header, so that a compiler without a C library builds it. */
const char *fl_column_error_string(unsigned error);

static const char *const texts[] = {
    "no error",
    "unexpected end of input",
    "not a fastlanes column of version 1",
    "wrong element type: not u8, u16, u32 or u64, or not the one requested",
    "unknown kind of checksum: expected 0 (none) or 3 (CRC-32C)",
    "too many values in a page: expected at most 65536",
    "a reserved byte is not 0",
    "the page length does not match the page's contents",
    "unknown block form: expected 0 (FOR) or 1 (delta)",
    "the bit width of a block exceeds the bits of the element type",
    "wrong block offset: expected the end of the block before it",
    "invalid block reference: expected an element (FOR) or 0 (delta)",
    "checksum mismatch",
    "unexpected page after one with fewer than 65536 values",
    "wrong total: expected the number of values in the pages",
    "unexpected bytes after the end of the column",
    "the output buffer is too small for the column's values",
    "unknown flags: expected 0",
};

const char *fl_column_error_string(unsigned error) {
    return error < sizeof texts / sizeof *texts ? texts[error] : "unknown error";
}
