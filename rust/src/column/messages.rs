//! What each kind of error says, and its number in C.
//!
//! Written by `crates/fastlanes_format/write_errors.py` from the table beside it, where changes are made.

use super::FormatErrorKind;

/// What an error of this kind says.
pub(super) fn message(kind: FormatErrorKind) -> &'static str {
    match kind {
        FormatErrorKind::Truncated => "unexpected end of input",
        FormatErrorKind::Magic => "not a fastlanes column of version 1",
        FormatErrorKind::Type => "wrong element type: not u8, u16, u32 or u64, or not the one requested",
        FormatErrorKind::ChecksumKind => "unknown kind of checksum: expected 0 (none) or 3 (CRC-32C)",
        FormatErrorKind::PageValues => "too many values in a page: expected at most 65536",
        FormatErrorKind::Reserved => "a reserved byte is not 0",
        FormatErrorKind::PageLength => "the page length does not match the page's contents",
        FormatErrorKind::Form => "unknown block form: expected 0 (FOR) or 1 (delta)",
        FormatErrorKind::Width => "the bit width of a block exceeds the bits of the element type",
        FormatErrorKind::BlockOffset => "wrong block offset: expected the end of the block before it",
        FormatErrorKind::Reference => "invalid block reference: expected an element (FOR) or 0 (delta)",
        FormatErrorKind::Checksum => "checksum mismatch",
        FormatErrorKind::ShortPage => "unexpected page after one with fewer than 65536 values",
        FormatErrorKind::Total => "wrong total: expected the number of values in the pages",
        FormatErrorKind::Trailing => "unexpected bytes after the end of the column",
        FormatErrorKind::BufferTooSmall => "the output buffer is too small for the column's values",
    }
}

/// The kind of error that has this number in C, if there is one.
pub(super) fn kind_of(number: u32) -> Option<FormatErrorKind> {
    match number {
        1 => Some(FormatErrorKind::Truncated),
        2 => Some(FormatErrorKind::Magic),
        3 => Some(FormatErrorKind::Type),
        4 => Some(FormatErrorKind::ChecksumKind),
        5 => Some(FormatErrorKind::PageValues),
        6 => Some(FormatErrorKind::Reserved),
        7 => Some(FormatErrorKind::PageLength),
        8 => Some(FormatErrorKind::Form),
        9 => Some(FormatErrorKind::Width),
        10 => Some(FormatErrorKind::BlockOffset),
        11 => Some(FormatErrorKind::Reference),
        12 => Some(FormatErrorKind::Checksum),
        13 => Some(FormatErrorKind::ShortPage),
        14 => Some(FormatErrorKind::Total),
        15 => Some(FormatErrorKind::Trailing),
        16 => Some(FormatErrorKind::BufferTooSmall),
        _ => None,
    }
}
