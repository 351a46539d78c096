//! Encoded columns: an independent implementation writes the same bytes, and values round-trip through all calls that read a column.
//! Malformed columns are rejected, with the right error.

use fastlanes::Comparison;
use fastlanes::column::{
    Column, FormatError, FormatErrorKind, Options, Stored, decode, decode_into, encode, encode_bound, encode_into,
    encode_with,
};
use std::alloc::{GlobalAlloc, Layout, System};
use std::array::from_fn;
use std::cell::Cell;
use std::error::Error;
use std::fmt::Debug;
use std::{ptr, thread};

trait Element: Stored + Debug {
    fn of(number: u64) -> Self;
}

macro_rules! element {
    ($($E:ident)*) => {
        $(impl Element for $E {
            fn of(number: u64) -> Self {
                number as $E
            }
        })*
    };
}

element!(u8 u16 u32 u64);

const LENGTHS: [usize; 8] = [0, 1, 1023, 1024, 1025, 65536, 65537, 200_000];

const COMPARISONS: [Comparison; 6] = [
    Comparison::Equal,
    Comparison::NotEqual,
    Comparison::Less,
    Comparison::AtMost,
    Comparison::Greater,
    Comparison::AtLeast,
];

/// All options.
const OPTIONS: [Options; 4] = [
    options(false, false),
    options(false, true),
    options(true, false),
    options(true, true),
];

const fn options(for_only: bool, checksums: bool) -> Options {
    Options { for_only, checksums }
}

fn mixed(i: u64) -> u64 {
    let number = (i + 1).wrapping_mul(0x9E37_79B9_7F4A_7C15);
    (number ^ number >> 29).wrapping_mul(0xBF58_476D_1CE4_E5B9)
}

/// The value at index i, by kind: equal values, ascending values, small differences, random bits, small offsets from the maximum, and
/// ascending values that wrap at the maximum.
const KINDS: [fn(u64) -> u64; 6] = [
    |_| 77,
    |i| 1_000_000_000 + 3 * i,
    |i| 5000 + 10 * i + mixed(i) % 8,
    mixed,
    |i| u64::MAX - 15 + mixed(i) % 13,
    |i| (u64::MAX - 500).wrapping_add(i),
];

fn values<E: Element>(kind: fn(u64) -> u64, len: usize) -> Vec<E> {
    (0..len as u64).map(|i| E::of(kind(i))).collect()
}

/// Some indices below a length: near the boundaries of blocks and pages, and others.
fn indices(len: usize) -> impl Iterator<Item = usize> {
    let ends = [0, 1024, 2048, 65536, 131_072, len].into_iter();
    let near = ends.flat_map(|end| end.saturating_sub(2)..end + 2);
    near.chain((0..len).step_by(997)).filter(move |index| *index < len)
}

/// `encode_with` and `encode_into` write the same bytes, within the bound.
fn assert_encoded<E: Element>(values: &[E], options: Options) -> Vec<u8> {
    let bytes = encode_with(values, options);
    let (len, bound) = (values.len(), encode_bound::<E>(values.len()));
    let blocks = len.div_ceil(1024);
    assert_eq!(bound, 32 + 16 * len.div_ceil(65536) + (16 + 128 * E::T) * blocks);
    assert!((32..=bound).contains(&bytes.len()));
    assert_eq!(&bytes[..4], b"FLC\x01");
    assert_eq!(bytes[4..8], [E::T as u8, 3 * u8::from(options.checksums), 0, 0]);

    let mut buffer = vec![0xA5; bound + 3];
    assert_eq!(encode_into(values, options, &mut buffer), Some(bytes.len()));
    assert_eq!(buffer[..bytes.len()], bytes);
    assert!(buffer[bytes.len()..].iter().all(|byte| *byte == 0xA5));
    let mut buffer = vec![0xA5; bound];
    assert_eq!(encode_into(values, options, &mut buffer[1..]), None);
    assert!(buffer.iter().all(|byte| *byte == 0xA5));
    assert_eq!(encode_into(values, options, &mut buffer), Some(bytes.len()));
    bytes
}

/// `decode` and `decode_into` return the values, if the buffer is large enough.
fn assert_decoded<E: Element>(values: &[E], bytes: &[u8]) {
    let fill = E::of(0x5A5A_5A5A_5A5A_5A5A);
    assert_eq!(decode::<E>(bytes).as_deref(), Ok(values));
    let mut buffer = vec![fill; values.len() + 3];
    assert_eq!(decode_into(bytes, &mut buffer), Ok(values.len()));
    assert_eq!(buffer, [values, &[fill; 3]].concat());
    let mut buffer = vec![fill; values.len()];
    assert_eq!(decode_into(bytes, &mut buffer), Ok(values.len()));
    assert_eq!(buffer, values);
    if let Some(less) = values.len().checked_sub(1) {
        let mut buffer = vec![fill; less];
        let error = decode_into(bytes, &mut buffer);
        assert_eq!(error, Err(too_small(bytes.len())));
        assert_eq!(buffer, vec![fill; less]);
    }
}

/// All calls that read values of an opened column return them.
fn assert_read<E: Element>(values: &[E], column: &Column<E>) {
    assert_eq!(column.len(), values.len() as u64);
    assert_eq!(column.is_empty(), values.is_empty());
    assert_eq!(column.to_vec(), values);
    assert_eq!(column.iter().len(), values.len());
    assert!(column.iter().eq(values.iter().copied()));
    for index in indices(values.len()) {
        assert_eq!(column.get(index as u64), values[index]);
    }
    for start in indices(values.len()).step_by(7).chain([values.len()]) {
        for len in [0, 1, 2, 1023, 1024, 1025, 5000, values.len()] {
            let part = &values[start..values.len().min(start + len)];
            let mut read = vec![E::of(0x5A); part.len()];
            column.read(start as u64, &mut read);
            assert_eq!(read, part);
        }
    }
}

fn holds<E: Element>(comparison: Comparison, one: E, other: E) -> bool {
    match comparison {
        Comparison::Equal => one == other,
        Comparison::NotEqual => one != other,
        Comparison::Less => one < other,
        Comparison::AtMost => one <= other,
        Comparison::Greater => one > other,
        Comparison::AtLeast => one >= other,
    }
}

/// `filter` and `count` find the values that satisfy the comparisons.
fn assert_filtered<E: Element>(values: &[E], column: &Column<E>, other: E) {
    for comparison in COMPARISONS {
        let mut expected = vec![0; values.len().div_ceil(64)];
        for (word, part) in expected.iter_mut().zip(values.chunks(64)) {
            for (bit, value) in part.iter().enumerate() {
                *word |= u64::from(holds(comparison, *value, other)) << bit;
            }
        }
        let mut mask = vec![u64::MAX; expected.len()];
        let skipped = column.filter(comparison, other, &mut mask);
        assert!(skipped <= values.len().div_ceil(1024) as u64);
        assert_eq!(mask, expected, "{comparison:?} {other:?}");
        let ones = mask.iter().map(|word| u64::from(word.count_ones())).sum::<u64>();
        assert_eq!(column.count(comparison, other), ones);
    }
}

fn assert_type<E: Element>() {
    for (kind, len) in KINDS.into_iter().flat_map(|kind| LENGTHS.map(|len| (kind, len))) {
        let values = values::<E>(kind, len);
        for options in OPTIONS {
            let bytes = assert_encoded(&values, options);
            assert_decoded(&values, &bytes);
            let column = Column::open(&bytes).expect("a column");
            assert_read(&values, &column);
            let is_default = options == Options::default();
            if is_default {
                assert_eq!(encode(&values), bytes);
            }
            if let Some(value) = values.get(len / 2).filter(|_| is_default || len <= 1025) {
                assert_filtered(&values, &column, *value);
            }
            if len <= 1025 {
                for other in [0, 77, 78, u64::MAX - 10, u64::MAX] {
                    assert_filtered(&values, &column, E::of(other));
                }
            }
        }
    }
}

#[test]
fn columns_of_u8_round_trip() {
    assert_type::<u8>();
}

#[test]
fn columns_of_u16_round_trip() {
    assert_type::<u16>();
}

#[test]
fn columns_of_u32_round_trip() {
    assert_type::<u32>();
}

#[test]
fn columns_of_u64_round_trip() {
    assert_type::<u64>();
}

/// The bytes of the column are these hexadecimal digits.
fn assert_written<E: Element>(values: &[E], options: Options, digits: &str) {
    let byte = |i: usize| u8::from_str_radix(&digits[2 * i..2 * i + 2], 16).expect("two digits");
    let expected: Vec<u8> = (0..digits.len() / 2).map(byte).collect();
    assert_eq!(encode_with(values, options), expected);
    assert_eq!(decode::<E>(&expected).as_deref(), Ok(values));
}

/// The independent implementation is tests/columns/model.py: `encode(bits, values, for_only, checksums).hex()`.
#[test]
#[rustfmt::skip]
fn bytes_equal_those_of_an_independent_implementation() {
    assert_written::<u8>(
        &[],
        options(false, true),
        "464c430108030000197920350000000008000000000000000000000000000000",
    );
    assert_written::<u64>(
        &[],
        options(true, false),
        "464c430140000000000000000000000008000000000000000000000000000000",
    );
    assert_written::<u16>(
        &[513],
        options(false, true),
        "464c430110030000b7dc1e7b010000001000000000000000000000002000000001020000000000003e041c7c0000000008000000\
         000000000100000000000000",
    );
    assert_written::<u32>(
        &[7; 1024],
        options(true, false),
        "464c4301200000000000000000040000100000000000000000000000200000000700000000000000000000000000000008000000\
         000000000004000000000000",
    );
    assert_written::<u8>(
        &[10, 11, 10],
        options(false, true),
        "464c430108030000063a2ad203000000900000000000000000010000200000000a00000000000000000100000000000000000000\
         00000000000000000000000000000000000000000000000000000000000000000000000000000000000000000000000000000000\
         00000000000000000000000000000000000000000000000000000000000000000000000000000000000000000000000000000000\
         00000000000000000000000070fe64ee0000000008000000000000000300000000000000",
    );
    assert_written::<u64>(
        &[u64::MAX, u64::MAX - 1, u64::MAX],
        options(true, false),
        "464c430140000000000000000300000090000000000000000001000020000000fefffffffffffffffffffffffffffffffeffffff\
         ffffffffffffffffffffffffffffffffffffffffffffffffffffffffffffffffffffffffffffffffffffffffffffffffffffffff\
         ffffffffffffffffffffffffffffffffffffffffffffffffffffffffffffffffffffffffffffffffffffffffffffffffffffffff\
         ffffffffffffffffffffffff000000000000000008000000000000000300000000000000",
    );
    assert_written::<u16>(
        &[65530, 65531, 65532, 65533, 65534],
        options(true, true),
        "464c4301100300008cb125880500000090010000000000000003000020000000faff000000000000204921492249234924492449\
         24492449244924492449244924492449244924492449244924492449244924492449244924492449244924492449244924492449\
         24492449244924492449244924492449244924492449244924492449244924492449244924492449244924492449244924492449\
         24492449244924492449244992249224922492249224922492249224922492249224922492249224922492249224922492249224\
         92249224922492249224922492249224922492249224922492249224922492249224922492249224922492249224922492249224\
         92249224922492249224922492249224922492249224922492249224922492249224922449924992499249924992499249924992\
         49924992499249924992499249924992499249924992499249924992499249924992499249924992499249924992499249924992\
         49924992499249924992499249924992499249924992499249924992499249924992499249924992499249924992499249924992\
         49924992499249925386015d0000000008000000000000000500000000000000",
    );
    assert_written::<u32>(
        &from_fn::<_, 1024, _>(|i| 3 * i as u32),
        options(false, true),
        "464c430120030000a195b9fd0004000090010000000000000102000020000000000000000000000000000000bd0000007d010000\
         3d020000fd020000bd0300007d0400003d050000fd050000bd0600007d0700003d080000fd080000bd0900007d0a00003d0b0000\
         5d0000001d010000dd0100009d0200005d0300001d040000dd0400009d0500005d0600001d070000dd0700009d0800005d090000\
         1d0a0000dd0a00009d0b0000fcffffffffffffffffffffffffffffffffffffffffffffffffffffffffffffffffffffffffffffff\
         ffffffffffffffffffffffffffffffffffffffffffffffffffffffffffffffffffffffffffffffffffffffffffffffffffffffff\
         ffffffffffffffffffffffffffffffffffffffffffffffffffffffffffffffffffffffffffffffffffffffffffffffffffffffff\
         ffffffffffffffffffffffffffffffffffffffffffffffffffffffffffffffffffffffffffffffffffffffffffffffffffffffff\
         ffffffffffffffffffffffffffffffffffffffffffffffffffffffffffffffffffffffffffffffffffffffffffffffffffffffff\
         ffffffffffffffffc8bcc0900000000008000000000000000004000000000000",
    );
}

/// A partly consumed iterator returns the same values as a slice iterator, and the same number of values left.
#[test]
fn iterators_agree_with_slice_iterators() {
    for (round, options) in OPTIONS.into_iter().enumerate() {
        let values = values::<u32>(KINDS[2], 70_000);
        let bytes = encode_with(&values, options);
        let column = Column::<u32>::open(&bytes).expect("a column");
        let (mut iter, mut expected) = (column.iter(), values.iter().copied());
        for step in 0.. {
            let number = mixed(step + 1000 * round as u64);
            match number % 3 {
                0 => assert_eq!(iter.next(), expected.next()),
                1 => {
                    let skipped = [0, 1, 17, 1023, 1024, 3000][number as usize / 3 % 6];
                    assert_eq!(iter.nth(skipped), expected.nth(skipped));
                }
                _ => {
                    let some = number as usize / 3 % 1300;
                    assert!(iter.by_ref().take(some).eq(expected.by_ref().take(some)));
                }
            }
            assert_eq!(iter.len(), expected.len());
            assert_eq!(iter.size_hint(), (expected.len(), Some(expected.len())));
            if step % 10 == 0 {
                assert!(iter.clone().eq(expected.clone()));
            }
            if iter.len() == 0 {
                break;
            }
        }
        assert_eq!([iter.next(), iter.nth(5), iter.nth(usize::MAX), iter.next()], [None; 4]);
        assert_eq!(column.iter().nth(69_999), Some(values[69_999]));
        assert_eq!(column.iter().nth(70_000), None);
        let mut iter = column.iter();
        assert_eq!(
            (iter.next(), iter.nth(usize::MAX), iter.len()),
            (Some(values[0]), None, 0)
        );
        assert!(column.iter().step_by(1500).eq(values.iter().copied().step_by(1500)));
        let mut sum = 0;
        for value in &column {
            sum += u64::from(value);
        }
        assert_eq!(sum, values.iter().map(|value| u64::from(*value)).sum());
    }
}

/// A FOR block is decided from its header if the value is not between its reference and the reference plus 2^width - 1.
#[test]
fn filter_counts_blocks_that_are_decided_from_the_header() {
    let ascending = values::<u32>(KINDS[1], 10_240);
    let bytes = encode_with(&ascending, options(true, true));
    let column = Column::<u32>::open(&bytes).expect("a column");
    let mut mask = [0; 160];
    assert_eq!(column.filter(Comparison::Less, ascending[5000], &mut mask), 9);
    assert_eq!(column.filter(Comparison::Less, ascending[0], &mut mask), 9);
    assert_eq!(column.filter(Comparison::Less, ascending[0] - 1, &mut mask), 10);
    assert_eq!(mask, [0; 160]);
    assert_eq!(column.filter(Comparison::AtLeast, ascending[0] - 1, &mut mask), 10);
    assert_eq!(mask, [u64::MAX; 160]);
}

/// A delta block is decided if the value is below all bases, or above the maximum of the bases plus T * (2^width - 1).
#[test]
fn filter_counts_delta_blocks_that_are_decided_from_their_bases() {
    let ascending: Vec<u32> = (0..10_240).map(|i| 1000 + 3 * i).collect();
    let bytes = encode(&ascending);
    assert_eq!(bytes.len(), 8 + 16 + 10 * (16 + 128 * 3) + 24);
    let column = Column::<u32>::open(&bytes).expect("a column");
    let mut mask = [0; 160];
    assert_eq!(column.filter(Comparison::Less, ascending[5000], &mut mask), 9);
    assert_eq!(column.count(Comparison::Less, ascending[5000]), 5000);
    assert_eq!(column.filter(Comparison::Less, ascending[0] - 1, &mut mask), 10);
    assert_eq!(mask, [0; 160]);
    assert_eq!(column.filter(Comparison::Less, u32::MAX, &mut mask), 10);
    assert_eq!(mask, [u64::MAX; 160]);
}

/// The system allocator, with a maximum allocation size per thread.
struct Limited;

thread_local!(static MAXIMUM: Cell<usize> = const { Cell::new(usize::MAX) });

// SAFETY: other allocations are the system allocator's.
unsafe impl GlobalAlloc for Limited {
    unsafe fn alloc(&self, layout: Layout) -> *mut u8 {
        if layout.size() > MAXIMUM.get() {
            return ptr::null_mut();
        }
        unsafe { System.alloc(layout) }
    }

    unsafe fn dealloc(&self, memory: *mut u8, layout: Layout) {
        unsafe { System.dealloc(memory, layout) }
    }
}

#[global_allocator]
static MEMORY: Limited = Limited;

/// `encode` shrinks its result, `decode` allocates the size of the values and reports failed allocations, and other calls do not
/// allocate.
#[test]
fn allocations_are_limited() {
    let values = values::<u64>(KINDS[0], 100_000);
    let bytes = encode(&values);
    assert_eq!(bytes.len(), 1632);
    assert!(bytes.capacity() < 2000);
    assert_eq!(decode::<u64>(&bytes).expect("a column").capacity(), 100_000);

    MAXIMUM.set(799_999);
    let failed = decode::<u64>(&bytes);
    MAXIMUM.set(800_000);
    let decoded = decode::<u64>(&bytes);
    MAXIMUM.set(usize::MAX);
    assert_eq!(failed, Err(too_small(bytes.len())));
    assert_eq!(decoded, Ok(values.clone()));

    let mut buffer = vec![0; encode_bound::<u64>(100_000)];
    let (mut read, mut part, mut mask) = (vec![0; 100_000], [0; 3000], [0; 1563]);
    MAXIMUM.set(0);
    let len = encode_into(&values, Options::default(), &mut buffer);
    let count = decode_into(&bytes, &mut read);
    let column = Column::<u64>::open(&bytes).expect("a column");
    column.read(70_000, &mut part);
    let skipped = column.filter(Comparison::Less, 78, &mut mask);
    let found = (column.get(5), column.count(Comparison::Less, 78), column.iter().count());
    let no_column = decode::<u64>(&bytes[1..]);
    MAXIMUM.set(usize::MAX);
    assert_eq!((len, count), (Some(1632), Ok(100_000)));
    assert_eq!((skipped, found), (98, (77, 100_000, 100_000)));
    assert_eq!(no_column.expect_err("no column").kind, FormatErrorKind::Magic);
    assert!(read == values && part == values[..3000]);
}

/// An opened column stores 256 page offsets.
#[test]
fn columns_of_more_than_256_pages_round_trip() {
    let values: Vec<u8> = (0..300 * 65536 + 5).map(|i| (i / 65536 + i % 3) as u8).collect();
    let bytes = encode(&values);
    let column = Column::<u8>::open(&bytes).expect("a column");
    assert_eq!(column.len(), values.len() as u64);
    for index in (0..values.len()).step_by(65_521) {
        assert_eq!(column.get(index as u64), values[index]);
    }
    let mut part = [0; 5000];
    column.read(256 * 65536 - 1000, &mut part);
    assert_eq!(part, values[256 * 65536 - 1000..][..5000]);
    assert_eq!(decode(&bytes), Ok(values));
}

#[test]
fn a_column_can_be_moved_to_threads_and_shared_by_them() {
    let values = values::<u64>(KINDS[2], 100_000);
    let bytes = encode(&values);
    let column = Column::<u64>::open(&bytes).expect("a column");
    let (column, values) = (&column, &values);
    thread::scope(|scope| {
        for first in 0..4 {
            scope.spawn(move || {
                for index in (first..values.len()).step_by(101) {
                    assert_eq!(column.get(index as u64), values[index]);
                }
            });
        }
        let (moved, iter) = (column.clone(), column.iter());
        scope.spawn(move || assert_eq!(moved.to_vec(), *values));
        scope.spawn(move || assert!(iter.eq(values.iter().copied())));
    });
}

#[test]
fn debug_shows_type_and_length() {
    let bytes = encode(&[7u32, 8, 9]);
    let column = Column::<u32>::open(&bytes).expect("a column");
    assert_eq!(format!("{column:?}"), "Column { element: u32, len: 3 }");
    let mut iter = column.iter();
    iter.next();
    assert_eq!(format!("{iter:?}"), "Iter { element: u32, next: 1, left: 2 }");
    assert_eq!(
        format!("{:?}", Options::default()),
        "Options { for_only: false, checksums: true }"
    );
}

/// The error of a buffer or of memory that is too small for the values of a column.
fn too_small(offset: usize) -> FormatError {
    FormatError {
        kind: FormatErrorKind::BufferTooSmall,
        offset,
    }
}

/// All calls that read bytes return this error.
#[track_caller]
fn assert_error(bytes: &[u8], kind: FormatErrorKind, offset: usize) {
    let error = FormatError { kind, offset };
    assert_eq!(Column::<u16>::open(bytes).expect_err("no column"), error);
    assert_eq!(decode::<u16>(bytes), Err(error));
    let mut buffer = [99; 10];
    assert_eq!(decode_into::<u16>(bytes, &mut buffer), Err(error));
    assert_eq!(buffer, [99; 10]);
}

/// docs/FORMAT.md defines the offsets: a page begins at byte 8, the header of its block at 24, and the trailer at 168.
#[test]
fn each_error_is_reported_at_its_offset() {
    use FormatErrorKind::*;
    let bytes = encode_with(&[5u16, 6], options(true, false));
    assert_eq!(bytes.len(), 8 + 16 + 16 + 128 + 24);
    let changed = |at: usize, byte: u8, kind, offset| {
        let mut bytes = bytes.clone();
        assert_ne!(bytes[at], byte);
        bytes[at] = byte;
        assert_error(&bytes, kind, offset);
    };
    for len in 0..8 {
        assert_error(&bytes[..len], Truncated, len);
    }
    assert_error(&bytes[..100], Truncated, 100);
    assert_error(&bytes[..191], Truncated, 191);
    changed(0, b'f', Magic, 0);
    changed(3, 2, Magic, 0);
    changed(4, 32, Type, 4);
    changed(5, 1, ChecksumKind, 5);
    changed(6, 1, Reserved, 6);
    changed(7, 1, Reserved, 6);
    changed(8, 1, Checksum, 8);
    changed(14, 1, PageValues, 12);
    changed(16, 128 + 15, PageLength, 16);
    changed(20, 1, Reserved, 20);
    changed(24, 1, Reference, 32);
    changed(24, 2, Form, 24);
    changed(25, 17, Width, 25);
    changed(26, 1, Reserved, 26);
    changed(28, 33, BlockOffset, 28);
    changed(34, 1, Reference, 32);
    changed(5, 3, Checksum, 8);
    changed(184, 3, Total, 184);
    assert_error(&[&bytes[..], &[0]].concat(), Trailing, 192);
    assert_error(&[&bytes[..168], &bytes[8..]].concat(), ShortPage, 168);
    assert_eq!(decode_into::<u16>(&bytes, &mut [99]), Err(too_small(bytes.len())));
}

/// Each line of crates/fastlanes_format/errors.txt with a variant in Rust is an error here, with the same text.
#[test]
fn error_messages_are_those_of_the_table() {
    use FormatErrorKind::*;
    let kinds = [
        Truncated,
        Magic,
        Type,
        ChecksumKind,
        PageValues,
        Reserved,
        PageLength,
        Form,
        Width,
        BlockOffset,
        Reference,
        Checksum,
        ShortPage,
        Total,
        Trailing,
        BufferTooSmall,
    ];
    let table = include_str!("../../crates/fastlanes_format/errors.txt");
    let rows = table.lines().map(|line| line.split('\t').collect::<Vec<_>>());
    let expected: Vec<(String, String)> = rows
        .filter(|row| row[3] != "-")
        .map(|row| (row[3].into(), row[4].into()))
        .collect();
    let found = kinds.map(|kind| (format!("{kind:?}"), kind.to_string()));
    assert_eq!(found[..], expected);
    for kind in kinds {
        let error: Box<dyn Error + Send + Sync> = Box::new(FormatError { kind, offset: 17 });
        assert_eq!(error.to_string(), format!("at byte 17: {kind}"));
    }
    assert_eq!(format!("[{Checksum:>20}]"), "[   checksum mismatch]");
}
