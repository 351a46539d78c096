//! Encoded columns: any number of values, with everything that a reader needs in the bytes.

use super::messages::{kind_of, message};
use crate::ffi::{CFunctions, Opened};
use crate::{Comparison, FastLanes};
#[cfg(feature = "alloc")]
use alloc::vec::Vec;
use core::error::Error;
use core::fmt;
use core::iter::FusedIterator;

/// How a column is encoded.
///
/// ```
/// use fastlanes::column::{Options, encode, encode_with};
///
/// let values: Vec<u32> = (0..1024).map(|i| 7 * i).collect();
/// assert_eq!(encode_with(&values, Options::default()), encode(&values));
/// // A delta block needs 3 bits per value, a FOR block 13.
/// let for_only = Options { for_only: true, ..Options::default() };
/// assert_eq!((encode(&values).len(), encode_with(&values, for_only).len()), (576, 1728));
/// ```
#[derive(Clone, Copy, Debug, PartialEq, Eq)]
pub struct Options {
    /// Writes FOR blocks only, at the minimum of each block. [`Column::get`] reads their values in constant time. Otherwise each
    /// block is the shorter of this FOR block and the delta block of adjacent values. The default is `false`.
    pub for_only: bool,
    /// Adds a CRC-32C checksum to each page of 65536 values and to the trailer. The default is `true`.
    pub checksums: bool,
}

impl Default for Options {
    fn default() -> Options {
        Options {
            for_only: false,
            checksums: true,
        }
    }
}

impl Options {
    /// Returns the flags of the C functions.
    fn flags(self) -> u32 {
        /// `FL_COLUMN_FOR_ONLY`
        const FOR_ONLY: u32 = 1;
        /// `FL_COLUMN_NO_CHECKSUMS`
        const NO_CHECKSUMS: u32 = 2;
        let for_only = if self.for_only { FOR_ONLY } else { 0 };
        let no_checksums = if self.checksums { 0 } else { NO_CHECKSUMS };
        for_only | no_checksums
    }
}

/// A value type of encoded columns: `u8`, `u16`, `u32` or `u64`. Each function is the call of this module, or of [`Column`], that
/// has its name.
///
/// ```
/// use fastlanes::column::{Column, FormatError, Stored};
///
/// /// Returns the last value of a column, if it has one.
/// fn last<E: Stored>(bytes: &[u8]) -> Result<Option<E>, FormatError> {
///     let column = Column::open(bytes)?;
///     Ok((!column.is_empty()).then(|| column.get(column.len() - 1)))
/// }
///
/// assert_eq!(last(&u16::encode_with(&[5, 6, 7], Default::default())), Ok(Some(7u16)));
/// ```
pub trait Stored: FastLanes {
    /// [`encode_bound`]
    fn encode_bound(values: usize) -> usize;
    /// [`encode_with`]
    #[cfg(feature = "alloc")]
    fn encode_with(values: &[Self], options: Options) -> Vec<u8>;
    /// [`encode_into`]
    fn encode_into(values: &[Self], options: Options, bytes: &mut [u8]) -> Option<usize>;
    /// [`decode`]
    #[cfg(feature = "alloc")]
    fn decode(bytes: &[u8]) -> Result<Vec<Self>, FormatError>;
    /// [`decode_into`]
    fn decode_into(bytes: &[u8], output: &mut [Self]) -> Result<usize, FormatError>;
    /// [`Column::open`]
    fn open(bytes: &[u8]) -> Result<Column<'_, Self>, FormatError>;
    /// [`Column::get`]
    #[track_caller]
    fn get(column: &Column<'_, Self>, index: u64) -> Self;
    /// [`Column::read`]
    #[track_caller]
    fn read(column: &Column<'_, Self>, start: u64, output: &mut [Self]);
    /// [`Column::to_vec`]
    #[cfg(feature = "alloc")]
    fn to_vec(column: &Column<'_, Self>) -> Vec<Self>;
    /// [`Column::filter`]
    #[track_caller]
    fn filter(column: &Column<'_, Self>, comparison: Comparison, value: Self, mask: &mut [u64]) -> u64;
    /// [`Column::count`]
    fn count(column: &Column<'_, Self>, comparison: Comparison, value: Self) -> u64;
}

impl<E: FastLanes + CFunctions> Stored for E {
    fn encode_bound(values: usize) -> usize {
        Self::fl_column_encode_bound(values)
    }

    #[cfg(feature = "alloc")]
    fn encode_with(values: &[Self], options: Options) -> Vec<u8> {
        Self::encoded(values, options.flags())
    }

    fn encode_into(values: &[Self], options: Options, bytes: &mut [u8]) -> Option<usize> {
        Self::fl_column_encode(values, options.flags(), bytes)
    }

    #[cfg(feature = "alloc")]
    fn decode(bytes: &[u8]) -> Result<Vec<Self>, FormatError> {
        let column = Self::fl_column_open(bytes)?;
        let mut values = Vec::new();
        if values.try_reserve_exact(column.len() as usize).is_err() {
            return Err(FormatError {
                kind: FormatErrorKind::BufferTooSmall,
                offset: bytes.len(),
            });
        }
        Self::append_values(&column, &mut values);
        Ok(values)
    }

    fn decode_into(bytes: &[u8], output: &mut [Self]) -> Result<usize, FormatError> {
        Self::fl_column_decode(bytes, output)
    }

    fn open(bytes: &[u8]) -> Result<Column<'_, Self>, FormatError> {
        let opened = Self::fl_column_open(bytes)?;
        Ok(Column { opened })
    }

    #[inline]
    fn get(column: &Column<'_, Self>, index: u64) -> Self {
        Self::fl_column_get(&column.opened, index)
    }

    fn read(column: &Column<'_, Self>, start: u64, output: &mut [Self]) {
        Self::fl_column_read(&column.opened, start, output)
    }

    #[cfg(feature = "alloc")]
    fn to_vec(column: &Column<'_, Self>) -> Vec<Self> {
        let mut values = Vec::new();
        Self::append_values(&column.opened, &mut values);
        values
    }

    fn filter(column: &Column<'_, Self>, comparison: Comparison, value: Self, mask: &mut [u64]) -> u64 {
        Self::fl_column_filter(&column.opened, comparison, value, mask)
    }

    fn count(column: &Column<'_, Self>, comparison: Comparison, value: Self) -> u64 {
        Self::fl_column_count(&column.opened, comparison, value)
    }
}

/// Returns an upper bound on the bytes of a column of this number of values: 32, plus 16 per started 65536 values, plus
/// 128 * T + 16 per started 1024 values. The result is `usize::MAX` for 2^60 values or more.
///
/// ```
/// use fastlanes::column::encode_bound;
///
/// assert_eq!(encode_bound::<u8>(0), 32);
/// assert_eq!(encode_bound::<u16>(1), 2048 + 16 + 16 + 32);
/// assert_eq!(encode_bound::<u64>(1 << 60), usize::MAX);
/// ```
pub fn encode_bound<E: Stored>(values: usize) -> usize {
    E::encode_bound(values)
}

/// Encodes values as a column, with checksums. Each block is the shorter of the FOR block at its minimum and the delta block of
/// adjacent values. Allocates [`encode_bound`] bytes, and shrinks the result to its length.
///
/// ```
/// use fastlanes::column::{decode, encode};
///
/// let temperatures = [291u16, 291, 290, 292];
/// let bytes = encode(&temperatures);
/// assert_eq!(&bytes[..6], b"FLC\x01\x10\x03");
/// assert_eq!(decode(&bytes), Ok(temperatures.to_vec()));
/// ```
#[cfg(feature = "alloc")]
pub fn encode<E: Stored>(values: &[E]) -> Vec<u8> {
    E::encode_with(values, Options::default())
}

/// Encodes values as a column, with these options. Allocates as [`encode`] does.
///
/// ```
/// use fastlanes::column::{Options, encode_with};
///
/// // A column without values has a header and a trailer.
/// let bytes = encode_with::<u64>(&[], Options { for_only: true, checksums: false });
/// assert_eq!(bytes, *b"FLC\x01\x40\0\0\0\0\0\0\0\0\0\0\0\x08\0\0\0\0\0\0\0\0\0\0\0\0\0\0\0");
/// ```
#[cfg(feature = "alloc")]
pub fn encode_with<E: Stored>(values: &[E], options: Options) -> Vec<u8> {
    E::encode_with(values, options)
}

/// Encodes values as a column into a buffer, and returns the number of bytes written. Later bytes are unchanged. Returns `None`
/// and writes nothing if the buffer is shorter than [`encode_bound`]. Does not allocate.
///
/// ```
/// use fastlanes::column::{Options, decode, encode_bound, encode_into};
///
/// let mut bytes = vec![0; encode_bound::<u8>(3)];
/// let len = encode_into(&[1u8, 2, 3], Options::default(), &mut bytes).unwrap();
/// assert_eq!(decode(&bytes[..len]), Ok(vec![1u8, 2, 3]));
/// assert_eq!(encode_into(&[1u8, 2, 3], Options::default(), &mut bytes[1..]), None);
/// ```
pub fn encode_into<E: Stored>(values: &[E], options: Options, bytes: &mut [u8]) -> Option<usize> {
    E::encode_into(values, options, bytes)
}

/// Decodes all values of a column. Accepts arbitrary bytes.
///
/// Validates the column before it allocates memory for the values. A short column may have many values: a page of 65536 equal
/// values has 1040 bytes. To limit the memory, use [`Column::open`], check [`Column::len`], and call [`Column::to_vec`].
///
/// # Errors
///
/// Returns an error if the bytes are not a column of values of this type. The error is [`FormatErrorKind::BufferTooSmall`], at
/// the length of the bytes, if memory for the values cannot be allocated.
///
/// ```
/// use fastlanes::column::{FormatErrorKind, decode, encode};
///
/// let mut bytes = encode(&[7u32; 100_000]);
/// assert_eq!((bytes.len(), decode(&bytes)), (1632, Ok(vec![7u32; 100_000])));
/// assert_eq!(decode::<u8>(&bytes).unwrap_err().kind, FormatErrorKind::Type);
/// bytes[48] ^= 1;
/// assert_eq!(decode::<u32>(&bytes).unwrap_err().to_string(), "at byte 8: checksum mismatch");
/// ```
#[cfg(feature = "alloc")]
pub fn decode<E: Stored>(bytes: &[u8]) -> Result<Vec<E>, FormatError> {
    E::decode(bytes)
}

/// Decodes all values of a column into a buffer, and returns their number. Later elements are unchanged. Accepts arbitrary
/// bytes. Does not allocate.
///
/// # Errors
///
/// Returns an error, and leaves the buffer unchanged, if the bytes are not a column of values of this type. The error is
/// [`FormatErrorKind::BufferTooSmall`], at the length of the bytes, if they are a column of more values than the buffer has
/// elements.
///
/// ```
/// use fastlanes::column::{FormatErrorKind, decode_into, encode};
///
/// let mut values = [9u64; 5];
/// assert_eq!(decode_into(&encode(&[1u64, 2, 3]), &mut values), Ok(3));
/// assert_eq!(values, [1, 2, 3, 9, 9]);
/// let error = decode_into(&encode(&[0u64; 6]), &mut values).unwrap_err();
/// assert_eq!(error.kind, FormatErrorKind::BufferTooSmall);
/// assert_eq!(values, [1, 2, 3, 9, 9]);
/// ```
pub fn decode_into<E: Stored>(bytes: &[u8], output: &mut [E]) -> Result<usize, FormatError> {
    E::decode_into(bytes, output)
}

/// An opened column, for random access. [`open`](Column::open) validates all bytes, so that no other call returns an error. The
/// column borrows the bytes and has a size of two kilobytes. Only [`to_vec`](Column::to_vec) allocates.
///
/// ```
/// use fastlanes::Comparison;
/// use fastlanes::column::{Column, encode};
///
/// let values: Vec<u32> = (0..1_000_000).map(|i| 1_600_000_000 + 7 * i).collect();
/// let bytes = encode(&values);
/// let column = Column::<u32>::open(&bytes)?;
/// assert_eq!(column.get(123_456), 1_600_864_192);
/// assert_eq!(column.count(Comparison::Less, 1_600_000_700), 100);
/// assert_eq!(column.iter().skip(999_998).collect::<Vec<_>>(), values[999_998..]);
/// # Ok::<(), fastlanes::column::FormatError>(())
/// ```
#[derive(Clone)]
pub struct Column<'a, E> {
    opened: Opened<'a, E>,
}

impl<'a, E: Stored> Column<'a, E> {
    /// Opens a column. Validates all of it: the header, the headers and checksums of all pages, and the trailer. Accepts
    /// arbitrary bytes.
    ///
    /// # Errors
    ///
    /// Returns an error if the bytes are not a column of values of this type.
    ///
    /// ```
    /// use fastlanes::column::{Column, FormatError, FormatErrorKind, encode};
    ///
    /// let bytes = encode(&[3u8; 10]);
    /// assert!(Column::<u8>::open(&bytes).is_ok());
    /// let error = Column::<u8>::open(&bytes[..50]).unwrap_err();
    /// assert_eq!(error, FormatError { kind: FormatErrorKind::Truncated, offset: 50 });
    /// ```
    pub fn open(bytes: &'a [u8]) -> Result<Column<'a, E>, FormatError> {
        E::open(bytes)
    }

    /// Returns the number of values.
    ///
    /// ```
    /// use fastlanes::column::{Column, encode};
    ///
    /// assert_eq!(Column::<u16>::open(&encode(&[0u16; 2000]))?.len(), 2000);
    /// # Ok::<(), fastlanes::column::FormatError>(())
    /// ```
    #[inline]
    pub fn len(&self) -> u64 {
        self.opened.len()
    }

    /// Returns whether the column has no values.
    ///
    /// ```
    /// use fastlanes::column::{Column, encode};
    ///
    /// assert!(Column::<u16>::open(&encode::<u16>(&[]))?.is_empty());
    /// # Ok::<(), fastlanes::column::FormatError>(())
    /// ```
    #[inline]
    pub fn is_empty(&self) -> bool {
        self.len() == 0
    }

    /// Returns the value at `index`. Reads one block: in constant time if it is a FOR block. In a delta block it sums up to T
    /// differences.
    ///
    /// # Panics
    ///
    /// Panics if `index` is not below [`len`](Column::len).
    ///
    /// ```
    /// use fastlanes::column::{Column, encode};
    ///
    /// assert_eq!(Column::<u8>::open(&encode(&[5u8, 6, 7]))?.get(2), 7);
    /// # Ok::<(), fastlanes::column::FormatError>(())
    /// ```
    #[inline]
    #[track_caller]
    pub fn get(&self, index: u64) -> E {
        E::get(self, index)
    }

    /// Decodes the values from index `start` on, one for each element of the output.
    ///
    /// # Panics
    ///
    /// Panics if the sum of `start` and the length of the output is above [`len`](Column::len).
    ///
    /// ```
    /// use fastlanes::column::{Column, encode};
    ///
    /// let mut some = [0; 2];
    /// Column::<u8>::open(&encode(&[5u8, 6, 7]))?.read(1, &mut some);
    /// assert_eq!(some, [6, 7]);
    /// # Ok::<(), fastlanes::column::FormatError>(())
    /// ```
    #[track_caller]
    pub fn read(&self, start: u64, output: &mut [E]) {
        E::read(self, start, output)
    }

    /// Decodes all values into a new vector. A short column may have many values (see [`decode`]). As with any `Vec`, the
    /// program aborts if it is out of memory.
    ///
    /// ```
    /// use fastlanes::column::{Column, encode};
    ///
    /// assert_eq!(Column::<u64>::open(&encode(&[5u64, 6, 7]))?.to_vec(), [5, 6, 7]);
    /// # Ok::<(), fastlanes::column::FormatError>(())
    /// ```
    #[cfg(feature = "alloc")]
    pub fn to_vec(&self) -> Vec<E> {
        E::to_vec(self)
    }

    /// Returns an iterator over the values, in order. It decodes one block at a time.
    ///
    /// ```
    /// use fastlanes::column::{Column, encode};
    ///
    /// let bytes = encode(&[5u64, 6, 7]);
    /// let column = Column::<u64>::open(&bytes)?;
    /// assert_eq!(column.iter().sum::<u64>(), 18);
    /// assert_eq!(column.iter().len(), 3);
    /// # Ok::<(), fastlanes::column::FormatError>(())
    /// ```
    pub fn iter(&self) -> Iter<'_, E> {
        Iter {
            column: self,
            next: 0,
            decoded: 0,
            block: [E::zero(); 1024],
        }
    }

    /// Compares each value with `value`: bit `i % 64` of `mask[i / 64]` is the result for the value at index i. The bits after
    /// the last value are 0. Returns the number of blocks that were decided from their header, or from the header and the bases of
    /// a delta block.
    ///
    /// # Panics
    ///
    /// Panics if the mask does not have one word per started 64 values.
    ///
    /// ```
    /// use fastlanes::Comparison;
    /// use fastlanes::column::{Column, encode};
    ///
    /// let bytes = encode(&[20u8, 31, 22, 33]);
    /// let column = Column::<u8>::open(&bytes)?;
    /// let mut mask = vec![0; column.len().div_ceil(64) as usize];
    /// let skipped = column.filter(Comparison::Greater, 30, &mut mask);
    /// assert_eq!((mask, skipped), (vec![0b1010], 0));
    /// # Ok::<(), fastlanes::column::FormatError>(())
    /// ```
    #[track_caller]
    pub fn filter(&self, comparison: Comparison, value: E, mask: &mut [u64]) -> u64 {
        E::filter(self, comparison, value, mask)
    }

    /// Returns the number of values that satisfy a comparison with `value`.
    ///
    /// ```
    /// use fastlanes::Comparison;
    /// use fastlanes::column::{Column, encode};
    ///
    /// let bytes = encode(&[20u8, 31, 22, 33]);
    /// assert_eq!(Column::<u8>::open(&bytes)?.count(Comparison::AtLeast, 22), 3);
    /// # Ok::<(), fastlanes::column::FormatError>(())
    /// ```
    pub fn count(&self, comparison: Comparison, value: E) -> u64 {
        E::count(self, comparison, value)
    }
}

/// Shows the value type and the length.
impl<E: Stored> fmt::Debug for Column<'_, E> {
    fn fmt(&self, f: &mut fmt::Formatter<'_>) -> fmt::Result {
        f.debug_struct("Column")
            .field("element", &format_args!("u{}", E::T))
            .field("len", &self.len())
            .finish()
    }
}

impl<'a, E: Stored> IntoIterator for &'a Column<'_, E> {
    type Item = E;
    type IntoIter = Iter<'a, E>;

    fn into_iter(self) -> Iter<'a, E> {
        self.iter()
    }
}

/// An iterator over the values of a column, returned by [`Column::iter`]. Blocks that `nth` or `skip` skip entirely are not
/// decoded.
///
/// ```
/// use fastlanes::column::{Column, encode};
///
/// let values: Vec<u16> = (0..5000).collect();
/// let bytes = encode(&values);
/// let column = Column::<u16>::open(&bytes)?;
/// let mut iter = column.iter();
/// assert_eq!((iter.nth(4000), iter.len()), (Some(4000), 999));
/// # Ok::<(), fastlanes::column::FormatError>(())
/// ```
#[derive(Clone)]
pub struct Iter<'a, E> {
    column: &'a Column<'a, E>,
    /// The index of the next value.
    next: u64,
    /// The end of the values in `block`: those from `next` on, below this index, are decoded.
    decoded: u64,
    /// The value at index i of the column, if decoded, is at `i % 1024`.
    block: [E; 1024],
}

impl<E: Stored> Iter<'_, E> {
    /// Returns the number of values left.
    fn left(&self) -> u64 {
        self.column.len() - self.next
    }

    /// Decodes the rest of the next value's block.
    fn decode_block(&mut self) {
        let start = self.next % 1024;
        let count = self.left().min(1024 - start);
        let part = start as usize..(start + count) as usize;
        self.column.read(self.next, &mut self.block[part]);
        self.decoded = self.next + count;
    }
}

impl<E: Stored> Iterator for Iter<'_, E> {
    type Item = E;

    #[inline]
    fn next(&mut self) -> Option<E> {
        if self.next == self.decoded {
            if self.left() == 0 {
                return None;
            }
            self.decode_block();
        }
        let value = self.block[(self.next % 1024) as usize];
        self.next += 1;
        Some(value)
    }

    #[inline]
    fn size_hint(&self) -> (usize, Option<usize>) {
        let left = self.left() as usize;
        (left, Some(left))
    }

    #[inline]
    fn nth(&mut self, n: usize) -> Option<E> {
        self.next += self.left().min(n as u64);
        self.decoded = self.decoded.max(self.next);
        self.next()
    }
}

impl<E: Stored> ExactSizeIterator for Iter<'_, E> {}

impl<E: Stored> FusedIterator for Iter<'_, E> {}

/// Shows the value type, the index of the next value, and the number of values left.
impl<E: Stored> fmt::Debug for Iter<'_, E> {
    fn fmt(&self, f: &mut fmt::Formatter<'_>) -> fmt::Result {
        f.debug_struct("Iter")
            .field("element", &format_args!("u{}", E::T))
            .field("next", &self.next)
            .field("left", &self.left())
            .finish()
    }
}

/// Why bytes are not a column. `Display` writes the description.
#[derive(Clone, Copy, Debug, PartialEq, Eq)]
#[non_exhaustive]
pub enum FormatErrorKind {
    /// The input ends before the column does.
    Truncated,
    /// The first four bytes are not the magic and the version of the format.
    Magic,
    /// The column has values of another type, or of an unknown one.
    Type,
    /// The kind of checksum is unknown.
    ChecksumKind,
    /// A page has more than 65536 values.
    PageValues,
    /// A reserved byte is not 0.
    Reserved,
    /// The length of a page does not match its contents.
    PageLength,
    /// A block is neither a FOR block nor a delta block.
    Form,
    /// The bit width of a block exceeds the bits of the value type.
    Width,
    /// The payload of a block does not follow the block before it.
    BlockOffset,
    /// The reference of a FOR block is not a value of the type, or the reference of a delta block is not 0.
    Reference,
    /// A checksum does not match.
    Checksum,
    /// A page follows a page with fewer than 65536 values.
    ShortPage,
    /// The number of values in the trailer is not the number of values in the pages.
    Total,
    /// Bytes follow the end of the column.
    Trailing,
    /// The bytes are a column. The output buffer is too small for its values, or their memory cannot be allocated.
    BufferTooSmall,
}

impl fmt::Display for FormatErrorKind {
    fn fmt(&self, f: &mut fmt::Formatter<'_>) -> fmt::Result {
        f.pad(message(*self))
    }
}

/// The reason why bytes are not a column, with the offset of the malformed bytes.
///
/// ```
/// use fastlanes::column::{Column, FormatError, FormatErrorKind};
///
/// let error = Column::<u8>::open(b"FLA").unwrap_err();
/// assert_eq!(error, FormatError { kind: FormatErrorKind::Truncated, offset: 3 });
/// assert_eq!(error.to_string(), "at byte 3: unexpected end of input");
/// ```
#[derive(Clone, Copy, Debug, PartialEq, Eq)]
pub struct FormatError {
    /// The reason.
    pub kind: FormatErrorKind,
    /// The offset in the input, at most its length.
    pub offset: usize,
}

impl FormatError {
    /// Converts an error of the C functions.
    ///
    /// # Panics
    ///
    /// Panics if the C functions return no such error.
    pub(crate) fn from_c(error: u32, offset: usize) -> FormatError {
        match kind_of(error) {
            Some(kind) => FormatError { kind, offset },
            None => panic!("unknown error {error} of the C library: expected 1 to 16"),
        }
    }
}

impl fmt::Display for FormatError {
    fn fmt(&self, f: &mut fmt::Formatter<'_>) -> fmt::Result {
        write!(f, "at byte {}: {}", self.offset, self.kind)
    }
}

impl Error for FormatError {}
