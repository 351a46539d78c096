//! Macros that run a body for each row of a lane. They are written in this package, and tested. No part of them is in the proved
//! library.

use crate::{FL_ORDER, FastLanes, conditions};
pub use fastlanes_rattle_sequence::for_rows;

/// Repeats tokens once for each row of a lane: `seq_t!(row in u16 { BODY })` expands to 16 copies of the body, with 0 to 15 for
/// `row`. If the body has sections `#( .. )*`, each section is repeated, and the rest is written once.
///
/// ```
/// use fastlanes::seq_t;
///
/// let mut sum = 0;
/// seq_t!(row in u8 { sum += row; });
/// assert_eq!(sum, 28);
///
/// fn name(bits: u32) -> &'static str {
///     seq_t!(n in u8 { match bits { #(n => stringify!(n),)* _ => "many" } })
/// }
/// assert_eq!([name(3), name(8)], ["3", "many"]);
/// ```
#[macro_export]
macro_rules! seq_t {
    ($row:ident in $($rest:tt)*) => {
        $crate::macro_support::for_rows!($row in $($rest)*)
    };
}

/// Runs the body for the index of each row of a lane, in the order of rows: `iterate!(u16, lane, |$index| BODY)`.
///
/// ```
/// use fastlanes::iterate;
///
/// let mut indices = vec![];
/// iterate!(u8, 3, |$index| indices.push($index));
/// assert_eq!(indices, [3, 131, 259, 387, 515, 643, 771, 899]);
/// ```
#[macro_export]
macro_rules! iterate {
    ($E:ty, $lane:expr, |$dollar:tt $index:ident| $($body:tt)*) => {{
        macro_rules! __at_index {
            ($dollar $index:ident) => { $($body)* };
        }
        let lane: usize = $lane;
        $crate::seq_t!(__row in $E {{
            let index = $crate::macro_support::index_of(__row, lane);
            __at_index!(index);
        }});
    }};
}

/// Packs a lane to W bits per value: `pack!(u16, W, packed, lane, |$index| VALUE)`. VALUE is evaluated for the index of each row, in
/// the order of rows, and packed modulo 2^W. At width 0 it is not evaluated. `packed` is any expression that can be indexed. The words
/// of the lane are written to it.
///
/// # Panics
///
/// Panics if the width is above T.
///
/// ```
/// use fastlanes::{BitPacking, FastLanes, pack};
///
/// let values: [u32; 1024] = core::array::from_fn(|i| i as u32);
/// let (mut by_lanes, mut squares) = ([0; 640], [0; 640]);
/// for lane in 0..u32::LANES {
///     pack!(u32, 20, by_lanes, lane, |$index| values[$index] * values[$index]);
/// }
/// BitPacking::pack::<20, 640>(&values.map(|value| value * value), &mut squares);
/// assert_eq!(by_lanes, squares);
/// ```
#[macro_export]
macro_rules! pack {
    ($E:ty, $W:expr, $packed:expr, $lane:expr, |$dollar:tt $index:ident| $($value:tt)*) => {{
        macro_rules! __value_at {
            ($dollar $index:ident) => { $($value)* };
        }
        let (width, lane): (usize, usize) = ($W, $lane);
        $crate::macro_support::check_width::<$E>(width);
        if width > 0 {
            let mut carry: $E = 0;
            $crate::seq_t!(__row in $E {{
                let index = $crate::macro_support::index_of(__row, lane);
                let value: $E = __value_at!(index);
                let joined = $crate::macro_support::joined(width, __row, carry, value);
                carry = match $crate::macro_support::filled_word::<$E>(width, __row, lane) {
                    ::core::option::Option::Some(word) => {
                        $packed[word] = joined;
                        $crate::macro_support::left_over(width, __row, value)
                    }
                    ::core::option::Option::None => joined,
                };
            }});
            let _ = carry;
        }
    }};
}

/// Unpacks a lane of W bits per value: `unpack!(u16, W, packed, lane, |$index, $value| BODY)` runs the body for the index and the
/// packed value of each row, in the order of rows, also at width 0. `packed` is any expression that can be indexed. Each word of the
/// lane is read once.
///
/// # Panics
///
/// Panics if the width is above T.
///
/// ```
/// use fastlanes::{FastLanes, unpack};
///
/// let packed = [0xfedc_ba98_7654_3210; 64];
/// let mut sum = 0;
/// for lane in 0..u64::LANES {
///     unpack!(u64, 4, packed, lane, |$_index, $value| sum += $value);
/// }
/// assert_eq!(sum, 16 * 4 * 120);
/// ```
#[macro_export]
macro_rules! unpack {
    ($E:ty, $W:expr, $packed:expr, $lane:expr, |$dollar:tt $index:ident, $other_dollar:tt $value:ident| $($body:tt)*) => {{
        macro_rules! __with_value {
            ($dollar $index:ident, $other_dollar $value:ident) => { $($body)* };
        }
        let (width, lane): (usize, usize) = ($W, $lane);
        $crate::macro_support::check_width::<$E>(width);
        let mut word: $E = match $crate::macro_support::first_word::<$E>(width, lane) {
            ::core::option::Option::Some(first) => $packed[first],
            ::core::option::Option::None => 0,
        };
        $crate::seq_t!(__row in $E {{
            let previous = word;
            if let ::core::option::Option::Some(next) = $crate::macro_support::read_word::<$E>(width, __row, lane) {
                word = $packed[next];
            }
            let index = $crate::macro_support::index_of(__row, lane);
            let value = $crate::macro_support::packed_value(width, __row, previous, word);
            __with_value!(index, value);
        }});
        let _ = word;
    }};
}

/// Returns the index of a row of a lane.
#[inline(always)]
#[must_use]
pub const fn index_of(row: usize, lane: usize) -> usize {
    FL_ORDER[row / 8] * 16 + row % 8 * 128 + lane
}

/// Requires a width of at most T.
#[inline(always)]
#[track_caller]
pub fn check_width<E: FastLanes>(width: usize) {
    conditions::check_width(E::T, width)
}

/// Returns a value modulo 2^width. Requires a width above 0.
#[inline(always)]
fn low<E: FastLanes>(width: usize, value: E) -> E {
    value & (E::max_value() >> (E::T - width))
}

/// Returns the carry of the rows before, joined with the bits of a row's value that fit in the same word.
#[inline(always)]
#[must_use]
pub fn joined<E: FastLanes>(width: usize, row: usize, carry: E, value: E) -> E {
    carry | low(width, value) << (row * width % E::T)
}

/// Returns the index of the word that is complete after a row, if one is.
#[inline(always)]
#[must_use]
pub fn filled_word<E: FastLanes>(width: usize, row: usize, lane: usize) -> Option<usize> {
    let word = row * width / E::T;
    ((row + 1) * width / E::T > word).then_some(E::LANES * word + lane)
}

/// Returns the bits of a row's value that do not fit in the word that it completes.
#[inline(always)]
#[must_use]
pub fn left_over<E: FastLanes>(width: usize, row: usize, value: E) -> E {
    match (row + 1) * width % E::T {
        0 => E::zero(),
        bits => low(width, value) >> (width - bits),
    }
}

/// Returns the index of the word that is read before row 0, if one is.
#[inline(always)]
#[must_use]
pub fn first_word<E: FastLanes>(width: usize, lane: usize) -> Option<usize> {
    (0 < width && width < E::T).then_some(lane)
}

/// Returns the index of the word that is read for a row, if one is. At width T it is the row's word. At other widths it is the next
/// word, if the row's bits reach the end of the current one.
#[inline(always)]
#[must_use]
pub fn read_word<E: FastLanes>(width: usize, row: usize, lane: usize) -> Option<usize> {
    if width == E::T {
        return Some(E::LANES * row + lane);
    }
    let next = (row + 1) * width / E::T;
    (row * width / E::T < next && next < width).then_some(E::LANES * next + lane)
}

/// Returns the packed value of a row, whose bits begin in one word and may continue in the next.
#[inline(always)]
#[must_use]
pub fn packed_value<E: FastLanes>(width: usize, row: usize, word: E, next: E) -> E {
    if width == 0 {
        return E::zero();
    }
    if width == E::T {
        return next;
    }
    let shift = row * width % E::T;
    let bits = word >> shift;
    if shift + width > E::T {
        low(width, bits | next << (E::T - shift))
    } else {
        low(width, bits)
    }
}
