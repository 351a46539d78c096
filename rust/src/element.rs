//! The value types, and the types that values are compared as.

use crate::numbers::Number;

/// A value type of blocks: `u8`, `u16`, `u32` or `u64`, and no other type.
///
/// Generic code can use the operators of `core::ops` on it, and the functions of the traits `Unsigned` and `PrimInt` of the crate
/// `num_traits`, without that crate:
///
/// - `zero`, `set_zero`, `is_zero`, `one`, `set_one`, `is_one`, `min_value`, `max_value`, `from_str_radix`;
/// - `checked_add`, `checked_sub`, `checked_mul`, `checked_div`, `saturating_add`, `saturating_sub`, `pow`;
/// - `count_ones`, `count_zeros`, `leading_ones`, `leading_zeros`, `trailing_ones`, `trailing_zeros`;
/// - `rotate_left`, `rotate_right`, `signed_shl`, `signed_shr`, `unsigned_shl`, `unsigned_shr`;
/// - `swap_bytes`, `reverse_bits`, `from_be`, `from_le`, `to_be`, `to_le`;
/// - `from`, which converts any number to an `Option` of this type, and `to_u8`, `to_i8` and so on up to `to_u128`, `to_usize`,
///   `to_f64`, which convert from it.
///
/// It also has `wrapping_add`, `wrapping_sub` and `wrapping_mul`, whose second argument may be borrowed or not.
///
/// ```
/// use fastlanes::FastLanes;
///
/// /// Returns the maximum of a bit width.
/// fn maximum<E: FastLanes>(width: usize) -> E {
///     if width == E::T { E::max_value() } else { (E::one() << width) - E::one() }
/// }
///
/// assert_eq!(maximum::<u16>(3), 7);
/// assert_eq!(maximum::<u64>(64), u64::MAX);
/// assert_eq!((u32::T, u32::LANES), (32, 32));
/// ```
pub trait FastLanes: Number {
    /// The number of bits of a value, which is the number of rows of a lane.
    const T: usize = size_of::<Self>() * 8;
    /// The number of lanes of a block.
    const LANES: usize = 1024 / Self::T;
}

impl FastLanes for u8 {}
impl FastLanes for u16 {}
impl FastLanes for u32 {}
impl FastLanes for u64 {}

/// The type that packed values are compared as: an unsigned type, the signed type of the same size, or a custom type.
///
/// ```
/// use fastlanes::FastLanesComparable;
///
/// assert_eq!(i16::as_unpacked(0xffff), -1);
///
/// /// The number of days since 1970.
/// #[derive(Clone, Copy, PartialEq, Debug)]
/// struct Day(u16);
///
/// impl FastLanesComparable for Day {
///     type Bitpacked = u16;
///
///     fn as_unpacked(inner: u16) -> Day {
///         Day(inner)
///     }
/// }
///
/// assert_eq!(Day::as_unpacked(7), Day(7));
/// ```
pub trait FastLanesComparable: Copy {
    /// The value type of the packed block.
    type Bitpacked: FastLanes;

    /// Converts a packed value.
    fn as_unpacked(inner: Self::Bitpacked) -> Self;
}

macro_rules! comparable {
    ($($V:ident of $E:ident,)*) => {
        $(impl FastLanesComparable for $V {
            type Bitpacked = $E;

            #[inline]
            fn as_unpacked(inner: $E) -> $V {
                inner as $V
            }
        })*
    };
}

comparable! {
    u8 of u8,
    i8 of u8,
    u16 of u16,
    i16 of u16,
    u32 of u32,
    i32 of u32,
    u64 of u64,
    i64 of u64,
}
