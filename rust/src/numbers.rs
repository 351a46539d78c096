//! The functions of the traits `Unsigned` and `PrimInt` of the crate `num_traits`, with the same names and signatures. The traits of
//! this module cannot be named outside this package, so that they do not conflict with other traits on concrete types.

use core::borrow::Borrow;
use core::num::ParseIntError;
use core::ops::{Add, BitAnd, BitOr, BitXor, Div, Mul, Not, Rem, Shl, Shr, Sub};

/// The functions of a value type as a number. Each agrees with the inherent method of the same name. Functions without such a method
/// have a comment.
pub trait Number:
    ToPrimitive
    + Copy
    + Ord
    + Add<Output = Self>
    + Sub<Output = Self>
    + Mul<Output = Self>
    + Div<Output = Self>
    + Rem<Output = Self>
    + Not<Output = Self>
    + BitAnd<Output = Self>
    + BitOr<Output = Self>
    + BitXor<Output = Self>
    + Shl<usize, Output = Self>
    + Shr<usize, Output = Self>
{
    /// The error of `from_str_radix`.
    type FromStrRadixErr;

    fn zero() -> Self;
    fn set_zero(&mut self);
    fn is_zero(&self) -> bool;
    fn one() -> Self;
    fn set_one(&mut self);
    fn is_one(&self) -> bool;
    fn min_value() -> Self;
    fn max_value() -> Self;
    /// Parses a number in a base from 2 to 36.
    fn from_str_radix(text: &str, radix: u32) -> Result<Self, Self::FromStrRadixErr>;
    /// Converts a number, if it is in range. Truncates fractions.
    fn from<N: ToPrimitive>(number: N) -> Option<Self>;

    fn checked_add(&self, other: &Self) -> Option<Self>;
    fn checked_sub(&self, other: &Self) -> Option<Self>;
    fn checked_mul(&self, other: &Self) -> Option<Self>;
    fn checked_div(&self, other: &Self) -> Option<Self>;
    fn saturating_add(self, other: Self) -> Self;
    fn saturating_sub(self, other: Self) -> Self;
    // The traits `WrappingAdd`, `WrappingSub` and `WrappingMul` of `num_traits` have methods of the same names, with both arguments by
    // reference. Here `self` is by value, so that these methods have precedence and calls are not ambiguous. The other argument may be
    // a value or a reference.
    fn wrapping_add(self, other: impl Borrow<Self>) -> Self;
    fn wrapping_sub(self, other: impl Borrow<Self>) -> Self;
    fn wrapping_mul(self, other: impl Borrow<Self>) -> Self;
    fn pow(self, exponent: u32) -> Self;

    fn count_ones(self) -> u32;
    fn count_zeros(self) -> u32;
    fn leading_ones(self) -> u32;
    fn leading_zeros(self) -> u32;
    fn trailing_ones(self) -> u32;
    fn trailing_zeros(self) -> u32;
    fn rotate_left(self, bits: u32) -> Self;
    fn rotate_right(self, bits: u32) -> Self;
    /// Shifts right as a signed number: the sign bit is shifted in.
    fn signed_shr(self, bits: u32) -> Self;
    /// Shifts left as a signed number, which is the same as an unsigned shift.
    fn signed_shl(self, bits: u32) -> Self;
    fn unsigned_shl(self, bits: u32) -> Self;
    fn unsigned_shr(self, bits: u32) -> Self;
    fn swap_bytes(self) -> Self;
    fn reverse_bits(self) -> Self;
    fn from_be(number: Self) -> Self;
    fn from_le(number: Self) -> Self;
    fn to_be(self) -> Self;
    fn to_le(self) -> Self;
}

/// Conversions to other types: `None` if the number is out of range.
pub trait ToPrimitive {
    fn to_isize(&self) -> Option<isize>;
    fn to_i8(&self) -> Option<i8>;
    fn to_i16(&self) -> Option<i16>;
    fn to_i32(&self) -> Option<i32>;
    fn to_i64(&self) -> Option<i64>;
    fn to_i128(&self) -> Option<i128>;
    fn to_usize(&self) -> Option<usize>;
    fn to_u8(&self) -> Option<u8>;
    fn to_u16(&self) -> Option<u16>;
    fn to_u32(&self) -> Option<u32>;
    fn to_u64(&self) -> Option<u64>;
    fn to_u128(&self) -> Option<u128>;
    fn to_f32(&self) -> Option<f32>;
    fn to_f64(&self) -> Option<f64>;
}

/// Implements functions by the inherent methods of the same name.
macro_rules! inherent_methods {
    ($E:ident: $($method:ident($($argument:ident: $form:ty),*) -> $result:ty,)*) => {
        $(#[inline]
        fn $method(self, $($argument: $form),*) -> $result {
            $E::$method(self, $($argument),*)
        })*
    };
}

macro_rules! number {
    ($E:ident, $signed:ident, $to:ident) => {
        impl Number for $E {
            type FromStrRadixErr = ParseIntError;

            inherent_methods! { $E:
                saturating_add(other: Self) -> Self,
                saturating_sub(other: Self) -> Self,
                pow(exponent: u32) -> Self,
                count_ones() -> u32,
                count_zeros() -> u32,
                leading_ones() -> u32,
                leading_zeros() -> u32,
                trailing_ones() -> u32,
                trailing_zeros() -> u32,
                rotate_left(bits: u32) -> Self,
                rotate_right(bits: u32) -> Self,
                swap_bytes() -> Self,
                reverse_bits() -> Self,
                to_be() -> Self,
                to_le() -> Self,
            }

            #[inline]
            fn zero() -> Self {
                0
            }

            #[inline]
            fn set_zero(&mut self) {
                *self = 0;
            }

            #[inline]
            fn is_zero(&self) -> bool {
                *self == 0
            }

            #[inline]
            fn one() -> Self {
                1
            }

            #[inline]
            fn set_one(&mut self) {
                *self = 1;
            }

            #[inline]
            fn is_one(&self) -> bool {
                *self == 1
            }

            #[inline]
            fn min_value() -> Self {
                $E::MIN
            }

            #[inline]
            fn max_value() -> Self {
                $E::MAX
            }

            #[inline]
            fn from_str_radix(text: &str, radix: u32) -> Result<Self, ParseIntError> {
                $E::from_str_radix(text, radix)
            }

            #[inline]
            fn from<N: ToPrimitive>(number: N) -> Option<Self> {
                number.$to()
            }

            #[inline]
            fn checked_add(&self, other: &Self) -> Option<Self> {
                $E::checked_add(*self, *other)
            }

            #[inline]
            fn checked_sub(&self, other: &Self) -> Option<Self> {
                $E::checked_sub(*self, *other)
            }

            #[inline]
            fn checked_mul(&self, other: &Self) -> Option<Self> {
                $E::checked_mul(*self, *other)
            }

            #[inline]
            fn checked_div(&self, other: &Self) -> Option<Self> {
                $E::checked_div(*self, *other)
            }

            #[inline]
            fn wrapping_add(self, other: impl Borrow<Self>) -> Self {
                $E::wrapping_add(self, *other.borrow())
            }

            #[inline]
            fn wrapping_sub(self, other: impl Borrow<Self>) -> Self {
                $E::wrapping_sub(self, *other.borrow())
            }

            #[inline]
            fn wrapping_mul(self, other: impl Borrow<Self>) -> Self {
                $E::wrapping_mul(self, *other.borrow())
            }

            #[inline]
            fn signed_shr(self, bits: u32) -> Self {
                ((self as $signed) >> bits) as $E
            }

            #[inline]
            fn signed_shl(self, bits: u32) -> Self {
                self << bits
            }

            #[inline]
            fn unsigned_shl(self, bits: u32) -> Self {
                self << bits
            }

            #[inline]
            fn unsigned_shr(self, bits: u32) -> Self {
                self >> bits
            }

            #[inline]
            fn from_be(number: Self) -> Self {
                $E::from_be(number)
            }

            #[inline]
            fn from_le(number: Self) -> Self {
                $E::from_le(number)
            }
        }
    };
}

number!(u8, i8, to_u8);
number!(u16, i16, to_u16);
number!(u32, i32, to_u32);
number!(u64, i64, to_u64);

macro_rules! integer_to_primitive {
    ($N:ident: $($to:ident -> $P:ident,)*) => {
        impl ToPrimitive for $N {
            $(#[inline]
            fn $to(&self) -> Option<$P> {
                $P::try_from(*self).ok()
            })*

            #[inline]
            fn to_f32(&self) -> Option<f32> {
                Some(*self as f32)
            }

            #[inline]
            fn to_f64(&self) -> Option<f64> {
                Some(*self as f64)
            }
        }
    };
}

macro_rules! float_to_primitive {
    ($N:ident: $($to:ident -> $P:ident,)*) => {
        impl ToPrimitive for $N {
            $(#[inline]
            fn $to(&self) -> Option<$P> {
                // Fractions are truncated, so that numbers less than 1 below the minimum are in range. If the float type has no
                // fractions at the limits, `minimum - 1.0` is the minimum, and `MAX as $N` is already the maximum plus 1.
                let minimum = $P::MIN as $N;
                let fits = (*self >= minimum || *self > minimum - 1.0) && *self < $P::MAX as $N + 1.0;
                fits.then_some(*self as $P)
            })*

            #[inline]
            fn to_f32(&self) -> Option<f32> {
                Some(*self as f32)
            }

            #[inline]
            fn to_f64(&self) -> Option<f64> {
                Some(*self as f64)
            }
        }
    };
}

macro_rules! to_primitive {
    ($form:ident: $($N:ident)*) => {
        $($form! { $N:
            to_isize -> isize,
            to_i8 -> i8,
            to_i16 -> i16,
            to_i32 -> i32,
            to_i64 -> i64,
            to_i128 -> i128,
            to_usize -> usize,
            to_u8 -> u8,
            to_u16 -> u16,
            to_u32 -> u32,
            to_u64 -> u64,
            to_u128 -> u128,
        })*
    };
}

to_primitive!(integer_to_primitive: i8 i16 i32 i64 i128 isize u8 u16 u32 u64 u128 usize);
to_primitive!(float_to_primitive: f32 f64);
