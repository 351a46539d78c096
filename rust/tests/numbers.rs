//! The functions of `num_traits` on a generic value type, without that crate.

// The functions of `num_traits` have reference arguments, as these calls do.
#![allow(clippy::needless_borrows_for_generic_args)]

use fastlanes::FastLanes;
use std::fmt::Debug;

/// The generic functions agree with the inherent methods.
macro_rules! assert_functions {
    ($($E:ident $Signed:ident,)*) => {
        $(for (a, b) in [(0, 0), (0, 1), (1, 0), (200, 100), ($E::MAX, 1), ($E::MAX, $E::MAX), (0xA5, 3)] {
            let (a, b): ($E, $E) = (a, b);
            let bits = u32::from(b as u8 % 8);
            let expected = [
                $E::MIN, $E::MAX, a.wrapping_add(b), a.wrapping_sub(b), a.wrapping_mul(b),
                a.saturating_add(b), a.saturating_sub(b), (a % 2).pow(bits),
                a.rotate_left(bits), a.rotate_right(bits), a << bits, a >> bits, (a as $Signed >> bits) as $E,
                a.swap_bytes(), a.reverse_bits(), $E::from_be(a), $E::from_le(a), a.to_be(), a.to_le(),
            ];
            assert_eq!(numbers(a, b, bits), expected);
            let expected = [a.checked_add(b), a.checked_sub(b), a.checked_mul(b), a.checked_div(b)];
            assert_eq!(checked(a, b), expected);
            let expected = [
                a.count_ones(), a.count_zeros(), a.leading_ones(), a.leading_zeros(), a.trailing_ones(), a.trailing_zeros(),
            ];
            assert_eq!(counts(a), expected);
        })*
    };
}

fn numbers<E: FastLanes>(a: E, b: E, bits: u32) -> [E; 19] {
    let two = E::one() + E::one();
    assert!(a.signed_shl(bits) == a.unsigned_shl(bits));
    [
        E::min_value(),
        E::max_value(),
        a.wrapping_add(&b),
        a.wrapping_sub(b),
        E::wrapping_mul(a, &b),
        a.saturating_add(b),
        a.saturating_sub(b),
        (a % two).pow(bits),
        a.rotate_left(bits),
        a.rotate_right(bits),
        a.unsigned_shl(bits),
        a.unsigned_shr(bits),
        a.signed_shr(bits),
        a.swap_bytes(),
        a.reverse_bits(),
        E::from_be(a),
        E::from_le(a),
        a.to_be(),
        a.to_le(),
    ]
}

fn checked<E: FastLanes>(a: E, b: E) -> [Option<E>; 4] {
    [
        a.checked_add(&b),
        E::checked_sub(&a, &b),
        a.checked_mul(&b),
        a.checked_div(&b),
    ]
}

fn counts<E: FastLanes>(a: E) -> [u32; 6] {
    [
        a.count_ones(),
        a.count_zeros(),
        a.leading_ones(),
        a.leading_zeros(),
        a.trailing_ones(),
        a.trailing_zeros(),
    ]
}

#[test]
fn generic_functions_agree_with_inherent_methods() {
    assert_functions!(u8 i8, u16 i16, u32 i32, u64 i64,);
}

fn assert_units<E: FastLanes + Debug>() {
    let (mut zero, mut one) = (E::one(), E::zero());
    zero.set_zero();
    one.set_one();
    assert_eq!((zero, one), (E::zero(), E::one()));
    assert!(zero.is_zero() && !one.is_zero() && one.is_one() && !zero.is_one());
    assert_eq!(E::zero() - E::zero(), E::max_value() ^ E::max_value());
    assert_eq!(!E::zero(), E::max_value());
    assert!(E::min_value() < E::max_value() && E::min_value() == E::zero());
    assert_eq!(E::from_str_radix("1011", 2).ok(), E::from(11));
    assert!(E::from_str_radix("fffffffffffffffff", 16).is_err());
}

#[test]
fn zero_one_and_the_limits_are_right() {
    assert_units::<u8>();
    assert_units::<u16>();
    assert_units::<u32>();
    assert_units::<u64>();
}

fn from_any<E: FastLanes, F: FastLanes>(number: F) -> Option<E> {
    E::from(number)
}

fn to_all<E: FastLanes>(a: E) -> ([bool; 12], Option<f32>, Option<f64>) {
    let in_range = [
        a.to_u8().is_some(),
        a.to_u16().is_some(),
        a.to_u32().is_some(),
        a.to_u64().is_some(),
        a.to_u128().is_some(),
        a.to_usize().is_some(),
        a.to_i8().is_some(),
        a.to_i16().is_some(),
        a.to_i32().is_some(),
        a.to_i64().is_some(),
        a.to_i128().is_some(),
        a.to_isize().is_some(),
    ];
    (in_range, a.to_f32(), a.to_f64())
}

#[test]
fn conversions_return_none_if_out_of_range() {
    assert_eq!(from_any::<u8, u64>(255), Some(255));
    assert_eq!(from_any::<u8, u64>(256), None);
    assert_eq!(from_any::<u64, u8>(7), Some(7));
    let yes = true;
    assert_eq!(to_all(127u8), ([yes; 12], Some(127.0), Some(127.0)));
    let u32_max = [false, false, yes, yes, yes, yes, false, false, false, yes, yes, yes];
    assert_eq!(to_all(u32::MAX).0, u32_max);
    let u64_max = [
        false, false, false, yes, yes, yes, false, false, false, false, yes, false,
    ];
    assert_eq!(
        to_all(u64::MAX),
        (u64_max, Some(18446744073709551616.0), Some(18446744073709551616.0))
    );
}

fn from_float<E: FastLanes>(number: f64) -> Option<E> {
    let short = number as f32;
    if f64::from(short) == number {
        assert!(E::from(short) == E::from(number));
    }
    E::from(number)
}

#[test]
fn conversions_from_floats_truncate() {
    assert_eq!(from_float::<u8>(255.0), Some(255));
    assert_eq!(from_float::<u8>(255.99), Some(255));
    assert_eq!(from_float::<u8>(256.0), None);
    assert_eq!(from_float::<u8>(-0.99), Some(0));
    assert_eq!(from_float::<u8>(-1.0), None);
    assert_eq!(from_float::<u16>(f64::NAN), None);
    assert_eq!(from_float::<u32>(4294967295.5), Some(u32::MAX));
    assert_eq!(from_float::<u32>(4294967296.0), None);
    assert_eq!(from_float::<u64>(18446744073709549568.0), Some(18446744073709549568));
    assert_eq!(from_float::<u64>(18446744073709551616.0), None);
    assert_eq!(from_float::<u64>(f64::INFINITY), None);
    assert_eq!(from_float::<u64>(f64::NEG_INFINITY), None);
}

/// Traits with the names of `num_traits`, which generic code may use too.
mod traits {
    pub trait WrappingAdd: Sized {
        fn wrapping_add(&self, other: &Self) -> Self;
    }

    pub trait Zero {
        fn zero() -> Self;
    }

    macro_rules! integers {
        ($($N:ident)*) => {
            $(impl WrappingAdd for $N {
                fn wrapping_add(&self, other: &Self) -> Self {
                    $N::wrapping_add(*self, *other)
                }
            }

            impl Zero for $N {
                fn zero() -> Self {
                    0
                }
            })*
        };
    }

    integers!(u8 u16 u32 u64);
}

fn sums_of_both<E: FastLanes + traits::WrappingAdd>(a: E, b: E) -> [E; 2] {
    [a.wrapping_add(&b), traits::WrappingAdd::wrapping_add(&a, &b)]
}

#[test]
fn traits_with_the_same_methods_do_not_conflict() {
    use traits::Zero;
    assert_eq!(sums_of_both(200u8, 100), [44, 44]);
    assert_eq!(u8::zero(), 0);
    assert_eq!(<u64 as Zero>::zero(), 0);
}
