//! Comparisons by closures and by name, at every width, compared with the definition of the mask.

use fastlanes::{BitPacking, BitPackingCompare, Comparison, FL_ORDER, FastLanesComparable, Filter, transpose_bits};
use std::array;
use std::cell::RefCell;
use std::fmt::Debug;
use std::panic::{AssertUnwindSafe, catch_unwind};

trait Element: BitPacking + BitPackingCompare + Filter<Bitpacked = Self> + Debug {
    type Signed: Filter<Bitpacked = Self> + Ord + Debug;

    fn of(number: u64) -> Self;
}

macro_rules! element {
    ($($E:ident $Signed:ident,)*) => {
        $(impl Element for $E {
            type Signed = $Signed;

            fn of(number: u64) -> $E {
                number as $E
            }
        })*
    };
}

element!(u8 i8, u16 i16, u32 i32, u64 i64,);

/// Arbitrary words, with many equal packed values at small widths.
fn words<E: Element>(len: usize) -> Vec<E> {
    (0..len as u64)
        .map(|i| E::of((i * i + 1).wrapping_mul(0x9E37_79B9_7F4A_7C15)))
        .collect()
}

fn index_of<E: Element>(bit: usize) -> usize {
    let (lane, row) = (bit / E::T, bit % E::T);
    FL_ORDER[row / 8] * 16 + row % 8 * 128 + lane
}

/// Returns the mask of a predicate on bit numbers.
fn bits(predicate: impl Fn(usize) -> bool) -> [u64; 16] {
    array::from_fn(|word| (0..64).map(|bit| u64::from(predicate(word * 64 + bit)) << bit).sum())
}

/// Tests the masks of the six comparisons, in lane order and in logical order.
fn assert_masks<E: Element, V: Filter<Bitpacked = E> + Ord>(width: usize, words: &[E], value: V) {
    let comparisons: [(Comparison, fn(V, V) -> bool); 6] = [
        (Comparison::Equal, |packed, value| packed == value),
        (Comparison::NotEqual, |packed, value| packed != value),
        (Comparison::Less, |packed, value| packed < value),
        (Comparison::AtMost, |packed, value| packed <= value),
        (Comparison::Greater, |packed, value| packed > value),
        (Comparison::AtLeast, |packed, value| packed >= value),
    ];
    let mut values = [E::zero(); 1024];
    E::unchecked_unpack(width, words, &mut values);
    let values = values.map(V::as_unpacked);
    for (named, comparison) in comparisons {
        let (mut mask, mut logical) = ([0x5555_5555_5555_5555; 16], [0; 16]);
        E::unchecked_unpack_cmp(width, words, &mut mask, comparison, value);
        assert_eq!(mask, bits(|bit| comparison(values[index_of::<E>(bit)], value)));
        transpose_bits::<E>(&mask, &mut logical);
        assert_eq!(logical, bits(|index| comparison(values[index], value)));

        let (mut named_mask, mut filtered) = ([0x5555_5555_5555_5555; 16], [0; 16]);
        V::unchecked_unpack_mask(width, words, named, value, &mut named_mask);
        assert_eq!(named_mask, mask, "{named:?}");
        V::unchecked_unpack_filter(width, words, named, value, &mut filtered);
        assert_eq!(filtered, logical, "{named:?}");
    }
}

fn assert_type<E: Element>() {
    for width in 0..=E::T {
        let words = words::<E>(E::LANES * width);
        let compared = E::unchecked_unpack_single(width, &words, 641);
        for value in [E::zero(), E::one(), E::max_value(), compared] {
            assert_masks::<E, E>(width, &words, value);
            assert_masks::<E, E::Signed>(width, &words, E::Signed::as_unpacked(value));
        }
    }
}

#[test]
fn masks_of_u8_blocks_match_the_definition() {
    assert_type::<u8>();
}

#[test]
fn masks_of_u16_blocks_match_the_definition() {
    assert_type::<u16>();
}

#[test]
fn masks_of_u32_blocks_match_the_definition() {
    assert_type::<u32>();
}

#[test]
fn masks_of_u64_blocks_match_the_definition() {
    assert_type::<u64>();
}

#[test]
fn masks_are_right_for_every_value_at_constant_width_10() {
    let values: [u32; 1024] = array::from_fn(|i| i as u32);
    let mut packed = [0; 320];
    u32::pack::<10, 320>(&values, &mut packed);
    for value in 0..1100 {
        let mut mask = [u64::MAX; 16];
        u32::unpack_cmp::<10, 320, u32, _>(&packed, &mut mask, |packed, value| packed == value, value);
        assert_eq!(mask, bits(|bit| index_of::<u32>(bit) == value as usize));
        u32::unpack_mask::<10, 320>(&packed, Comparison::AtMost, value, &mut mask);
        assert_eq!(mask, bits(|bit| index_of::<u32>(bit) <= value as usize));
        i32::unpack_filter::<10, 320>(&packed, Comparison::Greater, value as i32, &mut mask);
        assert_eq!(mask, bits(|index| index > value as usize));
    }
}

/// Numbers that are compared by their trailing zeros.
#[derive(Clone, Copy, PartialEq, Debug)]
struct Evenness(u16);

impl FastLanesComparable for Evenness {
    type Bitpacked = u16;

    fn as_unpacked(inner: u16) -> Evenness {
        Evenness(inner)
    }
}

/// The closure captures a variable.
#[test]
fn a_closure_on_a_custom_type_is_called_once_per_value_in_lane_order() {
    let values: [u16; 1024] = array::from_fn(|i| i as u16);
    let mut packed = [0; 640];
    u16::pack::<10, 640>(&values, &mut packed);
    let called = RefCell::new(vec![]);
    let comparison = |packed: Evenness, value: Evenness| {
        called.borrow_mut().push(usize::from(packed.0));
        packed.0.trailing_zeros() > value.0.trailing_zeros()
    };
    let mut mask = [0; 16];
    u16::unpack_cmp::<10, 640, _, _>(&packed, &mut mask, comparison, Evenness(6));
    assert_eq!(mask, bits(|bit| index_of::<u16>(bit).trailing_zeros() > 1));
    assert!(called.into_inner().into_iter().eq((0..1024).map(index_of::<u16>)));
}

#[test]
fn a_panic_in_a_closure_leaves_the_mask_unchanged() {
    let mut mask = [7; 16];
    let call = AssertUnwindSafe(|| u8::unchecked_unpack_cmp(0, &[], &mut mask, |_, _| panic!("no result"), 0i8));
    let panic = catch_unwind(call).expect_err("the comparison's panic");
    assert_eq!(panic.downcast_ref(), Some(&"no result"));
    assert_eq!(mask, [7; 16]);
}
