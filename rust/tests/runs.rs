//! Run-length encoding of all kinds of types, and dictionaries of more than 65536 values.

use fastlanes::RLE;
use std::array;
use std::fmt::Debug;

/// Encodes and decodes a block. Returns the values of the runs, and the run of each value.
fn encoded<V: RLE + Copy + PartialEq + Debug>(block: &[V; 1024], fill: V) -> (Vec<V>, [u16; 1024]) {
    let (mut values, mut runs) = ([fill; 1024], [u16::MAX; 1024]);
    let count = V::encode_unchecked(block, &mut values, &mut runs);
    assert!(
        values[count..].iter().all(|value| *value == fill),
        "an element after the last run was written"
    );
    let mut output = [fill; 1024];
    V::decode_unchecked(&values[..count], &runs, &mut output);
    assert_eq!(output, *block);
    (values[..count].to_vec(), runs)
}

/// Returns the run of each value, for runs of these lengths.
fn runs(lengths: &[usize]) -> [u16; 1024] {
    let numbers = lengths.iter().enumerate().flat_map(|(run, len)| vec![run as u16; *len]);
    numbers.collect::<Vec<_>>().try_into().expect("1024 values")
}

#[test]
fn strings_round_trip() {
    let owned = String::from("yes");
    let block = array::from_fn(|i| if i < 1000 { "no" } else { owned.as_str() });
    assert_eq!(encoded(&block, ""), (vec!["no", "yes"], runs(&[1000, 24])));
    assert_eq!(encoded(&[Some("no"); 1024], None), (vec![Some("no")], runs(&[1024])));
}

#[test]
fn custom_types_round_trip() {
    #[derive(Clone, Copy, PartialEq, Debug)]
    enum Shape {
        None,
        Point,
        Box { width: u8, height: u8 },
    }
    let block = array::from_fn(|i| match i {
        0 => Shape::Point,
        1..1000 => Shape::Box { width: 3, height: 4 },
        _ => Shape::Box { width: 3, height: 5 },
    });
    let values = vec![
        Shape::Point,
        Shape::Box { width: 3, height: 4 },
        Shape::Box { width: 3, height: 5 },
    ];
    assert_eq!(encoded(&block, Shape::None), (values, runs(&[1, 999, 24])));
}

#[test]
fn other_primitive_types_round_trip() {
    assert_eq!(encoded(&array::from_fn(|i| i / 1023 == 1), false).1, runs(&[1023, 1]));
    let block: [i8; 1024] = array::from_fn(|i| -(i as i8 / 64).abs());
    assert_eq!(encoded(&block, 1).0.first(), Some(&0));
    let alternating: [i128; 1024] = array::from_fn(|i| (i as i128 % 2) << 100);
    let (values, runs) = encoded(&alternating, -1);
    assert_eq!(values, alternating);
    assert!(runs.into_iter().eq(0..1024));
    assert_eq!(
        encoded(&array::from_fn(|i| (i / 512, 'a')), (7, 'b')).0,
        [(0, 'a'), (1, 'a')]
    );
}

#[test]
fn zeros_of_both_signs_are_one_run_and_each_nan_is_a_run() {
    let zeros: [f64; 1024] = array::from_fn(|i| if i % 2 == 0 { 0.0 } else { -0.0 });
    assert_eq!(encoded(&zeros, 1.0), (vec![0.0], runs(&[1024])));
    let (mut values, mut runs) = ([0.0; 1024], [7; 1024]);
    assert_eq!(f32::encode_unchecked(&[f32::NAN; 1024], &mut values, &mut runs), 1024);
    assert!(runs.into_iter().eq(0..1024) && values.iter().all(|value| value.is_nan()));
}

/// The equality of the type is not bitwise.
#[test]
fn a_run_has_the_value_of_its_first_element() {
    #[derive(Clone, Copy, Debug)]
    struct Hundreds(u32);
    impl PartialEq for Hundreds {
        fn eq(&self, other: &Hundreds) -> bool {
            self.0 / 100 == other.0 / 100
        }
    }
    let (values, runs) = encoded(&array::from_fn(|i| Hundreds(i as u32 + 50)), Hundreds(5000));
    assert!(
        values
            .iter()
            .map(|value| value.0)
            .eq([50, 100, 200, 300, 400, 500, 600, 700, 800, 900, 1000])
    );
    assert_eq!((runs[49], runs[50], runs[1023]), (0, 1, 10));
}

#[test]
fn a_custom_type_of_the_same_size_uses_its_own_equality() {
    #[derive(Clone, Copy, Debug)]
    struct Never(u16);
    impl PartialEq for Never {
        fn eq(&self, _: &Never) -> bool {
            false
        }
    }
    let (mut values, mut runs) = ([Never(0); 1024], [0; 1024]);
    assert_eq!(Never::encode_unchecked(&[Never(5); 1024], &mut values, &mut runs), 1024);
    assert!(values.iter().all(|value| value.0 == 5));
}

/// A custom index type.
#[derive(Clone, Copy)]
struct Backwards(usize);

impl From<Backwards> for usize {
    fn from(index: Backwards) -> usize {
        70_000 - index.0
    }
}

fn assert_large<V: RLE + Copy + PartialEq + Debug>(fill: V, value: impl Fn(usize) -> V) {
    let values: Vec<V> = (0..70_001).map(&value).collect();
    let mut output = [fill; 1024];
    let indices: [usize; 1024] = array::from_fn(|i| i * 68);
    V::decode_unchecked(&values, &indices, &mut output);
    assert_eq!(output, indices.map(&value));
    V::decode_unchecked(&values, &indices.map(Backwards), &mut output);
    assert_eq!(output, indices.map(|index| value(70_000 - index)));
    // Indices of 16 bits.
    let indices: [u16; 1024] = array::from_fn(|i| i as u16 * 64);
    V::decode_unchecked(&values, &indices, &mut output);
    assert_eq!(output, indices.map(|index| value(index.into())));
}

#[test]
fn dictionaries_of_more_than_65536_values_are_decoded() {
    assert_large(1u8, |number| number as u8);
    assert_large(1u16, |number| number as u16);
    assert_large(1u32, |number| number as u32);
    assert_large(1u64, |number| number as u64);
    assert_large(None, |number| Some(number as i32));
}
