//! Consecutive blocks at one width: compared with the reference digests of the crate `fastlanes` (see vectors.rs), and with calls on
//! single blocks.

use fastlanes::{BitPacking, BitPackingBlocks};
use std::collections::HashMap;
use std::fmt::Debug;
use std::{array, fs};

const INPUTS: [&str; 6] = ["zeros", "ones", "ramp", "odd", "top", "mixed"];

trait Element: BitPacking + BitPackingBlocks + Debug {
    const NAME: &'static str;

    /// The number modulo 2^T.
    fn of(number: u64) -> Self;
    fn number(self) -> u64;
}

macro_rules! element {
    ($($E:ident)*) => {
        $(impl Element for $E {
            const NAME: &'static str = stringify!($E);

            fn of(number: u64) -> Self {
                number as $E
            }

            fn number(self) -> u64 {
                u64::from(self)
            }
        })*
    };
}

element!(u8 u16 u32 u64);

/// The number at an index of a named input, before it is reduced modulo 2^T.
fn number_at(name: &str, bits: usize, index: usize) -> u64 {
    let i = index as u64;
    match name {
        "zeros" => 0,
        "ones" => u64::MAX,
        "ramp" => i,
        "odd" => 2654435761 * i + 97,
        "top" => (1 << (bits - 1)) + i,
        "mixed" => {
            let high = 2654435761 * (i + 1) % (1 << 32) / (1 << 12);
            [0, 20, 40, 60]
                .iter()
                .fold(0, |sum: u64, &shift| sum.wrapping_add(high << shift))
        }
        _ => panic!("no input {name}"),
    }
}

/// Returns the 64-bit FNV-1a digest of the little-endian bytes.
fn digest<E: Element>(elements: &[E]) -> String {
    let bytes = elements
        .iter()
        .flat_map(|element| element.number().to_le_bytes().into_iter().take(E::T / 8));
    let hash = bytes.fold(0xcbf2_9ce4_8422_2325, |hash: u64, byte| {
        (hash ^ u64::from(byte)).wrapping_mul(0x100_0000_01b3)
    });
    format!("{hash:016x}")
}

/// Reads a file of the checkout.
fn read(path: &str) -> String {
    let path = format!("{}/../crates/{path}", env!("CARGO_MANIFEST_DIR"));
    fs::read_to_string(&path).unwrap_or_else(|error| panic!("{path}: {error}"))
}

/// Returns the output of a call, which must not depend on the previous contents.
fn filled<E: Element>(len: usize, call: impl Fn(&mut [E])) -> Vec<E> {
    let [ones, zeros] = [u64::MAX, 0].map(|fill| {
        let mut output = vec![E::of(fill); len];
        call(&mut output);
        output
    });
    assert!(
        ones == zeros,
        "{}: the output depends on its previous contents",
        E::NAME
    );
    ones
}

/// Packs and unpacks the six inputs as consecutive blocks, and compares the digest of each.
fn assert_digests<E: Element>(lines: &mut HashMap<&str, &str>) {
    let blocks = INPUTS.map(|name| array::from_fn::<E, 1024, _>(|index| E::of(number_at(name, E::T, index))));
    for width in 0..=E::T {
        let words = E::LANES * width;
        let packed = filled(6 * words, |output| E::pack_blocks(width, &blocks.concat(), output));
        let input = blocks.map(|block| block[..words].to_vec()).concat();
        let values = filled(6 * 1024, |output| E::unpack_blocks(width, &input, output));
        for (number, name) in INPUTS.into_iter().enumerate() {
            let packed = digest(&packed[words * number..words * (number + 1)]);
            let values = digest(&values[1024 * number..1024 * (number + 1)]);
            for (operation, found) in [("pack", packed), ("unpack", values)] {
                let line = format!("{operation} {} {width} {name}", E::NAME);
                assert_eq!(lines.remove(&*line), Some(&*found), "{line}");
            }
        }
    }
}

#[test]
fn six_blocks_have_the_reference_digests() {
    let text = read("suite/lines");
    let mut lines: HashMap<_, _> = text
        .lines()
        .filter(|line| line.starts_with("pack ") || line.starts_with("unpack "))
        .filter_map(|line| line.rsplit_once(' '))
        .collect();
    assert_eq!(lines.len(), 124 * 6 * 2);
    assert_digests::<u8>(&mut lines);
    assert_digests::<u16>(&mut lines);
    assert_digests::<u32>(&mut lines);
    assert_digests::<u64>(&mut lines);
    assert!(lines.is_empty());
}

/// Pseudorandom values.
fn scrambled<E: Element>(len: usize) -> Vec<E> {
    let number = |i: usize| (i as u64 + 1).wrapping_mul(0x9E37_79B9_7F4A_7C15).rotate_left(31);
    (0..len).map(|i| E::of(number(i))).collect()
}

/// A call on consecutive blocks agrees with calls on each block.
fn assert_agrees_with_single_blocks<E: Element>(count: usize) {
    for width in 0..=E::T {
        let words = E::LANES * width;
        let elements = scrambled::<E>(1024 * count);
        let packed = filled(words * count, |output| E::pack_blocks(width, &elements, output));
        let values = filled(1024 * count, |output| {
            E::unpack_blocks(width, &elements[..words * count], output)
        });
        for number in 0..count {
            let mut single = vec![E::of(0); words];
            E::unchecked_pack(width, &elements[1024 * number..1024 * (number + 1)], &mut single);
            assert_eq!(packed[words * number..words * (number + 1)], single);
            let mut single = [E::of(0); 1024];
            E::unchecked_unpack(width, &elements[words * number..words * (number + 1)], &mut single);
            assert_eq!(values[1024 * number..1024 * (number + 1)], single);
        }
    }
}

#[test]
fn calls_on_consecutive_blocks_agree_with_calls_on_single_blocks() {
    for count in [1, 2, 3, 7] {
        assert_agrees_with_single_blocks::<u8>(count);
        assert_agrees_with_single_blocks::<u16>(count);
        assert_agrees_with_single_blocks::<u32>(count);
        assert_agrees_with_single_blocks::<u64>(count);
    }
}

#[test]
fn zero_blocks_are_accepted() {
    for width in 0..=64 {
        u64::pack_blocks(width, &[], &mut []);
        u64::unpack_blocks(width, &[], &mut []);
    }
    u8::pack_blocks(8, &[], &mut []);
    u8::unpack_blocks(8, &[], &mut []);
}

#[test]
fn any_number_of_blocks_has_no_words_at_width_0() {
    u32::pack_blocks(0, &[7; 3 * 1024], &mut []);
    let mut values = [7u32; 3 * 1024];
    u32::unpack_blocks(0, &[], &mut values);
    assert_eq!(values, [0; 3 * 1024]);
}
