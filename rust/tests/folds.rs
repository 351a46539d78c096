//! Folds of packed blocks: compared with the reference digests of the crate `fastlanes` (see vectors.rs), and with the sums, minima and
//! maxima in the tests of `suite_of_callers`.

use fastlanes::{BitFolding, seq_t};
use std::collections::HashMap;
use std::{array, fs};

const INPUTS: [&str; 6] = ["zeros", "ones", "ramp", "odd", "top", "mixed"];

trait Element: BitFolding {
    const NAME: &'static str;

    /// The number modulo 2^T.
    fn of(number: u64) -> Self;
    fn number(self) -> u64;

    /// Calls `fold_constant` on the first words, at a run-time width.
    fn fold_constant_at(width: usize, words: &[Self; 1024], visit: &mut dyn FnMut(usize, Self));
}

macro_rules! element {
    ($E:ident) => {
        impl Element for $E {
            const NAME: &'static str = stringify!($E);

            fn of(number: u64) -> Self {
                number as $E
            }

            fn number(self) -> u64 {
                u64::from(self)
            }

            fn fold_constant_at(width: usize, words: &[Self; 1024], visit: &mut dyn FnMut(usize, Self)) {
                seq_t!(W in $E {
                    match width {
                        #(W => fold_constant::<$E, W, { 1024 / $E::BITS as usize * W }>(words, visit),)*
                        _ => fold_constant::<$E, { $E::BITS as usize }, 1024>(words, visit),
                    }
                })
            }
        }
    };
}

element!(u8);
element!(u16);
element!(u32);
element!(u64);

fn fold_constant<E: Element, const W: usize, const B: usize>(words: &[E; 1024], visit: &mut dyn FnMut(usize, E)) {
    let packed: &[E; B] = words.first_chunk().expect("a packed block is no longer than a block");
    E::fold_constant::<W, B, _, _>(packed, (), kernel_of(visit));
}

/// A kernel that calls `visit`. It has one type for each value type, so that it is compiled once for each width.
fn kernel_of<E: Element>(visit: &mut dyn FnMut(usize, E)) -> impl FnMut((), usize, E) {
    |(), index, value| visit(index, value)
}

/// Returns the first words: a packed block of the width.
fn packed<E: Element>(width: usize, words: &[E; 1024]) -> &[E] {
    &words[..E::LANES * width]
}

/// The number at an index of a named input, before it is reduced modulo 2^T.
fn number_at(name: &str, bits: usize, index: usize) -> u64 {
    let i = index as u64;
    match name {
        "zeros" => 0,
        "ones" => u64::MAX,
        "ramp" => i,
        "odd" => 2654435761 * i + 97,
        "top" => (1 << (bits - 1)) + i,
        "mixed" => {
            let high = 2654435761 * (i + 1) % (1 << 32) / (1 << 12);
            [0, 20, 40, 60]
                .iter()
                .fold(0, |sum: u64, &shift| sum.wrapping_add(high << shift))
        }
        _ => panic!("no input {name}"),
    }
}

/// Returns the 64-bit FNV-1a digest.
fn digest(bytes: impl IntoIterator<Item = u8>) -> String {
    let hash = bytes.into_iter().fold(0xcbf2_9ce4_8422_2325, |hash: u64, byte| {
        (hash ^ u64::from(byte)).wrapping_mul(0x100_0000_01b3)
    });
    format!("{hash:016x}")
}

/// Returns the little-endian bytes of a value.
fn bytes<E: Element>(element: E) -> impl Iterator<Item = u8> {
    element.number().to_le_bytes().into_iter().take(E::T / 8)
}

/// Reads a file of the checkout.
fn read(path: &str) -> String {
    let path = format!("{}/../crates/{path}", env!("CARGO_MANIFEST_DIR"));
    fs::read_to_string(&path).unwrap_or_else(|error| panic!("{path}: {error}"))
}

/// Compares the digests of the visited values, in their order and by index.
fn assert_visits<E: Element>(lines: &mut HashMap<&str, &str>) {
    for (name, width) in INPUTS
        .into_iter()
        .flat_map(|name| (0..=E::T).map(move |width| (name, width)))
    {
        let words: [E; 1024] = array::from_fn(|index| E::of(number_at(name, E::T, index)));
        let mut visits = vec![];
        E::fold(
            width,
            packed(width, &words),
            (),
            kernel_of(&mut |index, value| visits.push((index, value))),
        );
        let mut constant_visits = vec![];
        E::fold_constant_at(width, &words, &mut |index, value| constant_visits.push((index, value)));
        assert!(
            visits == constant_visits,
            "{} {width} {name}: fold and fold_constant differ",
            E::NAME
        );

        let mut block = [None; 1024];
        for &(index, value) in &visits {
            assert!(block[index].replace(value).is_none(), "index {index} is visited twice");
        }
        let walk = digest(
            visits
                .iter()
                .flat_map(|&(index, value)| (index as u64).to_le_bytes().into_iter().chain(bytes(value))),
        );
        let block = digest(
            block
                .into_iter()
                .flat_map(|value| bytes(value.expect("a value at each index"))),
        );
        for (operation, found) in [("unpack_lane", walk), ("unpack", block)] {
            let line = format!("{operation} {} {width} {name}", E::NAME);
            assert_eq!(lines.remove(&*line), Some(&*found), "{line}");
        }
    }
}

#[test]
fn fold_visits_each_value_once_in_lane_order() {
    let text = read("suite/lines");
    let mut lines: HashMap<_, _> = text
        .lines()
        .filter(|line| line.starts_with("unpack_lane ") || line.starts_with("unpack "))
        .filter_map(|line| line.rsplit_once(' '))
        .collect();
    assert_eq!(lines.len(), 124 * 6 * 2);
    assert_visits::<u8>(&mut lines);
    assert_visits::<u16>(&mut lines);
    assert_visits::<u32>(&mut lines);
    assert_visits::<u64>(&mut lines);
    assert!(lines.is_empty());
}

/// The rows of a type: for each width the sum modulo 2^64, the minimum and the maximum of the packed values.
fn rows<E: Element>(text: &str) -> Vec<(u64, u64, u64)> {
    let (_, rows) = text
        .split_once("const ROWS: [(usize, usize, u64, u64, u64); 124] = [")
        .expect("the rows of all types");
    let rows = rows.replace(|character: char| character == '_' || character.is_whitespace(), "");
    rows.split('(')
        .skip(1)
        .map(|row| {
            let mut numbers = row.split([',', ')']).map(|number| number.parse().expect("a number"));
            let mut next = || numbers.next().expect("five numbers");
            [next(), next(), next(), next(), next()]
        })
        .filter(|&[bits, ..]| bits == E::T as u64)
        .enumerate()
        .map(|(width, [_, at, sum, minimum, maximum])| {
            assert_eq!(at, width as u64);
            (sum, minimum, maximum)
        })
        .collect()
}

/// `unpack_sum`, `unpack_range` and folds agree with the rows.
fn assert_rows<E: Element>(text: &str) {
    let rows = rows::<E>(text);
    assert_eq!(rows.len(), E::T + 1);
    let words: [E; 1024] = array::from_fn(|k| E::of((k as u64 + 1).wrapping_mul(0x9E37_79B9_7F4A_7C15) >> (64 - E::T)));
    for (width, row) in rows.into_iter().enumerate() {
        let packed = packed(width, &words);
        let (minimum, maximum) = E::unpack_range(width, packed);
        let named = (E::unpack_sum(width, packed), minimum.number(), maximum.number());
        assert_eq!(named, row, "{} at width {width}", E::NAME);

        let start = (0u64, u64::MAX, 0);
        let folded = E::fold(width, packed, start, |(sum, minimum, maximum), _, value| {
            let value = value.number();
            (sum.wrapping_add(value), value.min(minimum), value.max(maximum))
        });
        assert_eq!(folded, row, "{} at width {width}, by a fold", E::NAME);
    }
}

#[test]
fn sums_and_ranges_agree_with_the_reference() {
    let text = read("suite_of_callers/src/tests/folds/rows.rt");
    assert_rows::<u8>(&text);
    assert_rows::<u16>(&text);
    assert_rows::<u32>(&text);
    assert_rows::<u64>(&text);
}

#[test]
fn sums_wrap_at_64_bits() {
    assert_eq!(u64::unpack_sum(64, &[u64::MAX; 1024]), u64::MAX - 1023);
    assert_eq!(u32::unpack_sum(32, &[u32::MAX; 1024]), 1024 * u64::from(u32::MAX));
    assert_eq!(u64::unpack_range(64, &[u64::MAX; 1024]), (u64::MAX, u64::MAX));
}
