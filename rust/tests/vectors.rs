//! Compares the results of the package with the reference digests of the crate `fastlanes`. The file crates/suite/lines of the
//! checkout has a line `operation type width input digest` for each.

use fastlanes::{
    BitPackingCompare, Delta, FL_ORDER, FastLanes, FastLanesComparable, FoR, RLE, Transpose, iterate, pack, transpose,
    transpose_bits, unpack, untranspose_bits, untranspose_bits_of,
};
use std::collections::HashMap;
use std::fmt::Debug;
use std::mem::MaybeUninit;
use std::{array, fs};

const INPUTS: [&str; 6] = ["zeros", "ones", "ramp", "odd", "top", "mixed"];

/// Operations, each with the little-endian bytes of its output.
type Results = Vec<(&'static str, Vec<u8>)>;

trait Element: BitPackingCompare + Delta + FoR + Debug + FastLanesComparable<Bitpacked = Self> {
    const NAME: &'static str;

    /// The signed type of the same size.
    type Signed: FastLanesComparable<Bitpacked = Self> + PartialOrd;

    /// The number modulo 2^T.
    fn of(number: u64) -> Self;
    fn number(self) -> u64;

    /// [`const_forms`] at a run-time width.
    fn const_forms_at(width: usize, input: &[Self; 1024], fill: Self) -> Results;

    /// [`block_forms`] with the number of lanes of the type.
    fn block_forms_of(name: &str, input: &[Self; 1024], fill: Self) -> Results;

    /// The results of the macros on a block, or on its first words as a packed block.
    fn lane_forms(width: usize, input: &[Self; 1024], fill: Self) -> Results;

    /// The index of each row, lane by lane.
    fn lane_indices() -> Vec<usize>;
}

macro_rules! element {
    ($E:ident, $Signed:ident, $bits:literal, $($width:literal)*) => {
        impl Element for $E {
            const NAME: &'static str = stringify!($E);
            type Signed = $Signed;

            fn of(number: u64) -> Self {
                number as $E
            }

            fn number(self) -> u64 {
                u64::from(self)
            }

            fn const_forms_at(width: usize, input: &[Self; 1024], fill: Self) -> Results {
                match width {
                    $($width => const_forms::<$E, { 1024 / $bits }, $width, { 1024 / $bits * $width }>(input, fill),)*
                    _ => panic!("no width {width}"),
                }
            }

            fn block_forms_of(name: &str, input: &[Self; 1024], fill: Self) -> Results {
                block_forms::<$E, { 1024 / $bits }>(name, input, fill)
            }

            fn lane_forms(width: usize, input: &[Self; 1024], fill: Self) -> Results {
                let mut packed = vec![fill; $E::LANES * width];
                let mut visits = vec![];
                for lane in 0..$E::LANES {
                    pack!($E, width, packed, lane, |$index| input[$index]);
                    unpack!($E, width, input, lane, |$index, $value| {
                        visits.extend(bytes(&[$index as u64]));
                        visits.extend(bytes(&[$value]));
                    });
                }
                vec![("pack_lane", bytes(&packed)), ("unpack_lane", visits)]
            }

            fn lane_indices() -> Vec<usize> {
                let mut indices = vec![];
                for lane in 0..$E::LANES {
                    iterate!($E, lane, |$index| indices.push($index));
                }
                indices
            }
        }
    };
}

element!(u8, i8, 8, 0 1 2 3 4 5 6 7 8);
element!(u16, i16, 16, 0 1 2 3 4 5 6 7 8 9 10 11 12 13 14 15 16);
element!(u32, i32, 32, 0 1 2 3 4 5 6 7 8 9 10 11 12 13 14 15 16 17 18 19 20 21 22 23 24 25 26 27 28 29 30 31 32);
element!(u64, i64, 64, 0 1 2 3 4 5 6 7 8 9 10 11 12 13 14 15 16 17 18 19 20 21 22 23 24 25 26 27 28 29 30 31 32 33 34 35
    36 37 38 39 40 41 42 43 44 45 46 47 48 49 50 51 52 53 54 55 56 57 58 59 60 61 62 63 64);

/// The number at an index of a named input, before it is reduced modulo 2^T.
fn number_at(name: &str, bits: usize, index: usize) -> u64 {
    let i = index as u64;
    match name {
        "zeros" => 0,
        "ones" => u64::MAX,
        "ramp" => i,
        "odd" => 2654435761 * i + 97,
        "top" => (1 << (bits - 1)) + i,
        "mixed" => {
            let high = 2654435761 * (i + 1) % (1 << 32) / (1 << 12);
            [0, 20, 40, 60]
                .iter()
                .fold(0, |sum: u64, &shift| sum.wrapping_add(high << shift))
        }
        "hundreds" => i / 100 + 1,
        _ => panic!("no input {name}"),
    }
}

fn input<E: Element>(name: &str) -> [E; 1024] {
    array::from_fn(|index| E::of(number_at(name, E::T, index)))
}

fn bases<E: Element, const LANES: usize>() -> [E; LANES] {
    array::from_fn(|lane| E::of(3 * lane as u64 + 1))
}

/// Some indices: the first, the last, repeated and others.
fn selected_indices() -> Vec<usize> {
    let mut indices = vec![1023, 0, 17, 17, 511, 17, 511];
    indices.extend((0..100).map(|j| (389 * j + 7) % 1024));
    indices
}

fn references<E: Element>() -> [E; 2] {
    [E::of(number_at("odd", E::T, 4)), E::of(u64::MAX)]
}

fn bytes<E: Element>(elements: &[E]) -> Vec<u8> {
    elements
        .iter()
        .flat_map(|element| element.number().to_le_bytes().into_iter().take(E::T / 8))
        .collect()
}

/// Converts initialized elements.
fn written<E: Element>(elements: &[MaybeUninit<E>]) -> Vec<E> {
    // SAFETY: the tests initialize all of these elements.
    elements
        .iter()
        .map(|element| unsafe { element.assume_init() })
        .collect()
}

/// Returns the 64-bit FNV-1a digest.
fn digest(bytes: &[u8]) -> String {
    let mut hash: u64 = 0xcbf29ce484222325;
    for &byte in bytes {
        hash = (hash ^ u64::from(byte)).wrapping_mul(0x100000001b3);
    }
    format!("{hash:016x}")
}

/// The results of the calls at a constant width on a block, or on its first words as a packed block. Outputs are filled with `fill`
/// first.
fn const_forms<E: Element, const LANES: usize, const W: usize, const B: usize>(input: &[E; 1024], fill: E) -> Results {
    let mut packed = [fill; B];
    let mut output = [fill; 1024];
    let words: &[E; B] = input.first_chunk().expect("a packed block is no longer than a block");
    let mut results = vec![];

    E::pack::<W, B>(input, &mut packed);
    results.push(("pack", bytes(&packed)));
    E::unpack::<W, B>(words, &mut output);
    results.push(("unpack", bytes(&output)));
    let compared = output[777];
    let single: [E; 1024] = array::from_fn(|index| E::unpack_single::<W, B>(words, index));
    results.push(("unpack_single", bytes(&single)));
    let mut selected = vec![MaybeUninit::new(fill); selected_indices().len()];
    E::unpack_indices::<W, B>(words, &selected_indices(), &mut selected);
    results.push(("unpack_indices", bytes(&written(&selected))));

    let names = [("for_pack:odd4", "unfor_pack:odd4"), ("for_pack:max", "unfor_pack:max")];
    for ((for_pack, unfor_pack), reference) in names.into_iter().zip(references()) {
        packed.fill(fill);
        E::for_pack::<W, B>(input, reference, &mut packed);
        results.push((for_pack, bytes(&packed)));
        output.fill(fill);
        E::unfor_pack::<W, B>(words, reference, &mut output);
        results.push((unfor_pack, bytes(&output)));
    }

    output.fill(fill);
    E::undelta_pack::<LANES, W, B>(words, &bases(), &mut output);
    results.push(("undelta_pack", bytes(&output)));
    results.extend(const_masks::<E, E, W, B>(UNSIGNED, words, compared, fill));
    results.extend(const_masks::<E, E::Signed, W, B>(
        SIGNED,
        words,
        E::Signed::as_unpacked(compared),
        fill,
    ));
    let mut mask = [fill.number(); 16];
    E::unpack_cmp_lt::<W, B>(words, &mut mask, compared);
    assert!(
        results.contains(&("unpack_cmp:lt:u", bytes(&mask))),
        "unpack_cmp_lt and unpack_cmp differ"
    );
    results
}

const UNSIGNED: [&str; 3] = ["unpack_cmp:eq:u", "unpack_cmp:lt:u", "unpack_cmp:gt:u"];
const SIGNED: [&str; 3] = ["unpack_cmp:eq:s", "unpack_cmp:lt:s", "unpack_cmp:gt:s"];

/// Equal, less and greater.
fn comparisons<V: PartialOrd>() -> [fn(V, V) -> bool; 3] {
    [
        |packed, value| packed == value,
        |packed, value| packed < value,
        |packed, value| packed > value,
    ]
}

/// The masks of comparisons at a constant width.
fn const_masks<E, V, const W: usize, const B: usize>(
    names: [&'static str; 3],
    words: &[E; B],
    value: V,
    fill: E,
) -> Results
where
    E: Element,
    V: FastLanesComparable<Bitpacked = E> + PartialOrd,
{
    let mask = |comparison| {
        let mut mask = [fill.number(); 16];
        E::unpack_cmp::<W, B, V, _>(words, &mut mask, comparison, value);
        bytes(&mask)
    };
    names.into_iter().zip(comparisons().map(mask)).collect()
}

/// The masks of comparisons at a run-time width.
fn run_time_masks<E, V>(names: [&'static str; 3], width: usize, words: &[E], value: V, fill: E) -> Results
where
    E: Element,
    V: FastLanesComparable<Bitpacked = E> + PartialOrd,
{
    let mask = |comparison| {
        let mut mask = [fill.number(); 16];
        E::unchecked_unpack_cmp(width, words, &mut mask, comparison, value);
        bytes(&mask)
    };
    names.into_iter().zip(comparisons().map(mask)).collect()
}

/// The results of the calls at a run-time width.
fn run_time_forms<E: Element>(width: usize, input: &[E; 1024], fill: E) -> Results {
    let mut packed = vec![fill; E::LANES * width];
    let mut output = [fill; 1024];
    let words = &input[..E::LANES * width];
    let mut results = vec![];

    E::unchecked_pack(width, input, &mut packed);
    results.push(("pack", bytes(&packed)));
    E::unchecked_unpack(width, words, &mut output);
    results.push(("unpack", bytes(&output)));
    let compared = output[777];
    let single: [E; 1024] = array::from_fn(|index| E::unchecked_unpack_single(width, words, index));
    results.push(("unpack_single", bytes(&single)));
    let mut selected = vec![MaybeUninit::new(fill); selected_indices().len()];
    E::unchecked_unpack_indices(width, words, &selected_indices(), &mut selected);
    results.push(("unpack_indices", bytes(&written(&selected))));
    for (name, reference) in ["unfor_pack:odd4", "unfor_pack:max"].into_iter().zip(references()) {
        output.fill(fill);
        E::unchecked_unfor_pack(width, words, reference, &mut output);
        results.push((name, bytes(&output)));
    }
    results.extend(run_time_masks::<E, E>(UNSIGNED, width, words, compared, fill));
    results.extend(run_time_masks::<E, E::Signed>(
        SIGNED,
        width,
        words,
        E::Signed::as_unpacked(compared),
        fill,
    ));
    let mut mask = [fill.number(); 16];
    E::unchecked_unpack_cmp_lt(width, words, &mut mask, compared);
    results.push(("unpack_cmp:lt:u", bytes(&mask)));
    results
}

/// The results of the calls without a width on a block, or on the first 16 words of the u64 input of the same name.
fn block_forms<E: Element, const LANES: usize>(name: &str, block: &[E; 1024], fill: E) -> Results {
    let result = |call: &dyn Fn(&mut [E; 1024])| {
        let mut output = [fill; 1024];
        call(&mut output);
        bytes(&output)
    };
    let bases = bases::<E, LANES>();
    let mut results = vec![
        ("delta", result(&|output| E::delta(block, &bases, output))),
        ("undelta", result(&|output| E::undelta(block, &bases, output))),
        ("transpose", result(&|output| E::transpose(block, output))),
        ("untranspose", result(&|output| E::untranspose(block, output))),
    ];

    let step = |count: usize| -> [usize; 1024] { array::from_fn(|i| (7 * i + 3) % count) };
    let odd: [bool; 1024] = array::from_fn(|i| i % 2 == 1);
    let small = step(256).map(|index| index as u8);
    let indices = step(1024).map(|index| index as u16);
    results.push((
        "rle_decode:bool",
        result(&|output| E::decode_unchecked(block, &odd, output)),
    ));
    results.push((
        "rle_decode:u8",
        result(&|output| E::decode_unchecked(block, &small, output)),
    ));
    results.push((
        "rle_decode:u16",
        result(&|output| E::decode_unchecked(block, &indices, output)),
    ));
    results.push((
        "rle_decode:usize",
        result(&|output| E::decode_unchecked(block, &step(1024), output)),
    ));

    let bits: [u64; 16] = array::from_fn(|word| number_at(name, 64, word));
    let reordered = |call: fn(&[u64; 16], &mut [u64; 16])| {
        let mut output = [fill.number(); 16];
        call(&bits, &mut output);
        bytes(&output)
    };
    results.push(("transpose_bits", reordered(transpose_bits::<E>)));
    let untransposed = reordered(untranspose_bits_of::<E>);
    if E::T == 64 {
        assert!(
            untransposed == reordered(untranspose_bits),
            "untranspose_bits and untranspose_bits_of differ"
        );
    }
    results.push(("untranspose_bits", untransposed));
    results
}

/// The number of runs, their values, and the indices. Later values must be unchanged, and the block must round-trip.
fn runs<E: Element>(block: &[E; 1024], fill: E) -> Results {
    let mut values = [fill; 1024];
    let mut indices = [fill.number() as u16; 1024];
    let count = E::encode_unchecked(block, &mut values, &mut indices);
    assert!(
        values[count..].iter().all(|&value| value == fill),
        "an element after the last run was written"
    );
    let mut output = [fill; 1024];
    E::decode_unchecked(&values[..count], &indices, &mut output);
    assert!(output == *block, "the block does not round-trip");
    vec![(
        "rle_encode",
        [bytes(&[count as u64]), bytes(&values[..count]), bytes(&indices)].concat(),
    )]
}

/// Returns the results of calls, which must not depend on the previous contents of the outputs.
fn filled<E: Element>(call: impl Fn(E) -> Results) -> Results {
    let (ones, zeros) = (call(E::of(u64::MAX)), call(E::of(0)));
    for (one, zero) in ones.iter().zip(&zeros) {
        assert!(
            one == zero,
            "{} of {}: the output depends on its previous contents",
            one.0,
            E::NAME
        );
    }
    ones
}

/// The reference digests by the words before them, and the outcome of the comparisons.
struct Reference {
    digests: HashMap<String, String>,
    compared: usize,
    wrong: Vec<String>,
}

impl Reference {
    fn compare(&mut self, name: String, output: &[u8]) {
        let found = digest(output);
        match self.digests.remove(&name) {
            Some(expected) if expected == found => self.compared += 1,
            Some(expected) => self.wrong.push(format!("{name}: {found}: expected {expected}")),
            None => self.wrong.push(format!("{name}: no reference digest")),
        }
    }

    fn compare_type<E: Element>(&mut self) {
        for name in INPUTS {
            let block = input::<E>(name);
            for width in 0..=E::T {
                let results = filled(|fill| E::const_forms_at(width, &block, fill));
                for result in filled(|fill| run_time_forms(width, &block, fill)) {
                    assert!(
                        results.contains(&result),
                        "{} {} {width} {name}: run-time and constant widths differ",
                        result.0,
                        E::NAME
                    );
                }
                let by_lanes = filled(|fill| E::lane_forms(width, &block, fill));
                for (operation, output) in results.into_iter().chain(by_lanes) {
                    self.compare(format!("{operation} {} {width} {name}", E::NAME), &output);
                }
            }
            for (operation, output) in filled(|fill| E::block_forms_of(name, &block, fill)) {
                self.compare(format!("{operation} {} - {name}", E::NAME), &output);
            }
        }
        for name in INPUTS.into_iter().chain(["hundreds"]) {
            for (operation, output) in filled(|fill| runs(&input::<E>(name), fill)) {
                self.compare(format!("{operation} {} - {name}", E::NAME), &output);
            }
        }
        self.compare(format!("iterate_lane {} - -", E::NAME), &numbers(&E::lane_indices()));
    }
}

/// Returns the bytes of numbers of 64 bits.
fn numbers(indices: &[usize]) -> Vec<u8> {
    bytes(&indices.iter().map(|&index| index as u64).collect::<Vec<_>>())
}

#[test]
fn results_have_the_reference_digests() {
    let path = concat!(env!("CARGO_MANIFEST_DIR"), "/../crates/suite/lines");
    let text = fs::read_to_string(path).unwrap_or_else(|error| panic!("{path}: {error}"));
    let digests = text
        .lines()
        .filter_map(|line| line.rsplit_once(' '))
        .map(|(name, digest)| (name.into(), digest.into()));
    let mut reference = Reference {
        digests: digests.collect(),
        compared: 0,
        wrong: vec![],
    };

    reference.compare("fl_order - - -".into(), &numbers(&FL_ORDER));
    reference.compare(
        "transpose_idx - - below1024".into(),
        &numbers(&array::from_fn::<_, 1024, _>(transpose)),
    );
    let large = [1024, 1025, 12345, 1 << 32, usize::MAX - 1, usize::MAX];
    reference.compare("transpose_idx - - large".into(), &numbers(&large.map(transpose)));
    reference.compare_type::<u8>();
    reference.compare_type::<u16>();
    reference.compare_type::<u32>();
    reference.compare_type::<u64>();

    let wrong = &reference.wrong;
    assert!(
        wrong.is_empty(),
        "{} digests are wrong:\n{}",
        wrong.len(),
        wrong[..wrong.len().min(20)].join("\n")
    );
    // 124 pairs of type and width with 17 operations, four types with 10 and with runs of one more input, the lane indices, and three
    // digests without a type. There is no other digest.
    assert_eq!(reference.compared, 124 * 6 * 17 + 4 * 6 * 10 + 4 * 7 + 4 + 3);
    assert!(reference.digests.is_empty());
    println!("compared {} reference digests", reference.compared);
}
