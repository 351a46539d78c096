//! The operations that have a width.

use std::io;
use std::mem::MaybeUninit;

use crate::digest::Digest;
use crate::input::Input;
use crate::lines::{Case, Lines};
use crate::word::{Value, Word, bases};
use crate::written::{written, written_array};

/// A block, and the width at which it is packed, and at which its first words are read as packed ones.
struct Sample<E> {
    case: Case,
    width: usize,
    block: [E; 1024],
}

/// Prints what the operations of a width give. Readers of packed words read the first words of the input.
pub fn print_packed<E: Word, V: Value<E>, const LANES: usize>(
    lines: &mut Lines,
    width: usize,
    input: Input,
) -> io::Result<()> {
    let sample: Sample<E> = Sample {
        case: Case {
            element: E::NAME,
            width: Some(width),
            input: input.name(),
        },
        width,
        block: input.first(),
    };
    let odd = Input::Odd.at(4);
    let max = E::max_value();
    sample.print_packers(lines)?;
    sample.print_readers(lines)?;
    sample.print_frames(lines, odd, ["for_pack:odd4", "unfor_pack:odd4"])?;
    sample.print_frames(lines, max, ["for_pack:max", "unfor_pack:max"])?;
    sample.print_sums::<LANES>(lines)?;
    sample.print_masks::<V>(lines)
}

impl<E: Word> Sample<E> {
    /// How many packed words there are at the width.
    fn packed_len(&self) -> usize {
        E::LANES * self.width
    }

    fn words(&self) -> &[E] {
        &self.block[..self.packed_len()]
    }

    /// Prints what packing gives, by one call and lane by lane.
    fn print_packers(&self, lines: &mut Lines) -> io::Result<()> {
        let words = written(self.packed_len(), |words| {
            // SAFETY: the block has 1024 elements, and the output is as long as the width asks.
            unsafe { E::unchecked_pack(self.width, &self.block, words) }
        });
        lines.put("pack", self.case, Digest::of(&words))?;
        let words = written(self.packed_len(), |words| {
            for lane in 0..E::LANES {
                E::pack_lane(self.width, words, lane, |place| self.block[place]);
            }
        });
        lines.put("pack_lane", self.case, Digest::of(&words))
    }

    /// Prints the digits of packed words: by one call, lane by lane, one by one, and those at chosen places.
    fn print_readers(&self, lines: &mut Lines) -> io::Result<()> {
        let digits = written(1024, |digits| {
            // SAFETY: the words are as many as the width asks, and the output has 1024 elements.
            unsafe { E::unchecked_unpack(self.width, self.words(), digits) }
        });
        lines.put("unpack", self.case, Digest::of(&digits))?;
        let mut walk = Digest::new();
        for lane in 0..E::LANES {
            E::unpack_lane(self.width, self.words(), lane, |place, digit| {
                walk.add(place as u64, 8);
                walk.add_words(&[digit]);
            });
        }
        lines.put("unpack_lane", self.case, walk)?;
        let singles: Vec<E> = (0..1024).map(|place| self.single(place)).collect();
        lines.put("unpack_single", self.case, Digest::of(&singles))?;
        let chosen = written(chosen_places().len(), |chosen| self.choose(chosen));
        lines.put("unpack_indices", self.case, Digest::of(&chosen))
    }

    /// The digit at a place.
    fn single(&self, place: usize) -> E {
        // SAFETY: the words are as many as the width asks.
        unsafe { E::unchecked_unpack_single(self.width, self.words(), place) }
    }

    /// Writes the digits at the chosen places.
    fn choose(&self, chosen: &mut [E]) {
        let mut cells: Vec<_> = chosen.iter().copied().map(MaybeUninit::new).collect();
        // SAFETY: the words are as many as the width asks.
        unsafe {
            E::unchecked_unpack_indices(self.width, self.words(), &chosen_places(), &mut cells);
        }
        for (digit, cell) in chosen.iter_mut().zip(cells) {
            // SAFETY: each cell was made with a value.
            *digit = unsafe { cell.assume_init() };
        }
    }

    /// Prints what packing with a reference and unpacking with it give, under these names.
    fn print_frames(&self, lines: &mut Lines, reference: E, names: [&str; 2]) -> io::Result<()> {
        let words = written(self.packed_len(), |words| {
            E::for_pack_at(self.width, &self.block, reference, words);
        });
        lines.put(names[0], self.case, Digest::of(&words))?;
        let values = written(1024, |values| {
            // SAFETY: the words are as many as the width asks, and the output has 1024 elements.
            unsafe { E::unchecked_unfor_pack(self.width, self.words(), reference, values) }
        });
        lines.put(names[1], self.case, Digest::of(&values))
    }

    /// Prints what the digits add up to along the lanes.
    fn print_sums<const LANES: usize>(&self, lines: &mut Lines) -> io::Result<()> {
        let base = bases::<E, LANES>();
        let sums = written_array(|sums| {
            E::undelta_pack_at(self.width, self.words(), &base, sums);
        });
        lines.put("undelta_pack", self.case, Digest::of(&sums))
    }

    /// Prints the masks of three comparisons with the digit at a place, as unsigned numbers and as signed ones.
    fn print_masks<V: Value<E>>(&self, lines: &mut Lines) -> io::Result<()> {
        let digit = self.single(777);
        let unsigned = ["unpack_cmp:eq:u", "unpack_cmp:lt:u", "unpack_cmp:gt:u"];
        let signed = ["unpack_cmp:eq:s", "unpack_cmp:lt:s", "unpack_cmp:gt:s"];
        self.print_comparisons(lines, digit, unsigned)?;
        self.print_comparisons(lines, V::as_unpacked(digit), signed)
    }

    /// Prints the masks of the three comparisons with a value, under these names.
    fn print_comparisons<V: Value<E>>(
        &self,
        lines: &mut Lines,
        value: V,
        names: [&str; 3],
    ) -> io::Result<()> {
        let [equal, less, greater] = names;
        lines.put(equal, self.case, self.mask(Comparison::Equal, value))?;
        lines.put(less, self.case, self.mask(Comparison::Less, value))?;
        lines.put(greater, self.case, self.mask(Comparison::Greater, value))
    }

    /// The digest of the mask of a comparison of all digits with a value.
    fn mask<V: Value<E>>(&self, comparison: Comparison, value: V) -> Digest {
        let compare = |digit: V, other: V| comparison.holds(digit, other);
        let mask: Vec<u64> = written_array(|mask| {
            // SAFETY: the words are as many as the width asks.
            unsafe { E::unchecked_unpack_cmp(self.width, self.words(), mask, compare, value) }
        });
        Digest::of(&mask)
    }
}

/// Seven places, some of them twice, and then a hundred more.
fn chosen_places() -> Vec<usize> {
    let more = (0..100).map(|number| (389 * number + 7) % 1024);
    [1023, 0, 17, 17, 511, 17, 511]
        .into_iter()
        .chain(more)
        .collect()
}

/// A comparison of two values.
#[derive(Clone, Copy)]
enum Comparison {
    Equal,
    Less,
    Greater,
}

impl Comparison {
    fn holds<V: PartialOrd>(self, value: V, other: V) -> bool {
        match self {
            Comparison::Equal => value == other,
            Comparison::Less => value < other,
            Comparison::Greater => value > other,
        }
    }
}
