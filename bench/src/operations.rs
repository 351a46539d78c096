//! What is timed: each operation of each element type and width, by the library and by the Rust crate.
//!
//! Both are called through function pointers that the compiler cannot look into, on the same memory.

use std::hint::black_box;
use std::mem::MaybeUninit;
use std::slice::{from_raw_parts, from_raw_parts_mut};

use crate::ffi::{self, Library, timed};
use crate::macros::{self, Macros};
use crate::memory::{CHOSEN, Column, FRESH, GETS, Memory, Numbers, PLACES, frame, runs};
use crate::package::{self, AtWidth, Heads, Program};
use crate::rust_crate::{self, RustCrate};
use crate::through_c;
use crate::timing::Calls;

/// The comparison `FL_LT` of the C functions.
const LESS_THAN: u32 = 2;

/// An element type, and the two libraries for it.
pub trait Element: ours::FastLanes + 'static {
    const NAME: &'static str;
    const BITS: usize;
    const OURS: Library<Self>;
    const THROUGH_C: Library<Self>;
    const THEIRS: RustCrate<Self>;
    const TIMED: timed::Library<Self>;
    const MACROS: Macros<Self>;
    const PACKAGE: Program<Self>;
    const CRATE: Program<Self>;

    /// The number modulo 2^BITS.
    fn from_number(number: u64) -> Self;

    /// The sum of a block, modulo 2^64.
    fn sum_of(block: &[Self; 1024]) -> u64;

    /// The least element of a block, and the greatest.
    fn range_of(block: &[Self; 1024]) -> (Self, Self);
}

macro_rules! element {
    ($E:ident, $TABLE:ident) => {
        impl Element for $E {
            const NAME: &'static str = stringify!($E);
            const BITS: usize = $E::BITS as usize;
            const OURS: Library<$E> = ffi::$TABLE;
            const THROUGH_C: Library<$E> = through_c::$TABLE;
            const THEIRS: RustCrate<$E> = rust_crate::$TABLE;
            const TIMED: timed::Library<$E> = timed::$TABLE;
            const MACROS: Macros<$E> = macros::$TABLE;
            const PACKAGE: Program<$E> = package::of_package::$TABLE;
            const CRATE: Program<$E> = package::of_crate::$TABLE;

            fn from_number(number: u64) -> $E {
                number as $E
            }

            fn sum_of(block: &[$E; 1024]) -> u64 {
                block
                    .iter()
                    .fold(0, |sum: u64, &element| sum.wrapping_add(element as u64))
            }

            fn range_of(block: &[$E; 1024]) -> ($E, $E) {
                let least = block
                    .iter()
                    .fold($E::MAX, |least, &element| least.min(element));
                let greatest = block
                    .iter()
                    .fold(0, |greatest, &element| greatest.max(element));
                (least, greatest)
            }
        }
    };
}

element!(u8, U8);
element!(u16, U16);
element!(u32, U32);
element!(u64, U64);

/// One operation of one element type, at one width if it has a width.
pub struct Operation {
    pub name: &'static str,
    pub element: &'static str,
    pub bits: usize,
    pub width: Option<usize>,
    pub ours: Calls,
    pub theirs: Calls,
    /// Copying 1024 elements of the type.
    pub copy: Calls,
    /// Whether one call of each writes the same.
    pub agree: Agreement,
}

type Agreement = Box<dyn Fn(&mut Calls, &mut Calls) -> bool>;

/// Makes a call as often as asked. The names in it, of the function and its arguments, are hidden from the compiler
/// once for all the calls of a slice: it can neither look into the function nor leave out a call.
macro_rules! calls {
    ($function:ident($($argument:ident),*)) => {
        calls!($function, $($argument),* => $function($($argument),*))
    };
    ($($name:ident),* => $call:expr) => {{
        let calls: Calls = Box::new(move |count| {
            let ($($name,)*) = black_box(($($name,)*));
            for _ in 0..count {
                // SAFETY: the pointers are to parts of a `Memory`, and the lengths fit these and the width.
                unsafe { $call };
            }
        });
        calls
    }};
}

/// The operations of the element types that were added.
pub struct Table {
    pub operations: Vec<Operation>,
    /// Whether the Rust crate stands in for the library too.
    pub crate_alone: bool,
    /// Whether its block calls, behind C functions, do so.
    pub through_c: bool,
    /// Whether programs over the package in rust/ and over the Rust crate are timed, in place of functions.
    pub rust: bool,
}

impl Table {
    /// The C functions of the library, or of what stands in for it.
    fn library<E: Element>(&self) -> Library<E> {
        if self.through_c {
            E::THROUGH_C
        } else {
            E::OURS
        }
    }

    /// Adds the operations of the type E, at these widths where they have a width.
    pub fn add_element<E: Element>(&mut self, widths: &[usize]) {
        let mut numbers = Numbers::new(1);
        let memory = Memory::new(std::array::from_fn(|_| E::from_number(numbers.next())));
        if self.rust {
            self.add_programs(memory);
            return;
        }
        for &width in widths {
            if width > 0 {
                self.add_packing(memory, width);
            }
            self.add_unpacking(memory, width);
            if self.through_c {
                continue;
            }
            self.add_folds(memory, width);
            self.add_rows(memory, width);
            self.add_chosen(memory, width);
            self.add_frames(Memory::<E>::new(frame(width)), width);
            self.add_neighbours(memory, width);
        }
        if self.through_c {
            return;
        }
        self.add_kernels(memory);
        self.add_whole(memory);
        self.add_column("frame_get:1000", memory, Column::new(1000));
        self.add_column("frame_get:100000", memory, Column::new(100_000));
        self.add_bits(memory);
        self.add_runs::<E>(["rle_encode:long", "rle_decode:long"], |n| {
            n.next() % 128 != 0
        });
        self.add_runs::<E>(["rle_encode:coin", "rle_decode:coin"], |n| {
            n.next() % 2 != 0
        });
        self.add_runs::<E>(["rle_encode:none", "rle_decode:none"], |_| false);
        self.add_fresh_runs::<E>("rle_encode:fresh");
    }

    /// What programs in Rust do, at constant widths and at one of the run.
    fn add_programs<E: Element>(&mut self, memory: Memory<E>) {
        let (input, output, reference) = (memory.values(), memory.output(), memory.reference());
        let (base, mask, places) = (memory.base(), memory.output_bits(), memory.places());
        let count_to = memory.output_count();
        let (ours, theirs) = (E::PACKAGE, E::CRATE);
        for (ours, theirs) in ours.at_width.iter().zip(theirs.at_width) {
            let width = Some(ours.width);
            let (f, g) = (ours.pack, theirs.pack);
            self.add(
                "pack",
                width,
                memory,
                || calls!(f(input, output)),
                || calls!(g(input, output)),
            );
            let (f, g) = (ours.unpack, theirs.unpack);
            self.add(
                "unpack",
                width,
                memory,
                || calls!(f(input, output)),
                || calls!(g(input, output)),
            );
            let (f, g) = (ours.unfor_pack, theirs.unfor_pack);
            self.add(
                "unfor_pack",
                width,
                memory,
                || calls!(f(input, reference, output)),
                || calls!(g(input, reference, output)),
            );
            let (f, g) = (ours.undelta_pack, theirs.undelta_pack);
            self.add(
                "undelta_pack",
                width,
                memory,
                || calls!(f(input, base, output)),
                || calls!(g(input, base, output)),
            );
            let value = E::from_number(1 << (ours.width - 1));
            let (f, g) = (ours.unpack_cmp, theirs.unpack_cmp);
            self.add(
                "unpack_cmp",
                width,
                memory,
                || calls!(f(input, mask, value)),
                || calls!(g(input, mask, value)),
            );
            let (f, g) = (ours.singles, theirs.singles);
            self.add(
                "unpack_single",
                width,
                memory,
                || calls!(f(input, output)),
                || calls!(g(input, output)),
            );
            let (f, g) = (ours.scattered, theirs.scattered);
            self.add(
                "unpack_single:random",
                width,
                memory,
                || calls!(f(input, places, output)),
                || calls!(g(input, places, output)),
            );
        }
        for AtWidth { width, .. } in ours.at_width {
            let (f, g, input_len) = (ours.singles, theirs.singles, packed_len::<E>(*width));
            let width = *width;
            self.add(
                "unpack_single:at_run",
                Some(width),
                memory,
                || calls!(f(width, input, input_len, output)),
                || calls!(g(width, input, input_len, output)),
            );
        }
        let heads = Heads::<E>::new((0..1000).map(|block| block % 9));
        self.add(
            "column_len:1000",
            None,
            memory,
            || calls!(heads, count_to => count_to.write(heads.column_len())),
            || calls!(heads, count_to => count_to.write(heads.column_len_unchecked())),
        );
        self.add_decoding("rle_decode:long", ours.rle_decode, theirs.rle_decode, |n| {
            n.next() % 128 != 0
        });
        self.add_decoding("rle_decode:coin", ours.rle_decode, theirs.rle_decode, |n| {
            n.next() % 2 != 0
        });
    }

    /// Adds an operation on this memory; `ours` and `theirs` give the calls of the two libraries.
    fn add<E: Element>(
        &mut self,
        name: &'static str,
        width: Option<usize>,
        memory: Memory<E>,
        ours: impl Fn() -> Calls,
        theirs: impl Fn() -> Calls,
    ) {
        let (input, output) = (memory.values(), memory.output());
        let copy: unsafe fn(*const E, *mut E) = copy_block;
        self.operations.push(Operation {
            name,
            element: E::NAME,
            bits: E::BITS,
            width,
            ours: if self.crate_alone { theirs() } else { ours() },
            theirs: theirs(),
            copy: calls!(copy(input, output)),
            agree: Box::new(move |ours, theirs| {
                memory.written_by(|| ours(1)) == memory.written_by(|| theirs(1))
            }),
        });
    }

    /// Values to packed words.
    fn add_packing<E: Element>(&mut self, memory: Memory<E>, width: usize) {
        let (ours, theirs) = (self.library::<E>(), &E::THEIRS.at_width[width]);
        let (input, output, reference) = (memory.values(), memory.output(), memory.reference());
        let output_len = packed_len::<E>(width);

        let (f, g) = (ours.pack, theirs.pack);
        self.add(
            "pack",
            Some(width),
            memory,
            || calls!(f(width, input, output, output_len)),
            || calls!(g(input, output)),
        );
        let (f, g) = (ours.for_pack, theirs.for_pack);
        self.add(
            "for_pack",
            Some(width),
            memory,
            || calls!(f(width, input, reference, output, output_len)),
            || calls!(g(input, reference, output)),
        );
    }

    /// Packed words to values, and to a mask.
    fn add_unpacking<E: Element>(&mut self, memory: Memory<E>, width: usize) {
        let (ours, theirs) = (self.library::<E>(), &E::THEIRS.at_width[width]);
        let (input, output, reference) = (memory.values(), memory.output(), memory.reference());
        let (base, mask) = (memory.base(), memory.output_bits());
        let input_len = packed_len::<E>(width);

        let (f, g) = (ours.unpack, theirs.unpack);
        self.add(
            "unpack",
            Some(width),
            memory,
            || calls!(f(width, input, input_len, output)),
            || calls!(g(input, output)),
        );
        let (f, g) = (ours.unfor_pack, theirs.unfor_pack);
        self.add(
            "unfor_pack",
            Some(width),
            memory,
            || calls!(f(width, input, input_len, reference, output)),
            || calls!(g(input, reference, output)),
        );
        let (f, g) = (ours.undelta_pack, theirs.undelta_pack);
        self.add(
            "undelta_pack",
            Some(width),
            memory,
            || calls!(f(width, input, input_len, base, output)),
            || calls!(g(input, base, output)),
        );
        // About half of the digits are less.
        let value = E::from_number(if width == 0 { 1 } else { 1 << (width - 1) });
        let (f, g, comparison) = (ours.unpack_cmp, theirs.unpack_cmp_lt, LESS_THAN);
        self.add(
            "unpack_cmp",
            Some(width),
            memory,
            || calls!(f(width, input, input_len, comparison, value, mask)),
            || calls!(g(input, mask, value)),
        );
    }

    /// The sum of the digits, the least and the greatest, beside the Rust crate's `unpack` and a loop over the block.
    fn add_folds<E: Element>(&mut self, memory: Memory<E>, width: usize) {
        let (ours, g) = (E::OURS, E::THEIRS.at_width[width].unpack);
        let (input, output) = (memory.values(), memory.output());
        let input_len = packed_len::<E>(width);
        let block = Box::leak(Box::new([E::from_number(0); 1024])).as_mut_ptr();

        let (f, sum_to, sum_of) = (
            ours.unpack_sum,
            memory.output_count(),
            E::sum_of as fn(&[E; 1024]) -> u64,
        );
        self.add(
            "unpack_sum",
            Some(width),
            memory,
            || calls!(f, width, input, input_len, sum_to => *sum_to = f(width, input, input_len) as usize),
            || {
                calls!(g, sum_of, input, block, sum_to => {
                    g(input, block);
                    *sum_to = sum_of(&*block.cast()) as usize;
                })
            },
        );
        let (f, range_of) = (ours.unpack_range, E::range_of as fn(&[E; 1024]) -> (E, E));
        self.add(
            "unpack_range",
            Some(width),
            memory,
            || calls!(f, width, input, input_len, output => f(width, input, input_len, output, output.add(1))),
            || {
                calls!(g, range_of, input, block, output => {
                    g(input, block);
                    (*output, *output.add(1)) = range_of(&*block.cast());
                })
            },
        );
    }

    /// Blocks by rows of sixteen lanes, beside the blocks of the Rust crate.
    fn add_rows<E: Element>(&mut self, memory: Memory<E>, width: usize) {
        let (ours, theirs) = (E::TIMED, &E::THEIRS.at_width[width]);
        let (input, output) = (memory.values(), memory.output());
        let len = packed_len::<E>(width);

        let (f, g) = (ours.pack_rows, theirs.pack);
        if width > 0 {
            self.add(
                "rows:pack",
                Some(width),
                memory,
                || calls!(f(width, input, output, len)),
                || calls!(g(input, output)),
            );
        }
        let (f, g) = (ours.unpack_rows, theirs.unpack);
        self.add(
            "rows:unpack",
            Some(width),
            memory,
            || calls!(f(width, input, len, output)),
            || calls!(g(input, output)),
        );
    }

    /// Kernels in each lane of a block, at widths that are constants on both sides, and at others.
    fn add_kernels<E: Element>(&mut self, memory: Memory<E>) {
        let (ours, theirs) = (E::TIMED, E::MACROS);
        let (input, output) = (memory.values(), memory.output());
        let last = theirs.at_width.len() - 1;
        for (at, theirs) in theirs.at_width.iter().enumerate() {
            let is_constant = at == 0 || at == last;
            let names = if is_constant {
                ["kernel:put_digits", "kernel:pack_differences"]
            } else {
                ["kernel_at_run:put_digits", "kernel_at_run:pack_differences"]
            };
            let width = theirs.width;
            let len = packed_len::<E>(width);
            let (f, g) = (ours.put_digits, theirs.put_digits);
            self.add(
                names[0],
                Some(width),
                memory,
                || calls!(f(width, input, len, output)),
                || calls!(g(input, output)),
            );
            if is_constant {
                let (f, g) = (ours.sum_digits, theirs.sum_digits);
                self.add(
                    "kernel:sum_digits",
                    Some(width),
                    memory,
                    || calls!(f, width, input, len, output => output.write(f(width, input, len))),
                    || calls!(g, input, output => output.write(g(input))),
                );
            }
            let (f, g) = (ours.pack_differences, theirs.pack_differences);
            self.add(
                names[1],
                Some(width),
                memory,
                || calls!(f(width, input, output, len)),
                || calls!(g(input, output)),
            );
        }
        let (f, g) = (ours.sum_places, theirs.sum_places);
        self.add(
            "kernel:sum_places",
            None,
            memory,
            || calls!(f, input, output => output.write(f(input))),
            || calls!(g, input, output => output.write(g(input))),
        );
    }

    /// Single digits, a call for each, in the order of places and in none, and chosen ones, by one call. The Rust crate's
    /// have the width at run time too.
    fn add_chosen<E: Element>(&mut self, memory: Memory<E>, width: usize) {
        let (ours, theirs) = (E::OURS, E::THEIRS);
        let (input, output, indices) = (memory.values(), memory.output(), memory.indices());
        let input_len = packed_len::<E>(width);

        let (f, g) = (ours.unpack_single, theirs.unpack_single);
        self.add(
            "unpack_single",
            Some(width),
            memory,
            || {
                calls!(f, width, input, input_len, output => for index in 0..1024 {
                    output.add(index).write(f(width, input, input_len, index))
                })
            },
            || {
                calls!(g, width, input, input_len, output => for index in 0..1024 {
                    output.add(index).write(g(width, from_raw_parts(input, input_len), index))
                })
            },
        );
        let places = memory.places();
        self.add(
            "unpack_single:random",
            Some(width),
            memory,
            || {
                calls!(f, width, input, input_len, places, output => for at in 0..PLACES {
                    let index = places.add(at).read() as usize;
                    output.add(at % 1024).write(f(width, input, input_len, index))
                })
            },
            || {
                calls!(g, width, input, input_len, places, output => for at in 0..PLACES {
                    let index = places.add(at).read() as usize;
                    output.add(at % 1024).write(g(width, from_raw_parts(input, input_len), index))
                })
            },
        );
        let (f, g) = (ours.unpack_indices, theirs.unpack_indices);
        self.add(
            "unpack_indices",
            Some(width),
            memory,
            || {
                calls!(f, width, input, input_len, indices, output => {
                    f(width, input, input_len, indices, CHOSEN, output, CHOSEN)
                })
            },
            || {
                calls!(g, width, input, input_len, indices, output => g(
                    width,
                    from_raw_parts(input, input_len),
                    from_raw_parts(indices, CHOSEN),
                    from_raw_parts_mut(output.cast::<MaybeUninit<E>>(), CHOSEN),
                ))
            },
        );
    }

    /// Blocks by their heads: the head of a block and its words, and the way back.
    fn add_frames<E: Element>(&mut self, memory: Memory<E>, width: usize) {
        let (ours, theirs) = (E::OURS, E::THEIRS);
        let (input, output, reference) = (memory.values(), memory.output(), memory.reference());
        let (reference_to, width_to) = (memory.output_reference(), memory.output_count());
        let input_len = packed_len::<E>(width);

        let (head, write, g) = (ours.frame_head, ours.for_pack, theirs.frame_write);
        self.add(
            "frame_write",
            Some(width),
            memory,
            || {
                calls!(head, write, input, output, reference_to, width_to => {
                    let width = head(input, reference_to);
                    write(width, input, reference_to.read(), output, packed_len::<E>(width));
                    width_to.write(width)
                })
            },
            || {
                calls!(g, input, output, reference_to, width_to => {
                    width_to.write(g(input, reference_to, output))
                })
            },
        );
        let (f, g) = (ours.unfor_pack, theirs.unchecked_unfor_pack);
        self.add(
            "frame_read",
            Some(width),
            memory,
            || calls!(f(width, input, input_len, reference, output)),
            || {
                calls!(g, width, input, input_len, reference, output => g(
                    width,
                    from_raw_parts(input, input_len),
                    reference,
                    from_raw_parts_mut(output, 1024),
                ))
            },
        );
    }

    /// Blocks as the differences of their neighbours, and the way back.
    fn add_neighbours<E: Element>(&mut self, memory: Memory<E>, width: usize) {
        let (ours, theirs) = (E::OURS, E::THEIRS);
        let (input, base, output) = (memory.values(), memory.base(), memory.output());
        let len = packed_len::<E>(width);

        let (f, g) = (ours.delta_write, theirs.delta_write);
        self.add(
            "delta_write",
            Some(width),
            memory,
            || calls!(f(width, input, base, output, len)),
            || calls!(g(width, input, base, output)),
        );
        let (f, g) = (ours.delta_read, theirs.delta_read);
        self.add(
            "delta_read",
            Some(width),
            memory,
            || calls!(f(width, input, len, base, output)),
            || calls!(g(width, input, base, output)),
        );
    }

    /// Values of a column by their numbers, where the caller keeps where each block's words begin.
    fn add_column<E: Element>(
        &mut self,
        name: &'static str,
        memory: Memory<E>,
        column: &'static Column<E>,
    ) {
        let (f, g) = (E::OURS.frame_get, E::THEIRS.frame_get);
        let output = memory.output();
        self.add(
            name,
            None,
            memory,
            || {
                calls!(f, column, output => for at in 0..GETS {
                    let (width, reference, words, index) = column.part(at);
                    output.add(at).write(f(width, reference, words.as_ptr(), words.len(), index))
                })
            },
            || {
                calls!(g, column, output => for at in 0..GETS {
                    let (width, reference, words, index) = column.part(at);
                    output.add(at).write(g(width, reference, words, index))
                })
            },
        );
    }

    /// A whole block of values to another.
    fn add_whole<E: Element>(&mut self, memory: Memory<E>) {
        let (ours, theirs) = (E::OURS, E::THEIRS);
        let (input, base, output) = (memory.values(), memory.base(), memory.output());

        let width_to = memory.output_count();
        let (f, g) = (ours.delta_width, theirs.delta_width);
        self.add(
            "delta_head",
            None,
            memory,
            || calls!(f, input, base, width_to => width_to.write(f(input, base))),
            || calls!(g, input, base, width_to => width_to.write(g(input, base))),
        );
        let (f, g) = (ours.delta, theirs.delta);
        self.add(
            "delta",
            None,
            memory,
            || calls!(f(input, base, output)),
            || calls!(g(input, base, output)),
        );
        let (f, g) = (ours.undelta, theirs.undelta);
        self.add(
            "undelta",
            None,
            memory,
            || calls!(f(input, base, output)),
            || calls!(g(input, base, output)),
        );
        let (f, g) = (ours.transpose, theirs.transpose);
        self.add(
            "transpose",
            None,
            memory,
            || calls!(f(input, output)),
            || calls!(g(input, output)),
        );
        let (f, g) = (ours.untranspose, theirs.untranspose);
        self.add(
            "untranspose",
            None,
            memory,
            || calls!(f(input, output)),
            || calls!(g(input, output)),
        );
    }

    /// A block of bits to another.
    fn add_bits<E: Element>(&mut self, memory: Memory<E>) {
        let (input, output) = (memory.bits(), memory.output_bits());

        let (f, g) = (E::OURS.transpose_bits, E::THEIRS.transpose_bits);
        self.add(
            "transpose_bits",
            None,
            memory,
            || calls!(f(input, output)),
            || calls!(g(input, output)),
        );
        if E::BITS == 64 {
            let f: unsafe extern "C" fn(*const u64, *mut u64) = ffi::fl_untranspose_bits_u64;
            let g = E::THEIRS.untranspose_bits;
            self.add(
                "untranspose_bits",
                None,
                memory,
                || calls!(f(input, output)),
                || calls!(g(input, output)),
            );
        }
    }

    /// Values to runs, and runs to values, by the two names. A value is that before it where `goes_on` says so.
    fn add_runs<E: Element>(
        &mut self,
        [encode, decode]: [&'static str; 2],
        goes_on: impl Fn(&mut Numbers) -> bool,
    ) {
        let memory = Memory::<E>::new(runs(4, goes_on));
        let (input, output, indexes) = (
            memory.values(),
            memory.output(),
            memory.output_run_indexes(),
        );
        let count_to = memory.output_count();
        let (f, g) = (E::OURS.rle_encode, E::THEIRS.rle_encode);
        self.add(
            encode,
            None,
            memory,
            || {
                calls!(f, input, output, indexes, count_to => {
                    count_to.write(f(input, output, indexes))
                })
            },
            || {
                calls!(g, input, output, indexes, count_to => {
                    count_to.write(g(input, output, indexes))
                })
            },
        );

        // SAFETY: the pointers are to parts of a `Memory`.
        let values_len = unsafe { g(input, output, indexes) };
        let memory = memory.with_outputs_as_inputs();
        let (values, indexes, output) = (memory.values(), memory.run_indexes(), memory.output());
        let (f, g) = (E::OURS.rle_decode, E::THEIRS.rle_decode);
        self.add(
            decode,
            None,
            memory,
            || calls!(f(values, values_len, indexes, output)),
            || {
                calls!(g, values, values_len, indexes, output => {
                    g(from_raw_parts(values, values_len), indexes, output)
                })
            },
        );
    }

    /// Runs to values, by these two. A value is that before it where `goes_on` says so.
    fn add_decoding<E: Element>(
        &mut self,
        name: &'static str,
        f: unsafe fn(*const E, usize, *const u16, *mut E),
        g: unsafe fn(*const E, usize, *const u16, *mut E),
        goes_on: impl Fn(&mut Numbers) -> bool,
    ) {
        let memory = Memory::<E>::new(runs(4, goes_on));
        // SAFETY: the pointers are to parts of a `Memory`.
        let values_len = unsafe {
            (E::THEIRS.rle_encode)(
                memory.values(),
                memory.output(),
                memory.output_run_indexes(),
            )
        };
        let memory = memory.with_outputs_as_inputs();
        let (values, indexes, output) = (memory.values(), memory.run_indexes(), memory.output());
        self.add(
            name,
            None,
            memory,
            || calls!(f(values, values_len, indexes, output)),
            || calls!(g(values, values_len, indexes, output)),
        );
    }

    /// Blocks whose runs a coin starts, one after another.
    fn add_fresh_runs<E: Element>(&mut self, name: &'static str) {
        let blocks: Vec<[E; 1024]> = (0..FRESH)
            .map(|block| runs(100 + block, |n| n.next() % 2 != 0))
            .collect();
        let blocks: &'static [[E; 1024]] = blocks.leak();
        let memory = Memory::<E>::new(blocks[0]);
        let (output, indexes) = (memory.output(), memory.output_run_indexes());
        let count_to = memory.output_count();
        let (f, g) = (E::OURS.rle_encode, E::THEIRS.rle_encode);
        self.add(
            name,
            None,
            memory,
            || {
                calls!(f, blocks, output, indexes, count_to => {
                    for input in blocks {
                        count_to.write(f(input.as_ptr(), output, indexes))
                    }
                })
            },
            || {
                calls!(g, blocks, output, indexes, count_to => {
                    for input in blocks {
                        count_to.write(g(input.as_ptr(), output, indexes))
                    }
                })
            },
        );
    }
}

/// The words of a block that is packed to the width.
fn packed_len<E: Element>(width: usize) -> usize {
    1024 / E::BITS * width
}

/// Copies 1024 elements.
unsafe fn copy_block<E: Element>(input: *const E, output: *mut E) {
    // SAFETY: the caller's pointers are to 1024 elements each.
    unsafe { output.copy_from_nonoverlapping(input, 1024) };
}
