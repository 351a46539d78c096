//! The memory that the timed calls read and write, and what stands in it.

use std::ptr::addr_of_mut;
use std::sync::atomic::{AtomicUsize, Ordering};

use crate::operations::Element;

const PAGE: usize = 4096;

/// How many values `unpack_indices` reads.
pub const CHOSEN: usize = 100;

/// How many single values are read in no order, so that a processor can't learn which of them are in two words.
pub const PLACES: usize = 16384;

/// How many values of a column are read in a call.
pub const GETS: usize = 64;

/// How many blocks are encoded in a call, so that a processor can't learn where their runs start.
pub const FRESH: u64 = 64;

/// What is read. Packed words are the first of `values`, the base of each lane the first of `base`.
#[repr(C, align(4096))]
struct Inputs<E> {
    values: [E; 1024],
    base: [E; 128],
    bits: [u64; 16],
    indices: [usize; CHOSEN],
    places: [u16; PLACES],
    run_indexes: [u16; 1024],
}

/// What is written, by each call a part.
#[repr(C, align(64))]
#[derive(Clone, PartialEq)]
pub struct Outputs<E> {
    values: [E; 1024],
    bits: [u64; 16],
    run_indexes: [u16; 1024],
    count: usize,
    reference: E,
}

/// A page, in which the outputs begin, and room for them behind it.
#[repr(C, align(4096))]
struct Room<E> {
    page: [u8; PAGE],
    outputs: Outputs<E>,
}

/// Inputs and outputs that stay to the program's end, small enough for the first-level cache.
#[derive(Clone, Copy)]
pub struct Memory<E> {
    inputs: *mut Inputs<E>,
    outputs: *mut Outputs<E>,
}

/// How far into a page the outputs of new memory begin.
static OUTPUTS_BEGIN_AT: AtomicUsize = AtomicUsize::new(0);

/// Places the outputs of new memory for a pass, in each at another of the page's lines of the cache. Inputs stand at its start.
///
/// A load waits for a store before it that has the same place in another page. So one place for all passes would favour the
/// library whose order of loads and stores happens to suit it.
pub fn place_outputs(pass: usize) {
    const STEP: usize = 13 * 64;
    OUTPUTS_BEGIN_AT.store(pass * STEP % PAGE, Ordering::Relaxed);
}

impl<E: Element> Outputs<E> {
    /// As they are before a call whose answer is looked at.
    fn fresh() -> Self {
        Outputs {
            values: [E::from_number(0xa5a5_a5a5_a5a5_a5a5); 1024],
            bits: [0xa5a5_a5a5_a5a5_a5a5; 16],
            run_indexes: [0xa5a5; 1024],
            count: 0xa5a5,
            reference: E::from_number(0xa5a5_a5a5_a5a5_a5a5),
        }
    }
}

impl<E: Element> Memory<E> {
    /// New memory with these values, and with other inputs that look random.
    pub fn new(values: [E; 1024]) -> Self {
        let mut numbers = Numbers::new(2);
        Self::with_inputs(Inputs {
            values,
            base: std::array::from_fn(|_| E::from_number(numbers.next())),
            bits: std::array::from_fn(|_| numbers.next()),
            indices: std::array::from_fn(|_| numbers.next() as usize % 1024),
            places: std::array::from_fn(|_| (numbers.next() % 1024) as u16),
            run_indexes: [0; 1024],
        })
    }

    fn with_inputs(inputs: Inputs<E>) -> Self {
        let room = Box::into_raw(Box::new(Room::<E> {
            page: [0; PAGE],
            outputs: Outputs::fresh(),
        }));
        // SAFETY: this is a place in the room's page, so that outputs from there on end in the room, and a multiple of their
        // alignment.
        let outputs = unsafe {
            room.cast::<u8>()
                .add(OUTPUTS_BEGIN_AT.load(Ordering::Relaxed))
                .cast()
        };
        Memory {
            inputs: Box::into_raw(Box::new(inputs)),
            outputs,
        }
    }

    /// New memory whose values and indexes of runs are what was written here.
    pub fn with_outputs_as_inputs(self) -> Self {
        // SAFETY: the memory is never given back, and no reference into it outlives a call.
        let outputs = unsafe { (*self.outputs).clone() };
        let memory = Self::new(outputs.values);
        // SAFETY: as above.
        unsafe { (*memory.inputs).run_indexes = outputs.run_indexes };
        memory
    }

    /// All outputs after one call, which finds them fresh.
    pub fn written_by(self, call: impl FnOnce()) -> Outputs<E> {
        // SAFETY: the memory is never given back, and no reference into it outlives a call.
        unsafe { self.outputs.write(Outputs::fresh()) };
        call();
        // SAFETY: as above.
        unsafe { (*self.outputs).clone() }
    }
}

macro_rules! pointers {
    ($($name:ident: $part:ident.$field:ident as $pointer:ty;)*) => {
        impl<E: Element> Memory<E> {
            $(pub fn $name(self) -> $pointer {
                // SAFETY: the memory is never given back.
                unsafe { addr_of_mut!((*self.$part).$field).cast() }
            })*
        }
    };
}

pointers! {
    values: inputs.values as *const E;
    base: inputs.base as *const E;
    bits: inputs.bits as *const u64;
    indices: inputs.indices as *const usize;
    places: inputs.places as *const u16;
    run_indexes: inputs.run_indexes as *const u16;
    output: outputs.values as *mut E;
    output_bits: outputs.bits as *mut u64;
    output_run_indexes: outputs.run_indexes as *mut u16;
    output_count: outputs.count as *mut usize;
    output_reference: outputs.reference as *mut E;
}

impl<E: Element> Memory<E> {
    /// A reference for `for_pack` and `unfor_pack`.
    pub fn reference(self) -> E {
        E::from_number(Numbers::new(3).next())
    }
}

/// Blocks one after another, with widths from 0 to 8, whose words look random; and numbers of values that are read.
pub struct Column<E> {
    /// The width, the reference and the first word of each block.
    heads: Vec<(usize, E, usize)>,
    words: Vec<E>,
    numbers: [usize; GETS],
}

impl<E: Element> Column<E> {
    /// A new column, which stays to the program's end.
    pub fn new(blocks: usize) -> &'static Self {
        let mut numbers = Numbers::new(6);
        let mut len = 0;
        let heads = (0..blocks).map(|_| {
            let (width, start) = (numbers.next() as usize % 9, len);
            len += 1024 / E::BITS * width;
            (width, E::from_number(numbers.next()), start)
        });
        let heads = heads.collect();
        Box::leak(Box::new(Column {
            heads,
            words: (0..len).map(|_| E::from_number(numbers.next())).collect(),
            numbers: std::array::from_fn(|_| numbers.next() as usize % (1024 * blocks)),
        }))
    }

    /// The width, the reference and the words of the block of one of the numbers, and the place of its value there.
    pub fn part(&self, at: usize) -> (usize, E, &[E], usize) {
        let number = self.numbers[at];
        let (width, reference, start) = self.heads[number / 1024];
        let words = &self.words[start..][..1024 / E::BITS * width];
        (width, reference, words, number % 1024)
    }
}

/// Numbers that look random, in each run the same: the generator splitmix64.
pub struct Numbers(u64);

impl Numbers {
    pub fn new(seed: u64) -> Self {
        Numbers(seed)
    }

    pub fn next(&mut self) -> u64 {
        self.0 = self.0.wrapping_add(0x9e37_79b9_7f4a_7c15);
        let mut number = self.0;
        number = (number ^ (number >> 30)).wrapping_mul(0xbf58_476d_1ce4_e5b9);
        number = (number ^ (number >> 27)).wrapping_mul(0x94d0_49bb_1331_11eb);
        number ^ (number >> 31)
    }
}

/// Values of which the greatest lies 2^width - 1 above the least.
pub fn frame<E: Element>(width: usize) -> [E; 1024] {
    let greatest = if width == 0 {
        0
    } else {
        u64::MAX >> (64 - width)
    };
    let least = (u64::MAX >> (64 - E::BITS)) / 3 & !greatest;
    let mut numbers = Numbers::new(5);
    std::array::from_fn(|place| {
        let above = match place {
            700 => 0,
            900 => greatest,
            _ => numbers.next() & greatest,
        };
        E::from_number(least + above)
    })
}

/// Values in runs: each is that before it where `goes_on` says so, else another.
pub fn runs<E: Element>(seed: u64, goes_on: impl Fn(&mut Numbers) -> bool) -> [E; 1024] {
    let mut numbers = Numbers::new(seed);
    let mut value = E::from_number(numbers.next());
    std::array::from_fn(|_| {
        if !goes_on(&mut numbers) {
            let before = value;
            while value == before {
                value = E::from_number(numbers.next());
            }
        }
        value
    })
}
