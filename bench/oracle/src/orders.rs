//! The orders of rows and places.

use std::io;

use fastlanes::{FL_ORDER, transpose};

use crate::digest::Digest;
use crate::lines::{Case, Lines};
use crate::word::Word;

/// Prints the orders that no type has a part in.
pub fn print_orders(lines: &mut Lines) -> io::Result<()> {
    lines.put("fl_order", untyped("-"), numbers(FL_ORDER))?;
    let below = (0..1024).map(transpose);
    lines.put("transpose_idx", untyped("below1024"), numbers(below))?;
    let large = [1024, 1025, 12345, 1 << 32, usize::MAX - 1, usize::MAX].map(transpose);
    lines.put("transpose_idx", untyped("large"), numbers(large))
}

/// Prints the places of all rows, lane by lane.
pub fn print_walk<E: Word>(lines: &mut Lines) -> io::Result<()> {
    let mut places = Vec::new();
    for lane in 0..E::LANES {
        E::iterate_lane(lane, |place| places.push(place));
    }
    let case = Case {
        element: E::NAME,
        width: None,
        input: "-",
    };
    lines.put("iterate_lane", case, numbers(places))
}

/// The digest of numbers of eight bytes.
fn numbers(numbers: impl IntoIterator<Item = usize>) -> Digest {
    let mut digest = Digest::new();
    for number in numbers {
        digest.add(number as u64, 8);
    }
    digest
}

/// A call with neither a type nor a width.
fn untyped(input: &'static str) -> Case {
    Case {
        element: "-",
        width: None,
        input,
    }
}
