//! Prints a line `operation type width input digest` for each public operation of the Rust crate fastlanes, element type,
//! width and fixed input, always the same. The digest is that of the output's bytes, the lowest byte of each number first.
//! `-` stands where an operation has no type, width or input.
//!
//! The module `vectors` of the tests of `crates/suite` works out the same digests of the port, and its files have the names of
//! those here.

mod blocks;
mod calls;
mod digest;
mod input;
mod lines;
mod orders;
mod packed;
mod word;
mod written;

use std::io;

use crate::blocks::{print_blocks, print_runs};
use crate::input::{BLOCKS, RUNS};
use crate::lines::Lines;
use crate::orders::{print_orders, print_walk};
use crate::packed::print_packed;
use crate::word::{Value, Word};

fn main() -> io::Result<()> {
    let mut lines = Lines::new();
    print_orders(&mut lines)?;
    print_type::<u8, i8, 128>(&mut lines)?;
    print_type::<u16, i16, 64>(&mut lines)?;
    print_type::<u32, i32, 32>(&mut lines)?;
    print_type::<u64, i64, 16>(&mut lines)?;
    lines.flush()
}

/// Prints what the operations give at an element type `E`, of which `V` is the signed one.
fn print_type<E: Word, V: Value<E>, const LANES: usize>(lines: &mut Lines) -> io::Result<()> {
    for width in 0..=E::T {
        for input in BLOCKS {
            print_packed::<E, V, LANES>(lines, width, input)?;
        }
    }
    print_walk::<E>(lines)?;
    for input in BLOCKS {
        print_blocks::<E, LANES>(lines, input)?;
    }
    for input in RUNS {
        print_runs::<E>(lines, input)?;
    }
    Ok(())
}
