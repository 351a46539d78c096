//! The lines that are printed.

use std::io::{self, BufWriter, Stdout, Write};

use crate::digest::Digest;

/// What an operation is called with.
#[derive(Clone, Copy)]
pub struct Case {
    pub element: &'static str,
    pub width: Option<usize>,
    pub input: &'static str,
}

/// Lines on standard output.
pub struct Lines {
    output: BufWriter<Stdout>,
}

impl Lines {
    /// Nothing is printed yet.
    pub fn new() -> Self {
        Lines {
            output: BufWriter::new(io::stdout()),
        }
    }

    /// Prints the line of an operation.
    pub fn put(&mut self, operation: &str, case: Case, digest: Digest) -> io::Result<()> {
        let (element, input, hash) = (case.element, case.input, digest.hash());
        let width = case.width.map_or("-".into(), |width| width.to_string());
        writeln!(
            self.output,
            "{operation} {element} {width} {input} {hash:016x}"
        )
    }

    /// Hands all lines on.
    pub fn flush(&mut self) -> io::Result<()> {
        self.output.flush()
    }
}
