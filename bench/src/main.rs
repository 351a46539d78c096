//! Times the C functions of fastlanes_c beside the Rust crate fastlanes, and prints a line for each operation, element
//! type and width. `bench/run` builds this for each processor, and runs it.
//!
//! Each pass over the operations is a run of a program by itself. So passes lie apart in time, and what is written stands at
//! another place of a page in each. Where code stands alone can make a call slower by two fifths: so the program is built four
//! times, with all code moved by 16 bytes from one to the next, and the passes take turns. Of all passes the least time counts,
//! for either library.

mod ffi;
mod macros;
mod memory;
mod operations;
mod package;
mod rust_crate;
mod through_c;
mod timing;

use std::arch::global_asm;
use std::io::Write;
use std::path::PathBuf;
use std::process::{Command, ExitCode, Stdio};

use operations::{Operation, Table};
use timing::measure;

const USAGE: &str =
    "usage: bench [--quick] [--op PART] [--self | --through-c | --rust] [PROGRAM..]";

// What stands before all code, and so moves it: the linker takes sections of this name first.
global_asm!(
    ".pushsection .text.unlikely.bench, \"ax\", @progbits",
    ".globl before_all_code",
    "before_all_code:",
    concat!(".fill ", env!("BENCH_MOVED_BY"), ", 1, 0x90"),
    ".popsection",
);

unsafe extern "C" {
    fn before_all_code();
}

/// Keeps it in the program.
#[used]
static BEFORE_ALL_CODE: unsafe extern "C" fn() = before_all_code;

/// The rounds of a pass.
const ROUNDS: usize = 5;

#[derive(Default)]
struct Options {
    /// Few widths, few passes.
    quick: bool,
    /// What is in the names of the operations that are timed.
    part: String,
    /// The Rust crate beside itself.
    crate_alone: bool,
    /// Its block calls behind C functions, beside themselves at constant widths.
    through_c: bool,
    /// Programs over the package in rust/, and over the Rust crate.
    rust: bool,
    /// The number of a pass, if this process is one.
    pass: Option<usize>,
    /// The programs that passes take turns with; none for this one alone.
    programs: Vec<PathBuf>,
}

impl Options {
    /// The options that the words give; none if a word is not one.
    fn parse(words: &[String]) -> Option<Self> {
        let mut options = Options::default();
        let mut words = words.iter();
        while let Some(word) = words.next() {
            match word.as_str() {
                "--quick" => options.quick = true,
                "--op" => options.part = words.next()?.clone(),
                "--self" => options.crate_alone = true,
                "--through-c" => options.through_c = true,
                "--rust" => options.rust = true,
                "--pass" => options.pass = Some(words.next()?.parse().ok()?),
                word if word.starts_with('-') => return None,
                program => options.programs.push(program.into()),
            }
        }
        Some(options)
    }

    fn passes(&self) -> usize {
        if self.quick { 4 } else { 16 }
    }

    /// The widths that are timed of a type of so many bits.
    fn widths(&self, bits: u32) -> Vec<usize> {
        let bits = bits as usize;
        if self.quick {
            vec![1, 3, bits / 2, bits - 1, bits]
        } else {
            (0..=bits).collect()
        }
    }

    /// The operations that are timed, in order.
    fn operations(&self) -> Vec<Operation> {
        let mut table = Table {
            operations: Vec::new(),
            crate_alone: self.crate_alone,
            through_c: self.through_c,
            rust: self.rust,
        };
        table.add_element::<u8>(&self.widths(u8::BITS));
        table.add_element::<u16>(&self.widths(u16::BITS));
        table.add_element::<u32>(&self.widths(u32::BITS));
        table.add_element::<u64>(&self.widths(u64::BITS));
        let mut operations = table.operations;
        operations.retain(|operation| operation.name.contains(&self.part));
        operations.sort_by_key(|operation| (operation.name, operation.bits, operation.width));
        operations
    }
}

/// The times of one call by the library, by the Rust crate, and of a copy, in nanoseconds.
type Times = [f64; 3];

fn main() -> ExitCode {
    let words: Vec<String> = std::env::args().skip(1).collect();
    let Some(options) = Options::parse(&words) else {
        eprintln!("{USAGE}");
        return ExitCode::from(2);
    };
    memory::place_outputs(options.pass.unwrap_or(0));
    let operations = options.operations();
    if operations.is_empty() {
        eprintln!("bench: no operation has {} in its name", options.part);
        return ExitCode::from(2);
    }
    let done = if options.pass.is_some() {
        compare_and_time(operations)
    } else {
        run_passes(&options, &words, &operations)
    };
    match done {
        Ok(()) => ExitCode::SUCCESS,
        Err(reason) => {
            eprintln!("bench: {reason}");
            ExitCode::FAILURE
        }
    }
}

/// One pass: compares all answers, times all operations, and prints the three times of each.
fn compare_and_time(mut operations: Vec<Operation>) -> Result<(), String> {
    let mut differing = Vec::new();
    for operation in &mut operations {
        if !(operation.agree)(&mut operation.ours, &mut operation.theirs) {
            differing.push(label(operation));
        }
    }
    if !differing.is_empty() {
        let differing = differing.join("\n    ");
        return Err(format!(
            "other answers than the Rust crate's, by operation, type and width:\n    {differing}"
        ));
    }
    for operation in &mut operations {
        let calls = [
            &mut operation.ours,
            &mut operation.theirs,
            &mut operation.copy,
        ];
        let [ours, theirs, copy] = measure(calls, ROUNDS);
        println!("{ours} {theirs} {copy}");
    }
    Ok(())
}

/// All passes, each by a process of its own, and then the table.
fn run_passes(options: &Options, words: &[String], operations: &[Operation]) -> Result<(), String> {
    let mut programs = options.programs.clone();
    if programs.is_empty() {
        programs.push(std::env::current_exe().map_err(|error| error.to_string())?);
    }
    let mut least: Vec<Times> = vec![[f64::INFINITY; 3]; operations.len()];
    for pass in 1..=options.passes() {
        eprintln!("bench: pass {pass} of {}", options.passes());
        let output = Command::new(&programs[pass % programs.len()])
            .args(words)
            .args(["--pass", &pass.to_string()])
            .stderr(Stdio::inherit())
            .output()
            .map_err(|error| error.to_string())?;
        let text = String::from_utf8_lossy(&output.stdout);
        let times: Option<Vec<Times>> = text.lines().map(parse_times).collect();
        match times {
            Some(times) if output.status.success() && times.len() == least.len() => {
                for (least, time) in least.iter_mut().flatten().zip(times.iter().flatten()) {
                    *least = least.min(*time);
                }
            }
            _ => return Err(format!("pass {pass} failed: {}", output.status)),
        }
    }
    print_table(operations, &least).map_err(|error| error.to_string())
}

fn parse_times(line: &str) -> Option<Times> {
    let times: Result<Vec<f64>, _> = line.split(' ').map(str::parse).collect();
    times.ok()?.try_into().ok()
}

fn print_table(operations: &[Operation], least: &[Times]) -> std::io::Result<()> {
    let mut output = std::io::stdout().lock();
    writeln!(
        output,
        "operation,type,width,ours_ns,rust_ns,memcpy_ns,ratio_to_rust,ratio_to_memcpy"
    )?;
    for (operation, &[ours, theirs, copy]) in operations.iter().zip(least) {
        let numbers = [ours, theirs, copy, ours / theirs, ours / copy].map(four_digits);
        writeln!(output, "{},{}", label(operation), numbers.join(","))?;
    }
    Ok(())
}

/// The operation, its type, and its width if it has one.
fn label(operation: &Operation) -> String {
    let width = operation
        .width
        .map_or(String::new(), |width| width.to_string());
    format!("{},{},{width}", operation.name, operation.element)
}

/// A number above 0, rounded to four digits, or to a whole number if that has more.
fn four_digits(number: f64) -> String {
    let decimals = (3 - number.log10().floor() as i32).clamp(0, 9) as usize;
    format!("{number:.decimals$}")
}
