"""Writes what each error of the format says, for the program `flcolumn` and for the Rust package, from the table errors.txt beside this
script: crates/flcolumn/src/failure/texts.rt and rust/src/column/messages.rs. Of C it writes nothing: that is the work of
crates/fastlanes_c/blocks/write.py.

    python3 crates/fastlanes_format/write_errors.py            writes the files that do not agree with the table
    python3 crates/fastlanes_format/write_errors.py --check    writes nothing; ends with 1 if there is such a file

The table has a line for each error, in the order of the numbers from 0 on, and five columns with a tab between them: the number in C,
the name there without FL_ERR_, the variant of `Flaw` in Rattle, the variant of `FormatErrorKind` in Rust, and the text. A variant `-`
is none. Texts are in lower case, without a full stop, and hold neither quotes nor backslashes, since they stand in code.
"""

import re
import sys
from pathlib import Path

HERE = Path(__file__).resolve().parent
TOP = HERE.parents[1]
TEXTS = """\
//! What is wrong with the bytes of a column, in words.
//!
//! Written by `crates/fastlanes_format/write_errors.py` from the table beside it, where changes are made.

use fastlanes_column_streams::Flaw;

/// What is wrong with the bytes of a column.
pub(crate) fn flaw_text(flaw: Flaw) -> &'static str {
    match flaw {
%s    }
}
"""
MESSAGES = """\
//! What each kind of error says, and its number in C.
//!
//! Written by `crates/fastlanes_format/write_errors.py` from the table beside it, where changes are made.

use super::FormatErrorKind;

/// What an error of this kind says.
pub(super) fn message(kind: FormatErrorKind) -> &'static str {
    match kind {
%s    }
}

/// The kind of error that has this number in C, if there is one.
pub(super) fn kind_of(number: u32) -> Option<FormatErrorKind> {
    match number {
%s        _ => None,
    }
}
"""


def errors():
    """The rows of the table: the number, the name in C, the variants in Rattle and in Rust, and the text. Ends where one is not as it
    should be."""
    rows = [line.split("\t") for line in (HERE / "errors.txt").read_text(encoding="utf-8").splitlines()]
    for number, row in enumerate(rows):
        if len(row) != 5 or row[0] != str(number) or not re.fullmatch(r"[^A-Z\"\\.][^\"\\]*[^\"\\.]", row[4]):
            sys.exit(f"write_errors.py: the row of number {number} is not as it should be: {row}")
    return rows


def main(words):
    if words not in ([], ["--check"]):
        print(__doc__)
        return 2
    rows = errors()
    in_rattle = "".join(f'        Flaw::{flaw} => "{text}",\n' for _, _, flaw, _, text in rows if flaw != "-")
    in_rust = "".join(f'        FormatErrorKind::{kind} => "{text}",\n' for _, _, _, kind, text in rows if kind != "-")
    numbers = "".join(f"        {number} => Some(FormatErrorKind::{kind}),\n" for number, _, _, kind, _ in rows if kind != "-")
    wanted = {"crates/flcolumn/src/failure/texts.rt": TEXTS % in_rattle, "rust/src/column/messages.rs": MESSAGES % (in_rust, numbers)}
    failed = 0
    for name, text in wanted.items():
        path = TOP / name
        if path.exists() and path.read_bytes() == text.encode():
            print(f"ok {name} agrees with the table of errors")
        elif words:
            print(f"{name} does not agree with the table in crates/fastlanes_format")
            failed = 1
        else:
            path.write_bytes(text.encode())
            print(f"{name}: written")
    return failed


if __name__ == "__main__":
    sys.exit(main(sys.argv[1:]))
