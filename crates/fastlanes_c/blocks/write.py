"""Writes the C functions (src/blocks.rt, src/comparisons.rt, src/columns.rt) from the templates beside this script, with the
proofs of those that the prover is slow to find. Writes those of crates/fastlanes_c_broad, the C header (with header.py and
header.txt), release/errors.c, and brings the declarations in rust/src/ffi.rs into line.

    python3 crates/fastlanes_c/blocks/write.py            writes the files that do not agree with the templates
    python3 crates/fastlanes_c/blocks/write.py --check    writes nothing; exits with 1 if there is such a file

A template has a head, a line `@`, and functions, which are written once for each element type. $E is the type, $Name its name
within another name, $T its bits and $LANES its lanes; $modulo is what a sum of packed values is reduced by (nothing if 64 bits
hold it), and $summed the words for that. The functions of comparisons.txt are written once for each value type $V: each element
type, and the signed type of the same size. There $integer is the integer that a packed value stands for, and $value the one that
the value is. A function's head is one line.
"""

import re
import sys
from pathlib import Path
from string import Template

import header

HERE = Path(__file__).resolve().parent
TOP = HERE.parents[2]
TEMPLATE = (HERE / "template.txt").read_text(encoding="utf-8")
COMPARISONS = (HERE / "comparisons.txt").read_text(encoding="utf-8")
COLUMNS = (HERE / "columns.txt").read_text(encoding="utf-8")
SIZES = (8, 16, 32, 64)


def laid_out(line):
    """The line as `rt fmt` has it: a head of more than 100 characters has each parameter on a line of its own."""
    head = re.fullmatch(r"(pub extern .*?\()(.*)(\).*)", line)
    if not head or len(line) <= 100:
        return line
    return "\n".join([head[1], *(f"    {parameter}," for parameter in head[2].split(", ")), head[3]])


def written(head, parts):
    """The text of a file: its head, and its parts with an empty line between them."""
    return "".join(laid_out(line) + "\n" for line in (head + "\n".join(parts)).splitlines())


def element(bits):
    """What stands for the words of a template at an element type."""
    sums = {"modulo": " % 2 ^ 64", "summed": ", modulo 2^64"} if bits == 64 else {"modulo": "", "summed": ""}
    return {"E": f"u{bits}", "Name": f"U{bits}", "T": bits, "LANES": 1024 // bits, **sums}


def for_elements(template):
    """The file of a template whose second part is written for each element type."""
    head, functions = template.split("@\n")
    return written(head, [in_rows(Template(functions).substitute(element(bits)), bits, ROWS.get(bits)) for bits in SIZES])


# The lemma of proofs/Numbers by which the call's promise is the C function's, where a search for it takes up to seven seconds: its
# name, how many numbers and lists it is of, the call, and which of its promises.
LEMMAS = {
    "pack": ("packed", 5, "pack_wide", "ensures.packed"),
    "for_pack": ("packed_frame", 6, "unchecked_for_pack", "ensures.packed"),
    "delta_write": ("packed_deltas", 6, "delta_write", "ensures.packed"),
    "unpack_blocks": ("unpacked_blocks", 6, "unpack_blocks", "ensures"),
}


def answers_of_comparisons(words):
    """The files of answers of the functions that compare with values of a type, by their paths. A value of a signed type is the integer
    that its bits stand for, by a lemma of the kit."""
    value, integer = words["V"], words["integer"]
    if value.startswith("i"):
        uses = "use Rattle.std.proofs.lemmas.Int.{to_z-of_z}\nuse Rattle.std.specs.Int.{cast_signed, w" + value[1:] + "}\n"
        number, same = f"(to_z-of_z w{value[1:]} c.args.value c.ranges.value)", "c.args.value"
    else:
        uses = "use Rattle.std.proofs.Common.{pos, refl}\n"
        number, same = "refl", "(pos c.args.value)"
    for name, lemma, call in (("cmp", "compared", "compare"), ("filter", "filtered", "filter")):
        yield f"crates/fastlanes_c/proofs/comparisons/fl_unpack_{name}_{value}/Answers.antt", f"""\
{uses}use Rattle.fastlanes_c.specs.Comparisons.{{comparison_of}}
use Rattle.fastlanes_c.proofs.Numbers.{{{lemma}}}
use Rattle.fastlanes_c.proofs.comparisons.fl_unpack_{name}_{value}.Goals as goal

pub returns : goal.returns
returns c =
    {lemma} _ _ _ {integer} c.numbered.result (comparison_of c.args.comparison) _ {same} _ _ c.numbered.ensures {number} c.{call}.ensures
"""


def answers():
    """The file of answers of each of these functions, by its path."""
    for name, (lemma, arguments, call, promise) in LEMMAS.items():
        for bits in SIZES:
            made = "at_width" if bits in ROWS and name in AT_WIDTH else call
            yield f"crates/fastlanes_c/proofs/blocks/fl_{name}_u{bits}/Answers.antt", f"""\
use Rattle.fastlanes_c.proofs.Numbers.{{{lemma}}}
use Rattle.fastlanes_c.proofs.blocks.fl_{name}_u{bits}.Goals as goal

pub returns : goal.returns
returns c = {lemma}{" _" * arguments} c.{made}.{promise}
"""
    for bits in SIZES:
        for words in value_types(bits):
            yield from answers_of_comparisons(words)
    for bits in SIZES:
        yield f"crates/fastlanes_c/proofs/columns/fl_column_encode_u{bits}/Answers.antt", f"""\
use Rattle.std.proofs.Common.{{take}}
use Rattle.fastlanes_format.specs.Format.{{page_bytes}}
use Rattle.fastlanes_c.proofs.Numbers.{{shortest}}
use Rattle.fastlanes_c.specs.Flags.{{is_for_only}}
use Rattle.fastlanes_c.proofs.columns.fl_column_encode_u{bits}.Goals as goal

pub returns-clause-shortest : goal.returns-clause-shortest
returns-clause-shortest c some page there =
    shortest {bits} (is_for_only c.args.flags) (page_bytes (take c.encode_within.result c.encode_within.new.bytes) page) c.args.values.now page
    (c.encode_within.ensures.shortest some page there)
"""


# Where C functions go by other rows at a width than those of WideRows: their vectors by the bits of an element. These are rows of 16
# bytes, one register of x86-64-v2 and of aarch64.
ROWS = {64: "u64x2"}
# The same in fastlanes_c_broad.
BROAD_ROWS = {32: "u32x16", 64: "u64x8"}
# What a call does at a width, by these rows; at the full width by the widest.
AT_WIDTH = {
    "pack": "Packing<{row}, {widest}>",
    "unpack": "Unpacking<{row}, {widest}>",
    "pack_blocks": "PackingBlocks<{row}, {widest}>",
    "unpack_blocks": "UnpackingBlocks<{row}, {widest}>",
    "for_pack": "Framing<{row}>",
    "unfor_pack": "Unframing<{row}>",
    "undelta_pack": "Summing<{row}>",
}
BROAD_HEAD = """\
//! C functions of `fastlanes_c` again, by rows of 64 bytes, two registers of x86-64-v3. In the library for that level they take the
//! place of those of the same names.
//!
//! Written by `../fastlanes_c/blocks/write.py` from its template, where changes are made.
#![tactic(auto)]

ghost use Rattle.std.specs.Prelude.{◌≡◌, ◌*◌, ◌≤◌, length};
ghost use Rattle.fastlanes.specs.Delta.{undeltas};
ghost use Rattle.fastlanes.specs.Frame.{framed, unframed};
ghost use Rattle.fastlanes_base.specs.Digits.{IsPacked, digits};
ghost use Rattle.fastlanes_blocks.specs.Blocks.{PacksBlocks, UnpacksBlocks};

use fastlanes::delta::Summing;
use fastlanes::ffor::{Framing, Unframing};
use fastlanes_blocks::blocks::{PackingBlocks, UnpackingBlocks};
use fastlanes_packing::bitpacking::{Packing, Unpacking};
use fastlanes_rows::width::{Apart, Widths};
use std::simd::prelude::*;

"""


def by_rows(call, bits, row):
    """A call of the template as what it does at a width by rows of this vector, with the words and what else it is given."""
    at_width = AT_WIDTH[call[1]].format(row=row, widest=f"u{bits}x{1024 // bits}")
    if call[1].endswith("_blocks"):
        width, count, read, written = call[2].split(", ")
        return f"u{bits}::at_width::<{at_width}, _, _>({width}, {read}, {count}, {written})"
    width, read, *other, written = call[2].split(", ")
    kind = f"&[u{bits}]" if other == ["base"] else "_"
    return f"u{bits}::at_width::<Apart<{at_width}>, {kind}, _>({', '.join([width, read, *(other or ['()']), written])})"


# An item with the comment above it, and the name of the C function that it is.
ITEM = re.compile(r"^///.*?^}\n", re.M | re.S)
NAME = re.compile(r"fn fl_(\w+)_(?:\$E|u\d+)\b")


def goes_by_rows(item):
    """Whether the item is a function that goes by a width."""
    name = NAME.search(item)
    return name is not None and name[1] in AT_WIDTH


def in_rows(text, bits, row):
    """The text with its functions that go by a width over rows of this vector, where there is one."""
    call = re.compile(r"(?:u\d+::)?(?:unchecked_)?(\w+?)(?:_wide|::<u\d+>)?\((.*)\);")

    def changed(item):
        return call.sub(lambda it: by_rows(it, bits, row) + ";", item[0]) if row and goes_by_rows(item[0]) else item[0]

    return ITEM.sub(changed, text)


def broad_functions():
    """The file of the crate whose C functions go by broader rows."""
    wanted = "\n".join(it for it in ITEM.findall(TEMPLATE) if "struct Packed" in it or goes_by_rows(it))
    return written(BROAD_HEAD, [in_rows(Template(wanted).substitute(element(bits)), bits, row) for bits, row in BROAD_ROWS.items()])


def value_types(bits):
    """What stands for the further words of a template at the two types of values."""
    yield {"V": f"u{bits}", "integer": "pos", "value": "(pos value)"}
    yield {"V": f"i{bits}", "integer": f"(cast_signed w{bits})", "value": "value"}


def comparisons():
    """The file of the C functions that compare."""
    head, functions = COMPARISONS.split("@\n")
    return written(head, [Template(functions).substitute(element(bits) | words) for bits in SIZES for words in value_types(bits)])


# A packed block is a struct of a slice, which is passed by value, and so in two registers, as two parameters are. It would go
# through memory where fewer of the registers for parameters are left.
PACKED = {"Packed$Name": "&[$E]", "PackedMut$Name": "&mut [$E]"}
REGISTERS = 6


def c_parameters(parameters):
    """The name, the pointer and the type of each parameter that C sees: a slice is two, the second its length."""
    seen = 0
    for name, form in (parameter.split(": ") for parameter in parameters.split(", ")):
        if form in PACKED and seen + 2 > REGISTERS:
            sys.exit(f"write.py: no two registers are left for {name} in ({parameters})")
        form = PACKED.get(form, form).replace("'a ", "")
        borrowed = re.fullmatch(r"&(mut )?(?:\[(.+?)(; .+)?\]|(.+))", form)
        seen += 1
        if not borrowed:
            yield name, "", form
            continue
        mutable, element, length, single = borrowed.groups()
        yield name, "*mut " if mutable else "*const ", single or element
        if not length and not single:
            seen += 1
            yield f"{name}_len", "", "usize"


ALL = TEMPLATE + COMPARISONS + COLUMNS
FUNCTIONS = {
    name: (list(c_parameters(parameters)), result)
    for name, parameters, result in re.findall(r'extern "C" fn fl_(\w+)_\$[EV](?:<\'a>)?\((.*)\)(?: -> (.+))?', ALL)
}
# What C keeps of an opened column.
OPENED = ("Opened", "Opened<'a>")


def in_rust(found):
    parameters, result = FUNCTIONS[found[2]]
    declared = ", ".join(f"{name}: {pointer}{'CColumn' if form in OPENED else form}" for name, pointer, form in parameters)
    return f"{found[1]}({declared})" + (f" -> {result}" if result else "")


def one_line(text):
    """The text without its line breaks, and without what they need in Rust."""
    return re.sub(r"\s*\n\s*", " ", text).replace("( ", "(").replace(", )", ")")


def rust_declarations():
    """rust/src/ffi.rs with each declaration as it should be. The rest of it is written by hand, and line breaks stay."""

    def right(found):
        declared = in_rust(found)
        return found[0] if one_line(found[0]) == one_line(declared) else declared

    pattern = r'(concat!\("fl_(\w+)_", .*\s+fn \w+)\([^)]*\)[^;]*'
    return re.sub(pattern, right, (TOP / "rust/src/ffi.rs").read_text(encoding="utf-8"))


def main(words):
    if words not in ([], ["--check"]):
        print(__doc__)
        return 2
    sources = {"blocks": for_elements(TEMPLATE), "comparisons": comparisons(), "columns": for_elements(COLUMNS)}
    wanted = {f"crates/fastlanes_c/src/{name}.rt": text for name, text in sources.items()}
    wanted["crates/fastlanes_c_broad/src/lib.rt"] = broad_functions()
    wanted["rust/src/ffi.rs"] = rust_declarations()
    wanted |= answers()
    wanted |= header.files()
    failed = 0
    for name, text in wanted.items():
        path = TOP / name
        if path.exists() and path.read_bytes() == text.encode():
            print(f"ok {name} agrees with the templates of the C functions")
        elif words:
            print(f"{name} does not agree with the templates in crates/fastlanes_c/blocks")
            failed = 1
        else:
            path.parent.mkdir(parents=True, exist_ok=True)
            path.write_bytes(text.encode())
            print(f"{name}: written")
    return failed


if __name__ == "__main__":
    sys.exit(main(sys.argv[1:]))
