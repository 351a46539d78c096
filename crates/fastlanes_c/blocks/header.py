"""Writes include/fastlanes.h, include/fastlanes_checked.h and release/errors.c from the templates of the C functions, header.txt and
crates/fastlanes_format/errors.txt. write.py calls it."""

import re
from pathlib import Path
from string import Template

HERE = Path(__file__).resolve().parent
TOP = HERE.parents[2]
SIZES = (8, 16, 32, 64)
WIDTH = 120
# The headings of the header, by the first function below each.
HEADINGS = {
    "pack": "Bit-packing",
    "for_pack": "Frame of reference (FOR)",
    "delta": "Delta encoding",
    "transpose": "Transposition",
    "rle_encode": "Run-length and dictionary encoding",
    "unpack_cmp": "Comparison",
    "column_encode_bound": "Encoded columns",
}
# A clause that a call requires, as a condition of C, and as text if that is not the condition.
CONDITIONS = {
    "width ≤ $T": ("width <= $T",),
    "length output.words.now ≡ $LANES * width": ("output_len == $LANES * width",),
    "length input.words.now ≡ $LANES * width": ("input_len == $LANES * width",),
    "length input.now ≡ 1024 * count": ("fl_is_product(input_len, 1024, count)", "input_len == 1024 * count"),
    "length output.old ≡ 1024 * count": ("fl_is_product(output_len, 1024, count)", "output_len == 1024 * count"),
    "length input.now ≡ $LANES * width * count": ("fl_is_product(input_len, $LANES * width, count)", "input_len == $LANES * width * count"),
    "length output.old ≡ $LANES * width * count": ("fl_is_product(output_len, $LANES * width, count)", "output_len == $LANES * width * count"),
    "length output.old ≡ length indices.now": ("output_len == indices_len",),
    "index < 1024": ("index < 1024",),
    "0 < width → index < 1024": ("width == 0 || index < 1024",),
    "0 < width → All (λ i. i < 1024) indices.now": (
        "width == 0 || fl_are_below(indices, indices_len, 1024)",
        "width == 0 || indices[k] < 1024 for each k",
    ),
    "All (λ index. index < length values.now) indices.now": (
        "fl_are_below_16(indices, 1024, values_len)",
        "indices[k] < values_len for each k",
    ),
    "comparison < 6": ("comparison <= FL_GE",),
    "IsOpened $T column.now": ("fl_is_open(column->bytes, column->bytes_len, $T)", "column was filled by fl_column_open_$E"),
    "index < length (column_values $T $LANES column.now.bytes.now)": ("index < column->len", "index < fl_column_len_$E(column)"),
    "start + length values.old ≤ length (column_values $T $LANES column.now.bytes.now)": (
        "start <= column->len && values_len <= column->len - start",
        "start + values_len <= fl_column_len_$E(column)",
    ),
    "length mask.old ≡ (length (column_values $T $LANES column.now.bytes.now) + 63) / 64": (
        "mask_len == column->len / 64 + (column->len % 64 != 0)",
        "mask_len == (fl_column_len_$E(column) + 63) / 64",
    ),
}
STRUCT = """\
/** An opened column. Its members are private; initialize it to {0}. */
typedef struct {
    const uint8_t *bytes;
    size_t bytes_len;
    uint64_t len;
    size_t stride, starts[256];
} fl_column_$E;
"""
CHECKED_HEAD = """\
/*
 * Checks the preconditions of each call of fastlanes.h, which includes this file with -DFASTLANES_CHECKED. A call that breaks one
 * prints a line to standard error that names the call and the condition, and aborts.
 */
#ifndef FASTLANES_CHECKED_H
#define FASTLANES_CHECKED_H

#include <stdio.h>
#include <stdlib.h>

static inline void fl_require(int holds, const char *call, const char *condition) {
    if (holds) return;
    fprintf(stderr, "%s requires: %s\\n", call, condition);
    abort();
}

static inline int fl_is_aligned(const void *at, size_t size) { return (uintptr_t)at % size == 0; }

static inline int fl_is_apart(const void *one, size_t one_size, const void *other, size_t other_size) {
    uintptr_t a = (uintptr_t)one, b = (uintptr_t)other;
    return !one_size || !other_size || (a < b ? b - a >= one_size : a - b >= other_size);
}

static inline int fl_is_product(size_t product, size_t factor, size_t count) {
    return factor ? product % factor == 0 && product / factor == count : product == 0;
}

static inline int fl_are_below(const size_t *indices, size_t indices_len, size_t bound) {
    for (size_t k = 0; k < indices_len; k++)
        if (indices[k] >= bound) return 0;
    return 1;
}

static inline int fl_are_below_16(const uint16_t *indices, size_t indices_len, size_t bound) {
    for (size_t k = 0; k < indices_len; k++)
        if (indices[k] >= bound) return 0;
    return 1;
}

static inline int fl_is_open(const uint8_t *bytes, size_t bytes_len, unsigned bits) {
    return bytes != NULL && bytes_len >= 32 && bytes[4] == bits;
}
"""
ERRORS_C = """\
/* The descriptions of errors. Written by crates/fastlanes_c/blocks/write.py from crates/fastlanes_format/errors.txt. It includes no
   header, so that a compiler without a C library builds it. */
const char *fl_column_error_string(unsigned error);

static const char *const texts[] = {
$texts
};

const char *fl_column_error_string(unsigned error) {
    return error < sizeof texts / sizeof *texts ? texts[error] : "unknown error";
}
"""


def errors():
    """The errors: of each its number, its name in C and its text."""
    lines = (TOP / "crates/fastlanes_format/errors.txt").read_text(encoding="utf-8").splitlines()
    rows = [line.split("\t") for line in lines if line and not line.startswith("#")]
    return [(int(row[0]), row[1], row[-1]) for row in rows]


class Function:
    """A C function of a template: its comment, its parameters, its result, and the clauses that it requires."""

    ITEM = re.compile(
        r"((?:^///.*\n)+)#\[unsafe\(no_mangle\)\]\npub extern \"C\" fn fl_(\w+)_\$([EV])(?:<'a>)?\((.*)\)(?: -> (.+))?\n((?: +.*\n)*){\n", re.M
    )

    def __init__(self, found):
        comment, self.name, self.suffix, parameters, self.result, clauses = found
        self.comment = " ".join(line[4:] for line in comment.splitlines())
        self.parameters = [parameter.split(": ") for parameter in parameters.split(", ")]
        self.clauses = re.findall(r"requires (?:\w+ )?{ (.*) }", clauses)


def functions(template):
    """The C functions of a template."""
    return [Function(found) for found in Function.ITEM.findall((HERE / template).read_text(encoding="utf-8"))]


def c_type(form, words):
    """The C type of a number, by its type in Rattle."""
    form = {"$E": words["E"], "$V": words.get("V")}.get(form, form)
    return {"usize": "size_t", "": "void"}.get(form) or re.sub(r"^([iu])(\d+)$", lambda it: f"{'u' if it[1] == 'u' else ''}int{it[2]}_t", form)


def pointers(function, words):
    """The pointers that a call passes: the name, whether it is written to, the element's C type, and the number of elements, as C."""
    for name, form in function.parameters:
        if form in ("Packed$Name", "PackedMut$Name"):
            yield name, "Mut" in form, c_type("$E", words), f"{name}_len"
        elif "Opened" in form:
            yield name, form.startswith("&mut"), f"fl_column_{words['E']}", "1"
        elif found := re.fullmatch(r"&(?:'a )?(mut )?(?:\[(.+?)(?:; (.+))?\]|(.+))", form):
            length = found[3] or ("1" if found[4] else f"{name}_len")
            yield name, bool(found[1]), c_type(found[2] or found[4], words), length.replace("$LANES", str(words["LANES"]))


def declared(function, words):
    """The parameters of a function in C, and the names that a call passes."""
    found = {name: (mutable, element, length) for name, mutable, element, length in pointers(function, words)}
    parameters, passed = [], []
    for name, form in function.parameters:
        passed.append(name)
        if name not in found:
            parameters.append(f"{c_type(form, words)} {name}")
            continue
        mutable, element, length = found[name]
        constant = "" if mutable else "const "
        if length == f"{name}_len":
            parameters += [f"{constant}{element} *{name}", f"size_t {length}"]
            passed.append(length)
        else:
            parameters.append(f"{constant}{element} " + (f"*{name}" if length == "1" else f"{name}[{length}]"))
    return parameters, passed


def named(function, words):
    """The name of a function for a type."""
    return f"fl_{function.name}_{words[function.suffix]}"


def wrapped(words, first, rest, width=WIDTH):
    """Lines of these words, which are not broken, each with what begins it."""
    lines, line = [], first
    for word in words:
        if len(line) + len(word) > width:
            lines.append(line.rstrip())
            line = rest
        line += word + " "
    return "\n".join([*lines, line.rstrip()])


def conditions(function, words):
    """The conditions of a call that its clauses state, as C and as text."""
    for clause in function.clauses:
        if clause not in CONDITIONS:
            raise SystemExit(f"header.py: no condition of C for the clause `{clause}` of fl_{function.name}")
        found = [Template(it).substitute(words) for it in CONDITIONS[clause]]
        yield found[0], found[-1]


def prototype(function, words):
    """The declaration of a function with its comment."""
    text = Template(function.comment).substitute(words)
    text = re.sub(r"`([iu]\d+)`", lambda it: f"`{c_type(it[1], words)}`", text)
    if required := [condition for _, condition in conditions(function, words)]:
        *first, last = [it if " was " in it else f"`{it}`" for it in required]
        text += " Requires " + ", ".join(first) + (" and " if first else "") + last + "."
    comment = wrapped(re.findall(r"`[^`]*`\S*|\S+", text), " * ", " * ")
    if len(comment) <= WIDTH - 4 and "\n" not in comment:
        comment = f"/** {comment[3:]} */"
    else:
        comment = f"/**\n{comment}\n */"
    parameters, _ = declared(function, words)
    head = f"{c_type(function.result, words)} {named(function, words)}("
    line = head + ", ".join(parameters) + ");"
    if len(line) > WIDTH:
        line = wrapped([it + "," for it in parameters[:-1]] + [parameters[-1] + ");"], head, " " * len(head))
    return f"{comment}\n{line}\n"


def checks(function, words):
    """The checks of a call, as C: of its pointers, of its conditions, and that what it writes overlaps nothing."""
    call, found = named(function, words), list(pointers(function, words))
    for name, _, element, length in found:
        is_null = f"{name} != NULL" + (f" || {length} == 0" if length.endswith("_len") else "")
        yield f'fl_require({is_null}, "{call}", "{name} is not null");'
        if element != "uint8_t":
            size = "sizeof(void *)" if element.startswith("fl_") else f"sizeof({element})"
            yield f'fl_require(fl_is_aligned({name}, {size}), "{call}", "{name} is aligned");'
    for condition, text in conditions(function, words):
        yield f'fl_require({condition}, "{call}", "{text}");'
    regions = [(name, mutable, name, f"{length} * sizeof({element})" if length != "1" else f"sizeof({element})") for name, mutable, element, length in found]
    if any("Opened" in form and not form.startswith("&mut") for _, form in function.parameters):
        regions.append(("the bytes of column", False, "column->bytes", "column->bytes_len"))
    for at, (name, mutable, start, size) in enumerate(regions):
        for other, other_mutable, other_start, other_size in regions[at + 1 :]:
            if mutable or other_mutable:
                yield f'fl_require(fl_is_apart({start}, {size}, {other_start}, {other_size}), "{call}", "{name} does not overlap {other}");'


def wrapper(function, words):
    """The inline function that checks a call before it makes it, and takes its name."""
    parameters, passed = declared(function, words)
    call = named(function, words)
    lines = list(checks(function, words))
    if not lines:
        return ""
    head = f"static inline {c_type(function.result, words)} {call.replace('fl_', 'fl_checked_', 1)}({', '.join(parameters)}) {{"
    body = "".join(f"    {line}\n" for line in lines)
    result = "return " if function.result else ""
    return f"{head}\n{body}    {result}{call}({', '.join(passed)});\n}}\n#define {call} {call.replace('fl_', 'fl_checked_', 1)}\n"


def element(bits):
    """What stands for the words of a template at an element type."""
    words = {"E": f"u{bits}", "V": f"u{bits}", "T": str(bits), "LANES": str(1024 // bits)}
    return words | {"summed": ", modulo 2^64" if bits == 64 else ""}


def of_type(write):
    """What this writes of each function, of each type."""
    for bits in SIZES:
        words = element(bits)
        yield f"\n/* Values of type uint{bits}_t: blocks of {words['LANES']} lanes of {bits} rows. */\n"
        for template in ("template.txt", "comparisons.txt", "columns.txt"):
            for value in (f"u{bits}", f"i{bits}") if template == "comparisons.txt" else (f"u{bits}",):
                for function in functions(template):
                    yield write(function, words | {"V": value})


def with_heading(function, words):
    """The declaration of a function, below the heading that begins with it."""
    heading = HEADINGS.get(function.name) if words["V"] == words["E"] else None
    struct = Template(STRUCT).substitute(words) + "\n" if function.name == "column_open" else ""
    return (f"/* {heading} */\n\n" if heading else "") + struct + prototype(function, words)


def files():
    """The text of each file, by its path."""
    found = errors()
    listed = "\n".join(f"    FL_ERR_{name} = {number}," for number, name, _ in found).rstrip(",")
    text = (HERE / "header.txt").read_text(encoding="utf-8")
    text = text.replace("@errors", listed).replace("@functions\n", "\n".join(of_type(with_heading)).replace("\n\n\n", "\n\n"))
    checked = "".join(f"\n{it}" for it in of_type(wrapper) if it.startswith("static"))
    return {
        "include/fastlanes.h": text,
        "include/fastlanes_checked.h": f"{CHECKED_HEAD}{checked}\n#endif\n",
        "release/errors.c": Template(ERRORS_C).substitute(texts="\n".join(f'    "{text}",' for _, _, text in found)),
    }
