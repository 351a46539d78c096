"""Generates tables and charts from bench/results, for the processor that was timed last.

    python3 bench/report.py            writes the files below that differ from what it generates
    python3 bench/report.py --check    writes nothing; exits with 1 if a file differs
    .. FOLDER                          last argument: uses this folder in place of the repository

From PROCESSOR-CPU.csv, which `bench/run` writes: docs/speed.svg, docs/throughput.svg, the tables `table`, `kernels` and `folds` of
docs/SPEED.md, and the table `speed` of README.md. From PROCESSOR-CPU-rust.csv, which `bench/run --rust` writes: the table `speed` of
rust/README.md. From both: the table `slow` of docs/SPEED.md. From PROCESSOR-columns.csv, which `bench/columns/run` writes:
docs/columns.svg and the table `columns` of docs/SPEED.md. A table NAME is written between the lines <!-- NAME begins --> and
<!-- NAME ends -->, if the page has them.
"""

import csv
import math
import sys
from pathlib import Path
from statistics import median
from typing import NamedTuple

from picture import COLOURS, GREY, INK, LEFT, PALE, RIGHT, Picture
from sizes import FURTHER, KINDS, STORED, sizes_chart
from throughput import throughput_chart

LEVELS = ["v2", "v3"]
# The levels of programs in Rust. The first is the default of cargo.
RUST_LEVELS = ["plain", "v2", "v3"]
TYPES = ["u8", "u16", "u32", "u64"]

# The operations in the order of the tables, each with its name there.
WITH_WIDTH = {
    "pack": "pack",
    "unpack": "unpack",
    "for_pack": "for_pack",
    "unfor_pack": "unfor_pack",
    "undelta_pack": "undelta_pack",
    "unpack_cmp": "unpack_cmp, less than",
    "unpack_single": "unpack_single, 1024 calls",
    "unpack_single:random": "unpack_single, 16,384 calls in random order",
    "unpack_indices": "unpack_indices, 100 indices",
    "frame_write": "frame_head and frame_write",
    "frame_read": "frame_read",
    "delta_write": "delta_write",
    "delta_read": "delta_read",
}
WITHOUT_WIDTH = {
    "delta": "delta",
    "undelta": "undelta",
    "delta_head": "delta_head",
    "transpose": "transpose",
    "untranspose": "untranspose",
    "transpose_bits": "transpose_bits",
    "untranspose_bits": "untranspose_bits",
    "rle_encode:long": "rle_encode, long runs",
    "rle_encode:coin": "rle_encode, coin flips",
    "rle_encode:none": "rle_encode, no runs",
    "rle_encode:fresh": "rle_encode, coin flips, 64 blocks",
    "rle_decode:long": "rle_decode, long runs",
    "rle_decode:coin": "rle_decode, coin flips",
    "rle_decode:none": "rle_decode, no runs",
    "frame_get:1000": "frame_get, 1,000 blocks",
    "frame_get:100000": "frame_get, 100,000 blocks",
}
# The operations of `crates/timed`, which have a table of their own: blocks by 16-lane vectors, and kernels in each lane.
ROWS_AND_KERNELS = {
    "rows:pack": "pack_rows",
    "rows:unpack": "unpack_rows",
    "kernel:put_digits": "unpack_lane, digits to a block",
    "kernel:sum_digits": "unpack_lane, sum of the digits",
    "kernel:pack_differences": "pack_lane, differences of elements",
    "kernel:sum_places": "iterate_lane, sum of the elements",
    "kernel_at_run:put_digits": "unpack_lane, digits to a block, run-time width",
    "kernel_at_run:pack_differences": "pack_lane, differences of elements, run-time width",
}
# The folds of a block, compared with the Rust crate's `unpack` and a loop over the block.
FOLDS = ["unpack_sum", "unpack_range"]
# The operations of the short table in README.md. Called from Rattle, `pack` and `unpack` use 16-lane vectors.
FIRST = {
    "pack": "pack",
    "rows:pack": "pack, from Rattle",
    "unpack": "unpack",
    "rows:unpack": "unpack, from Rattle",
    "unpack_cmp": "unpack_cmp, less than",
    "unpack_single": "unpack_single, 1024 calls",
}

# The operations of programs in Rust: blocks, and the others.
RUST_BLOCKS = {
    "pack": "`pack`",
    "unpack": "`unpack`",
    "unfor_pack": "`unfor_pack`",
    "undelta_pack": "`undelta_pack`",
    "unpack_cmp": "`unpack_cmp` with a closure",
}
RUST = RUST_BLOCKS | {
    "unpack_single": "`unpack_single`, in order",
    "unpack_single:random": "`unpack_single`, in random order",
    "unpack_single:at_run": "`unchecked_unpack_single`, in order",
    "rle_decode:long": "`decode_unchecked`, long runs",
    "rle_decode:coin": "`decode_unchecked`, coin flips",
    "column_len:1000": "`column_len`, compared with a loop without checks",
}


# The table of operations lists the median ratios above this one.
HIGH_MEDIAN = 1.1


class Slow(NamedTuple):
    """A slow case: what is slow, its cause, and whether the cause is confirmed. The factor comes from the results."""

    case: str
    operations: list
    types: list
    levels: list
    cause: str
    status: str
    # The only width that is slow, if there is one.
    width: int | None = None
    # Whether the results are of programs in Rust.
    rust: bool = False


SLOW = [
    Slow(
        "`unfor_pack` and `frame_read` of `u8` at width 0, v2",
        ["unfor_pack", "frame_read"],
        ["u8"],
        ["v2"],
        "the Rust crate fills the block by one call of `memset`, which uses wider vectors than v2 has",
        "presumed",
        width=0,
    ),
    Slow(
        "`unpack_cmp` at width 0, v3",
        ["unpack_cmp"],
        TYPES,
        ["v3"],
        "about 1 ns: a jump to the call, which dispatches on the comparison and the width, and checks the length of the words",
        "presumed",
        width=0,
    ),
    Slow(
        "`pack` of `u16`, v3",
        ["pack"],
        ["u16"],
        ["v3"],
        "not known",
        "",
    ),
    Slow(
        "`frame_head` and `frame_write` of `u64` at width 32",
        ["frame_write"],
        ["u64"],
        LEVELS,
        "values up to 2^32 apart: the pass over their 32-bit distances from the first one is in vain, and a second pass follows",
        "presumed",
        width=32,
    ),
    Slow(
        "`rle_encode` of coin flips, one repeated block, v3",
        ["rle_encode:coin"],
        TYPES,
        ["v3"],
        "one store per value in place of a branch, which the processor predicts in one repeated block and not in 64",
        "confirmed",
    ),
    Slow(
        "`rle_decode` of short runs",
        ["rle_decode:coin", "rle_decode:none"],
        TYPES,
        LEVELS,
        "one store per value; in the Rust crate the compiler knows that output and dictionary do not overlap, and joins stores",
        "confirmed at v3, presumed at v2",
    ),
    Slow(
        "`pack_rows` and `unpack_rows` of `u8`, v3",
        ["rows:pack", "rows:unpack"],
        ["u8"],
        ["v3"],
        "16 lanes are half of a register, and the processor stores once a cycle; `pack_wide` and `unpack_wide` fill registers",
        "confirmed",
    ),
    Slow(
        "kernels in a lane at a run-time width",
        ["kernel_at_run:put_digits", "kernel_at_run:pack_differences"],
        TYPES,
        LEVELS,
        "each row computes its shift and branches, and the compiler makes no vectors of adjacent lanes",
        "presumed",
    ),
    Slow(
        "Rust package: `unpack_single` of `u32` and `u64` at a constant width in ascending order, v3",
        ["unpack_single"],
        ["u32", "u64"],
        ["v3"],
        "the processor predicts branches in this order",
        "presumed",
        rust=True,
    ),
    Slow(
        "Rust package: `column_len`, compared with a loop without checks",
        ["column_len:1000"],
        TYPES,
        RUST_LEVELS,
        "it checks each width; a loop without checks becomes vector code",
        "presumed",
        rust=True,
    ),
]


def head_line(path):
    """The first line of results: machine, compilers, and the date, which is last."""
    with open(path, encoding="utf-8") as file:
        return file.readline().removeprefix("#").strip()


def last_processor(folder, ending):
    """Returns the processor with the newest results of this ending, or None."""
    dates = {path.name.removesuffix(ending): head_line(path).split("; ")[-1] for path in sorted(folder.glob("*" + ending))}
    return max(dates, key=dates.get, default=None)


def read_results(folder, processor, levels=LEVELS, kind=""):
    """Returns the first line of each level, and the rows of each operation, type and level, by width."""
    heads, rows = {}, {}
    for level in levels:
        cpu = "x86-64" if level == "plain" else f"x86-64-{level}"
        path = folder / f"{processor}-{cpu}{kind}.csv"
        if not path.exists():
            sys.exit(f"report.py: no file {path}: expected results that bench/run writes")
        heads[level] = head_line(path)
        with open(path, encoding="utf-8") as file:
            file.readline()
            for row in csv.DictReader(file):
                width = int(row["width"]) if row["width"] else None
                numbers = {name: float(row[name]) for name in row if name not in ("operation", "type", "width")}
                rows.setdefault((row["operation"], row["type"], level), {})[width] = numbers
    return heads, rows


def read_columns(path):
    """Returns the first line of results of encoded columns, and their rows, by kind of values and storage."""
    with open(path, encoding="utf-8") as file:
        file.readline()
        rows = {
            (row.pop("values"), row.pop("stored")): {name: float(row[name]) for name in row if row[name]}
            for row in csv.DictReader(file)
        }
    return head_line(path), rows


def middle(widths, name):
    """Returns the median of a number over the widths."""
    return median(numbers[name] for numbers in widths.values())


# The tables.


def table(head, lines):
    rows = ["| " + " | ".join(cells) + " |" for cells in [head, *lines]]
    return "\n".join([rows[0], "|---" * len(head) + "|", *rows[1:]])


def short_table(operations, rows, levels=LEVELS):
    """Returns a table with a line per operation: the median ratio to the Rust crate, by level and type."""
    head = [""] + [(f"{level}: " if at == 0 else "") + f"`{name}`" for level in levels for at, name in enumerate(TYPES)]
    lines = []
    for operation, label in operations.items():
        found = [rows[operation, name, level] for level in levels for name in TYPES]
        lines.append([label] + [f"{middle(widths, 'ratio_to_rust'):.2f}" for widths in found])
    return table(head, lines)


def rust_table(heads, rows):
    """Returns such a table of programs in Rust, with machine and compilers, and the medians of all block operations."""
    lines = [f"- {'plain `cargo build`' if level == 'plain' else 'x86-64-' + level}: {heads[level]}" for level in RUST_LEVELS]
    medians = []
    for level in RUST_LEVELS:
        found = [rows[operation, name, level] for operation in RUST_BLOCKS for name in TYPES]
        middles = [numbers["ratio_to_rust"] for widths in found for numbers in widths.values()]
        medians.append(f"{median(middles):.2f} ({level})")
    all_blocks = f"The medians of the first {len(RUST_BLOCKS)} lines, over all types and widths: {', '.join(medians)}."
    return "\n\n".join(["\n".join(lines), short_table(RUST, rows, RUST_LEVELS), all_blocks])


def three_digits(number):
    return f"{number:.{max(0, 2 - math.floor(math.log10(number)))}f}"


def head_lines(heads):
    return "\n".join(f"- x86-64-{level}: {heads[level]}" for level in LEVELS)


def long_table(operations, rows):
    """Returns a table with a line per operation and type: time, median ratios, and the maximum ratio to the Rust crate."""
    head = ["Operation", "Type"]
    for level in LEVELS:
        head += [f"{level}: ns", "ratio to memcpy", "ratio to the Rust crate", "maximum, at width"]
    lines = []
    for operation, label in operations.items():
        for name in TYPES:
            if not any((operation, name, level) in rows for level in LEVELS):
                continue
            line = [label, f"`{name}`"]
            for level in LEVELS:
                widths = rows.get((operation, name, level))
                line += long_cells(widths) if widths else ["–"] * 4
            lines.append(line)
            label = ""
    return table(head, lines)


def long_cells(widths):
    worst = max(widths, key=lambda width: widths[width]["ratio_to_rust"])
    return [
        three_digits(middle(widths, "ours_ns")),
        three_digits(middle(widths, "ratio_to_memcpy")),
        f"{middle(widths, 'ratio_to_rust'):.2f}",
        "" if worst is None else f"{widths[worst]['ratio_to_rust']:.2f} at {worst}",
    ]


def operations_table(heads, rows):
    """Returns the table of all operations, after machine and compilers, with the high ratios below."""
    operations = WITH_WIDTH | WITHOUT_WIDTH
    return "\n\n".join([head_lines(heads), long_table(operations, rows), high_medians(operations, rows)])


def high_medians(operations, rows):
    """Returns a line that lists the median ratios to the Rust crate above HIGH_MEDIAN."""
    high = []
    for operation, label in operations.items():
        cells = []
        for level in LEVELS:
            for name in TYPES:
                widths = rows.get((operation, name, level))
                if widths and middle(widths, "ratio_to_rust") > HIGH_MEDIAN:
                    cells.append(f"`{name}` at {level}")
        if cells:
            high.append(f"{label} ({', '.join(cells)})")
    return f"Ratios to the Rust crate above {HIGH_MEDIAN:.2f}: {'; '.join(high) or 'none'}."


def folds_table(rows):
    """Returns a table with a line per fold and type: time, ratio to the Rust crate's `unpack` and a loop, and to `unpack` only,
    the latter from width 1 on."""
    head = ["Fold", "Type"]
    for level in LEVELS:
        head += [f"{level}: ns", "ratio to unpack and a loop", "ratio to unpack only", "maximum, at width"]
    lines = []
    for operation in FOLDS:
        for name in TYPES:
            line = [f"`{operation}`", f"`{name}`"]
            for level in LEVELS:
                widths, unpacked = rows[operation, name, level], rows["unpack", name, level]
                alone = {width: widths[width]["ours_ns"] / unpacked[width]["rust_ns"] for width in widths if width}
                worst = max(alone, key=alone.get)
                line += [three_digits(middle(widths, "ours_ns")), f"{middle(widths, 'ratio_to_rust'):.2f}"]
                line += [f"{median(alone.values()):.2f}", f"{alone[worst]:.2f} at {worst}"]
            lines.append(line)
    return table(head, lines)


def columns_table(rows):
    """Returns a table with a line per kind of values and storage: bytes, rates, and times of random access and of a filter."""
    head = ["Values", "Stored as", "Bytes per value", "Encode, GB/s", "Decode, GB/s", "Random access, ns", "Filter, µs"]
    digits = {"bytes_a_value": 2, "written_gb_s": 1, "read_gb_s": 1, "one_value_ns": 0, "filter_us": 0}
    lines = []
    for kind, label in {**KINDS, **FURTHER}.items():
        for stored in STORED if (kind, "copy") in rows else ():
            row = rows[kind, stored]
            cells = [f"{row[name]:.{count}f}" if name in row else "" for name, count in digits.items()]
            lines.append([label, STORED[stored][2], *cells])
            label = ""
    return table(head, lines)


def slow_table(rows, rust_rows):
    """Returns a table with a line per slow case: the range of its median ratios, and the maximum of all widths."""
    lines = []
    for slow in SLOW:
        found = rust_rows if slow.rust else rows
        cells = [found[operation, name, level] for operation in slow.operations for name in slow.types for level in slow.levels]
        ratios = [(widths[width]["ratio_to_rust"], width) for widths in cells for width in widths if slow.width in (None, width)]
        middles = [middle(widths, "ratio_to_rust") for widths in cells] if slow.width is None else [ratio for ratio, _ in ratios]
        ends = dict.fromkeys(f"{ratio:.2f}" for ratio in (min(middles), max(middles)))
        factor = " to ".join(ends)
        most, width = max(ratios, key=lambda it: it[0])
        if slow.width is None and width is not None and f"{most:.2f}" not in ends:
            factor += f"; {most:.2f} at width {width}"
        lines.append([slow.case, factor, slow.cause + (f" ({slow.status})" if slow.status else "")])
    return table(["Case", "Factor", "Cause"], lines)


def put_between(text, word, inner):
    """Returns the text with this between the marks of the word, or the text itself if it has no marks."""
    first, last = f"<!-- {word} begins -->", f"<!-- {word} ends -->"
    if text.count(first) != 1 or text.count(last) != 1 or text.index(first) > text.index(last):
        print(f"no table written: expected one pair of {first} and {last}", file=sys.stderr)
        return text
    return text[: text.index(first) + len(first)] + f"\n\n{inner}\n\n" + text[text.index(last) :]


# The chart.

CHART_TITLE = "Time per block, divided by the Rust crate's"
CHART_LEVEL = "v3"
# The ratios that have a line. Ratios beyond the first or the last are marked at the edge.
GRID = [tenth / 10 for tenth in range(4, 15)]
LOW, HIGH = GRID[0], GRID[-1]

FASTER = "#f0f7f3"
PANEL_HEIGHT = 130


class Panel:
    """The part of a picture for one operation: ratios upwards, and adjacent sections for the types."""

    def __init__(self, picture, left, right, top):
        self.picture, self.left, self.right, self.top = picture, left, right, top
        self.bottom = top + PANEL_HEIGHT

    def height(self, ratio):
        """The height of a ratio in the picture; one beyond the scale stands at its edge."""
        return self.bottom - (min(max(ratio, LOW), HIGH) - LOW) / (HIGH - LOW) * PANEL_HEIGHT

    def section(self, name):
        """The left end and the right end of a type's section."""
        breadth = (self.right - self.left) / len(TYPES)
        left = self.left + TYPES.index(name) * breadth
        return left + 5, left + breadth - 5

    def middle(self, name):
        return sum(self.section(name)) / 2

    def title(self, lines):
        """Lines above the panel, the first one bold."""
        for at, line in enumerate(lines):
            y = self.top - 10 - 15 * (len(lines) - 1 - at)
            self.picture.text(self.left, y, line, 12, weight="normal" if at else "bold")

    def grid(self, numbered):
        """The lines of the ratios, that of 1 in ink, with their numbers at the left if these are wanted."""
        self.picture.box(self.left, self.height(1), self.right - self.left, self.bottom - self.height(1), FASTER)
        for ratio in GRID:
            y = self.height(ratio)
            self.picture.line([(self.left, y), (self.right, y)], INK if ratio == 1 else PALE)
            if numbered:
                weight = "bold" if ratio == 1 else "normal"
                self.picture.text(self.left - 7, y + 4, f"{ratio:.1f}", anchor="end", weight=weight)

    def curve(self, name, widths):
        """The ratios of a type by its widths, from 0 to T."""
        left, right = self.section(name)
        bits = int(name[1:])
        points = [(left + width / bits * (right - left), widths[width]["ratio_to_rust"]) for width in sorted(widths)]
        self.picture.line([(x, self.height(ratio)) for x, ratio in points], COLOURS[name], 1.3)
        self.mark_beyond(name, points)
        self.name_below(name)
        self.picture.text(left, self.bottom + 19, 0, fill=GREY)
        self.picture.text(right, self.bottom + 19, bits, anchor="end", fill=GREY)

    def pin(self, name, ratio):
        """The one ratio of a type, as a dot on a stem from 1."""
        x, y = self.middle(name), self.height(ratio)
        self.picture.line([(x, self.height(1)), (x, y)], COLOURS[name], 3)
        if LOW <= ratio <= HIGH:
            self.picture.dot(x, y, COLOURS[name])
        self.mark_beyond(name, [(x, ratio)])
        self.name_below(name)

    def name_below(self, name):
        self.picture.text(self.middle(name), self.bottom + 19, name, anchor="middle", weight="bold", fill=COLOURS[name])

    def mark_beyond(self, name, points):
        """Marks those points of a type that are beyond the scale."""
        below = [point for point in points if point[1] < LOW]
        above = [point for point in points if point[1] > HIGH]
        self.marks(name, below, edge=self.bottom, tip=7, baseline=self.bottom - 6)
        self.marks(name, above, edge=self.top, tip=-7, baseline=self.top + 14)

    def marks(self, name, points, edge, tip, baseline):
        """Draws a triangle at the edge for each point, and next to them the minimum and the maximum of their ratios."""
        if not points:
            return
        for x, _ in points:
            self.picture.triangle(x, edge, tip, COLOURS[name])
        ratios = [ratio for _, ratio in points]
        numbers = dict.fromkeys(f"{ratio:.2f}" for ratio in (min(ratios), max(ratios)))
        x = median(x for x, _ in points)
        left, right = self.section(name)
        part = (x - left) / (right - left)
        anchor, aside = ("start", 7) if part < 0.25 else ("end", -7) if part > 0.75 else ("middle", 0)
        self.picture.text(x + aside, baseline, " to ".join(numbers), anchor=anchor)


def panels(picture, count, columns, gap, top, pitch):
    """So many panels with their grids, in rows from the top on. Grids have numbers where there is room for them."""
    breadth = (RIGHT - LEFT - gap * (columns - 1)) / columns
    for at in range(count):
        left = LEFT + at % columns * (breadth + gap)
        panel = Panel(picture, left, left + breadth, top + at // columns * pitch)
        panel.grid(numbered=left == LEFT or gap >= LEFT)
        yield panel


def types_of(rows, operation):
    """The types that an operation has, each with its numbers by width."""
    found = {name: rows.get((operation, name, CHART_LEVEL)) for name in TYPES}
    return {name: widths for name, widths in found.items() if widths}


def heading(picture):
    picture.text(16, 28, CHART_TITLE, 17, weight="bold")
    notes = [
        f"The library's time divided by the Rust crate's, both for x86-64-{CHART_LEVEL}."
        " Below 1 (tinted) the library is faster.",
        "The curve of a type runs over its widths, from 0 to its bits."
        " A triangle at the edge, with its number, is beyond the scale.",
    ]
    for at, note in enumerate(notes):
        picture.text(16, 50 + 18 * at, note, 12, fill=GREY)


def timed_of(rows, operations):
    """Those of the operations that were timed."""
    return {operation: label for operation, label in operations.items() if types_of(rows, operation)}


def chart(rows):
    with_width, without_width = timed_of(rows, WITH_WIDTH), timed_of(rows, WITHOUT_WIDTH)
    curves_top, curves_pitch, pins_pitch = 112, PANEL_HEIGHT + 58, PANEL_HEIGHT + 72
    pins_top = curves_top + -(-len(with_width) // 2) * curves_pitch
    picture = Picture(pins_top + -(-len(without_width) // 6) * pins_pitch - 36, CHART_TITLE)
    heading(picture)
    curves = panels(picture, len(with_width), 2, LEFT, curves_top, curves_pitch)
    for panel, (operation, label) in zip(curves, with_width.items()):
        panel.title([label])
        for name, widths in types_of(rows, operation).items():
            panel.curve(name, widths)
    pins = panels(picture, len(without_width), 6, 14, pins_top, pins_pitch)
    for panel, (operation, label) in zip(pins, without_width.items()):
        panel.title(label.split(", "))
        for name, widths in types_of(rows, operation).items():
            panel.pin(name, widths[None]["ratio_to_rust"])
    return picture.whole()


def main(words):
    check = "--check" in words
    folders = [word for word in words if word != "--check"]
    if len(folders) > 1 or any(word.startswith("-") for word in folders):
        sys.exit(__doc__)
    top = Path(folders[0]) if folders else Path(__file__).resolve().parent.parent
    results = top / "bench" / "results"
    processor = last_processor(results, f"-x86-64-{LEVELS[-1]}.csv")
    if not processor:
        sys.exit(f"report.py: no results in {results}: expected files that bench/run writes")
    heads, rows = read_results(results, processor)
    rust_heads, rust_rows = read_results(results, processor, RUST_LEVELS, "-rust")

    wanted = {
        top / "docs" / "speed.svg": chart(rows),
        top / "docs" / "throughput.svg": throughput_chart(rows, CHART_LEVEL),
    }
    tables = [
        (top / "docs" / "SPEED.md", "slow", slow_table(rows, rust_rows)),
        (top / "docs" / "SPEED.md", "table", operations_table(heads, rows)),
        (top / "docs" / "SPEED.md", "kernels", long_table(ROWS_AND_KERNELS, rows)),
        (top / "README.md", "speed", short_table(FIRST, rows)),
        (top / "rust" / "README.md", "speed", rust_table(rust_heads, rust_rows)),
    ]
    if all((fold, name, level) in rows for fold in FOLDS for name in TYPES for level in LEVELS):
        tables.append((top / "docs" / "SPEED.md", "folds", folds_table(rows)))
    if processor := last_processor(results, "-columns.csv"):
        head, stored = read_columns(results / f"{processor}-columns.csv")
        wanted[top / "docs" / "columns.svg"] = sizes_chart(stored)
        tables.append((top / "docs" / "SPEED.md", "columns", f"- {head}\n\n{columns_table(stored)}"))
    for path, word, inner in tables:
        if path.exists():
            wanted[path] = put_between(wanted.get(path) or path.read_text(encoding="utf-8"), word, inner)
    stale = [path for path, text in wanted.items() if not path.exists() or path.read_text(encoding="utf-8") != text]
    for path in stale:
        print(f"{path}: " + ("differs from what bench/report.py generates" if check else "written"))
        if not check:
            path.write_text(wanted[path], encoding="utf-8")
    return 1 if check and stale else 0


if __name__ == "__main__":
    sys.exit(main(sys.argv[1:]))
