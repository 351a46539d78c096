"""The chart of the throughput of operations, which bench/report.py draws."""

from picture import COLOURS, GREY, INK, LEFT, PALE, RIGHT, Picture

TITLE = "Throughput of packing, unpacking and comparing"
# The operations, each with its name in the chart.
OPERATIONS = {
    "pack": "pack",
    "unpack": "unpack",
    "unfor_pack": "unfor",
    "undelta_pack": "undelta",
    "unpack_cmp": "compare",
    "frame_read": "FOR block",
}
RUST_CRATE = "#c9ced6"
STEP, MOST = 20, 140
TOP, PANEL_HEIGHT, PITCH = 122, 200, 272
GAP = 44


def widths_of(bits):
    """A narrow, a middle and a wide width."""
    return bits // 8, bits // 2, bits - bits // 8


def gigabytes(nanoseconds, bits):
    """Gigabytes a second, where a block of 1024 values takes so long."""
    return 1024 * bits / 8 / nanoseconds


class Panel:
    """The part of the chart for one type: an operation beside another, each with a pair of bars for each width."""

    def __init__(self, picture, left, right, top):
        self.picture, self.left, self.right = picture, left, right
        self.top, self.bottom = top, top + PANEL_HEIGHT

    def height(self, rate):
        return self.bottom - min(rate, MOST) / MOST * PANEL_HEIGHT

    def grid(self):
        for rate in range(0, MOST + 1, STEP):
            y = self.height(rate)
            self.picture.line([(self.left, y), (self.right, y)], PALE)
            self.picture.text(self.left - 7, y + 4, rate, anchor="end", fill=GREY)

    def bar(self, x, breadth, rate, fill):
        """A bar; one that is higher than the panel ends at its top, and has its number there."""
        y = self.height(rate)
        self.picture.box(x, y, breadth, self.bottom - y, fill)
        if rate > MOST:
            self.picture.text(x + breadth / 2, self.top - 3, f"{rate:.0f}", 9, anchor="middle")

    def operation(self, at, label, name, rows):
        """The bars of an operation, by its widths: the library's and the Rust crate's."""
        breadth = (self.right - self.left) / len(OPERATIONS)
        left = self.left + at * breadth
        bits = int(name[1:])
        group = (breadth - 8) / 3
        for number, width in enumerate(widths_of(bits)):
            x = left + 4 + number * group
            bar = (group - 3) / 2
            self.bar(x, bar, gigabytes(rows[width]["ours_ns"], bits), COLOURS[name])
            self.bar(x + bar, bar, gigabytes(rows[width]["rust_ns"], bits), RUST_CRATE)
            self.picture.text(x + bar, self.bottom + 13, width, 9, anchor="middle", fill=GREY)
        self.picture.text(left + breadth / 2, self.bottom + 29, label, 11, anchor="middle")

    def copy(self, rate):
        """The line of memcpy, named over the operation whose bars stay below it."""
        y = self.height(rate)
        self.picture.line([(self.left, y), (self.right, y)], INK, 1.3)
        compared = self.left + 4.5 * (self.right - self.left) / len(OPERATIONS)
        self.picture.text(compared, y - 4, "memcpy", 10, anchor="middle")


def heading(picture, level):
    picture.text(16, 28, TITLE, 17, weight="bold")
    notes = [
        f"GB/s of values, on one core and in its first-level cache, for x86-64-{level}. In colour the library,"
        " next to it in grey the Rust crate.",
        "Each pair of bars is a width in bits: narrow, middle, wide. The line is a copy of the unpacked block.",
    ]
    for at, note in enumerate(notes):
        picture.text(16, 50 + 18 * at, note, 12, fill=GREY)


def throughput_chart(rows, level):
    """The chart of these results at a level of the processor."""
    picture = Picture(TOP + 2 * PITCH - 26, TITLE)
    heading(picture, level)
    breadth = (RIGHT - LEFT - GAP) / 2
    for at, name in enumerate(COLOURS):
        left = LEFT + at % 2 * (breadth + GAP)
        panel = Panel(picture, left, left + breadth, TOP + at // 2 * PITCH)
        panel.grid()
        picture.text(left, panel.top - 14, name, 13, weight="bold", fill=COLOURS[name])
        for number, (operation, label) in enumerate(OPERATIONS.items()):
            panel.operation(number, label, name, rows[operation, name, level])
        widths = rows["unpack", name, level]
        panel.copy(gigabytes(min(numbers["memcpy_ns"] for numbers in widths.values()), int(name[1:])))
    return picture.whole()
