"""The chart of bytes per value and decoding rates, of encoded columns and other storage, which bench/report.py draws."""

from picture import COLOURS, GREY, INK, LEFT, PALE, RIGHT, Picture

TITLE = "Bytes per value, and decoding rate"
# The kinds of values, each with its name in the chart and in the table.
KINDS = {
    "timestamps": "timestamps, 900 to 1,099 apart",
    "postings": "sorted postings, 1 to 60 apart",
    "prices": "prices, one in twenty moves",
    "noise": "noise of 32 bits",
    "categories": "twelve categories",
}
# Further kinds, which only the table has.
FURTHER = {"timestamps in cache": "65,536 timestamps, in the cache"}
# The storage by its name in the results: its mark, its colour, its name in the chart and the table, and a note below that.
STORED = {
    "column of frames": ("ring", COLOURS["u32"], "column, FOR blocks only", "without checksums"),
    "column": ("dot", COLOURS["u32"], "column, FOR or delta blocks", "the shorter of both, without checksums"),
    "column with checksums": ("triangle", COLOURS["u32"], "the same, with checksums", "one per page"),
    "zstd -1": ("diamond", COLOURS["u16"], "zstd -1", ""),
    "lz4": ("square", COLOURS["u64"], "lz4", ""),
    "copy": ("cross", INK, "copy", ""),
}
# Bytes per value of the right edge: a value has four, and some codecs add a few.
WIDEST = 4.4
TOP, PANEL_HEIGHT, PITCH = 134, 190, 284
GAP, IN_A_ROW = 50, 3


def steps(most):
    """Returns numbers from 0 to at least this one, in at most eight steps."""
    step = next(step for step in (1, 2, 5, 10, 20, 50, 100, 200) if most <= 8 * step)
    return range(0, -int(-most // step) * step + 1, step)


class Panel:
    """The part of the chart for one kind of values: bytes per value to the right, GB/s upwards."""

    def __init__(self, picture, left, right, top, rates):
        self.picture, self.left, self.right = picture, left, right
        self.top, self.bottom = top, top + PANEL_HEIGHT
        self.rates = rates

    def place(self, bytes_a_value, rate):
        x = self.left + bytes_a_value / WIDEST * (self.right - self.left)
        return x, self.bottom - rate / self.rates[-1] * PANEL_HEIGHT

    def grid(self):
        for rate in self.rates:
            _, y = self.place(0, rate)
            self.picture.line([(self.left, y), (self.right, y)], PALE)
            self.picture.text(self.left - 7, y + 4, rate, anchor="end", fill=GREY)
        for number in range(int(WIDEST) + 1):
            x, _ = self.place(number, 0)
            self.picture.line([(x, self.top), (x, self.bottom)], PALE)
            self.picture.text(x, self.bottom + 16, number, anchor="middle", fill=GREY)

    def titles(self, label):
        """The kind, and what the two scales are."""
        self.picture.text(self.left - 22, self.top - 30, label, 12, weight="bold")
        self.picture.text(self.left - 22, self.top - 12, "decode, GB/s of values", fill=GREY)
        self.picture.text((self.left + self.right) / 2, self.bottom + 33, "bytes per value", anchor="middle", fill=GREY)

    def copy(self, rate):
        """The line of a plain copy."""
        _, y = self.place(0, rate)
        self.picture.line([(self.left, y), (self.right, y)], INK, 1.3)

    def marks(self, rows):
        for name, (shape, colour, _, _) in STORED.items():
            x, y = self.place(rows[name]["bytes_a_value"], rows[name]["read_gb_s"])
            self.picture.mark(x, y, shape, colour)


def legend(picture, left, top):
    y = top
    for shape, colour, name, note in STORED.values():
        picture.mark(left + 8, y, shape, colour)
        picture.text(left + 26, y + 4, name, 12)
        if note:
            picture.text(left + 26, y + 20, note, fill=GREY)
        y += 42 if note else 24


def heading(picture):
    picture.text(16, 28, TITLE, 17, weight="bold")
    notes = [
        "A million values of u32 (four bytes each) of five kinds. Green: encoded columns of the library, for x86-64-v3.",
        "Left is smaller, up is faster. The line is a copy.",
    ]
    for at, note in enumerate(notes):
        picture.text(16, 50 + 18 * at, note, 12, fill=GREY)


def sizes_chart(rows):
    """Returns the chart of these results, by kind and storage."""
    picture = Picture(TOP + 2 * PITCH - 42, TITLE)
    heading(picture)
    rates = steps(max(row["read_gb_s"] for row in rows.values()))
    breadth = (RIGHT - LEFT - GAP * (IN_A_ROW - 1)) / IN_A_ROW
    places = [(LEFT + at % IN_A_ROW * (breadth + GAP), TOP + at // IN_A_ROW * PITCH) for at in range(len(KINDS) + 1)]
    for (kind, label), (left, top) in zip(KINDS.items(), places):
        panel = Panel(picture, left, left + breadth, top, rates)
        panel.grid()
        panel.titles(label)
        panel.copy(rows[kind, "copy"]["read_gb_s"])
        panel.marks({name: rows[kind, name] for name in STORED})
    left, top = places[-1]
    legend(picture, left - 22, top)
    return picture.whole()
