"""Draws the pictures of the layout from its formulas.

    python3 docs/pictures.py            writes docs/pictures/*.svg
    python3 docs/pictures.py --check    writes nothing; ends with 1 if a stored picture is not what would be written
"""

import sys
from html import escape
from pathlib import Path

FOLDER = Path(__file__).parent / "pictures"

# The formulas. Order.antt and Digits.antt in crates/fastlanes_base/specs define the same.

BLOCK = 1024
ORDER = [0, 4, 2, 6, 1, 5, 3, 7]


def lanes_of(bits):
    return BLOCK // bits


def index(row, lane):
    """The place of a row of a lane."""
    return ORDER[row // 8] * 16 + row % 8 * 128 + lane


def transpose(i):
    """The place in the original of what stands at the place i of the transposed block."""
    return i % 16 * 64 + ORDER[i // 16 % 8] * 8 + i // 128


def number_of(digits, bits):
    """The number that the digits make in the base 2^bits, the lowest first."""
    return sum(digit * 2 ** (bits * k) for k, digit in enumerate(digits))


def digits_of(number, bits, count):
    """The digits of a number in the base 2^bits, the lowest first."""
    return [number // 2 ** (bits * k) % 2**bits for k in range(count)]


def place_of(i, bits):
    """The row and the lane of a place."""
    lane = i % lanes_of(bits)
    return ORDER[(i % 128 - lane) // 16] * 8 + i // 128, lane


def head_of(values):
    """The least of the values, and the least width that holds their differences from it."""
    return min(values), (max(values) - min(values)).bit_length()


def straddles(bits, width, row):
    return row * width % bits + width > bits


# The pen.

INK = "#222222"
GREY = "#666666"
PALE = "#eef1f4"
BLUE = "#cfe3f5"
MARK = "#ff9f4a"
# One colour for each eight rows.
COLOURS = ["#a9d0ee", "#b5dfa0", "#ffd9a8", "#f7b9c6", "#cfbde6", "#fff0a0", "#a5ded4", "#d6d6d6"]


class Picture:
    """An SVG picture on white, which reads on a light page and on a dark one."""

    def __init__(self, width, height, title):
        self.lines = [
            f'<svg xmlns="http://www.w3.org/2000/svg" viewBox="0 0 {width} {height}" width="{width}" height="{height}"'
            ' role="img" font-family="DejaVu Sans, Verdana, Arial, sans-serif">',
            f"<title>{title}</title>",
            '<marker id="head" viewBox="0 0 8 8" refX="7" refY="4" markerWidth="8" markerHeight="8" orient="auto"'
            f' markerUnits="userSpaceOnUse"><path d="M0 0L8 4L0 8Z" fill="{INK}"/></marker>',
        ]
        self.box(0, 0, width, height, "#ffffff")

    def box(self, x, y, width, height, fill, stroke="none"):
        self.lines.append(f'<rect x="{x}" y="{y}" width="{width}" height="{height}" fill="{fill}" stroke="{stroke}"/>')

    def text(self, x, y, words, anchor="middle", fill=INK, size=13, weight="normal", more=""):
        """Words whose middle line is at the height y."""
        self.lines.append(
            f'<text x="{x}" y="{y + size * 7 // 20}" font-size="{size}" font-weight="{weight}" text-anchor="{anchor}"'
            f' fill="{fill}"{more}>{escape(str(words))}</text>'
        )

    def heading(self, x, y, words):
        self.text(x, y, words, "start", size=16, weight="bold")

    def note(self, x, y, words):
        self.text(x, y, words, "start", size=14)

    def code(self, x, y, words):
        self.text(x, y, words, more=' font-family="DejaVu Sans Mono, Menlo, Consolas, monospace"')

    def path(self, steps, stroke=INK, more=""):
        self.lines.append(f'<path d="{steps}" fill="none" stroke="{stroke}"{more}/>')

    def arrow(self, steps, more=""):
        self.path(steps, more=' stroke-width="1.5" marker-end="url(#head)"' + more)

    def svg(self):
        return "\n".join(self.lines + ["</svg>", ""])


# The pictures.


def overview():
    """A block beside its packed words, and one lane of both."""
    bits, width, lane = 16, 3, 24
    lanes = lanes_of(bits)
    words = lanes * width
    digits = [index(row, lane) // 128 for row in range(bits)]
    picture = Picture(980, 470, f"A block of {BLOCK} values, its packed words, and one lane of both")
    picture.heading(70, 24, f"A block: {BLOCK} values of u{bits}")
    picture.note(70, 46, f"{lanes} lanes of {bits} rows, {BLOCK * bits // 8} bytes")
    picture.heading(646, 24, f"Packed to {width} bits: {words} words")
    picture.note(646, 46, f"{width} words for each lane, {words * bits // 8} bytes")
    of_values = lanes_beside(picture, 70, lanes, lane, "row", bits, 5)
    of_words = lanes_beside(picture, 646, lanes, lane, "word", width, 2)
    picture.code(490, 106, f"pack::<u{bits}, {width}, {words}>")
    picture.arrow("M400 122H580")
    picture.arrow("M580 152H400")
    picture.code(490, 168, f"unpack::<u{bits}, {width}, {words}>")
    picture.heading(216, 290, f"Lane {lane}: {bits} values of {width} bits fall into {width} words of {bits} bits")
    picture.note(216, 312, "Bit 0 is at the left.")
    right = lane_drawn_out(picture, 74, 340, bits, width, digits)
    picture.path(f"M{of_values[0]} {of_values[1]}V330", GREY)
    picture.path(f"M{of_words[0]} {of_words[1]}V264H962V408H{right + 4}", GREY)
    return picture


def lanes_beside(picture, left, lanes, traced, name, count, step):
    """Lanes as columns of so many cells, each step of them named. The answer is the spot below the traced lane."""
    cell, line, top = 5, 10, 96
    bottom, right = top + count * line, left + lanes * cell
    picture.box(left, top, right - left, bottom - top, BLUE)
    picture.box(left + traced * cell, top, cell, bottom - top, INK)
    picture.path("".join(f"M{x} {top}V{bottom}" for x in range(left, right + 1, cell)), "#ffffff")
    picture.path("".join(f"M{left} {y}H{right}" for y in range(top, bottom + 1, line)), "#ffffff")
    for number in range(0, count, step):
        picture.text(left - 8, top + number * line + line // 2, f"{name} {number}", "end", GREY)
    picture.text(left - 8, 82, "lane", "end", GREY)
    for lane in [*range(0, lanes, 8), lanes - 1]:
        picture.text(left + lane * cell + 3, 82, lane, fill=INK if lane == traced else GREY)
    return left + traced * cell + 2, bottom + 4


def lane_drawn_out(picture, left, top, bits, width, digits):
    """The digits of a lane, and below them the bits of its words. The answer is where these end at the right."""
    unit = 18
    right = left + bits * width * unit
    picture.path(f"M{left} {top - 4}v-6H{right}v6", GREY)
    digits_row(picture, left, top, unit, bits, width, digits)
    for k, word in enumerate(digits_of(number_of(digits, width), bits, width)):
        x = left + k * bits * unit
        for bit in range(bits):
            row = (k * bits + bit) // width
            picture.box(x + bit * unit, top + 54, unit, 28, digit_colour(bits, width, row), "#ffffff")
            picture.text(x + bit * unit + unit // 2, top + 68, word >> bit & 1)
        picture.path(f"M{x + 3} {top + 88}v5H{x + bits * unit - 3}v-5", GREY)
        picture.text(x + bits * unit // 2, top + 106, f"word {k}")
    for row in range(bits):
        if straddles(bits, width, row):
            x = left + (row * width // bits + 1) * bits * unit
            picture.path(f"M{x} {top + 48}V{top + 95}", more=' stroke-dasharray="4 3"')
            picture.text(x, top + 106, f"row {row} straddles")
    return right


# How broad a place is in the picture of places, and how high.
COLUMN, BAND = 7, 20


def places():
    """The places of the rows of each type; lane 0 is traced."""
    rises = {8: 0, 16: 40, 32: 40, 64: 50}
    picture = Picture(996, 90 + 4 * (8 * BAND + 76) + sum(rises.values()), "The places of the rows, for each type")
    picture.note(16, 24, "Each panel is the same 1024 places, in eight bands of 128.")
    picture.note(16, 44, "A place is the number at the left of its band plus the number of its column, below.")
    note = "Dark: lane 0. It goes down eight bands, then along the arrow to its next eight rows"
    picture.note(16, 64, f"{note}; a dashed arrow leads to the left.")
    top = 90
    for bits, rise in rises.items():
        picture.heading(16, top + 10, f"u{bits}: {lanes_of(bits)} lanes of {bits} rows")
        top += 28 + rise
        heads = [index(row, 0) for row in range(0, bits, 8)]
        bands(picture, 72, top, bits)
        columns(picture, 72, top + 8 * BAND, heads)
        jumps(picture, 72, top, heads)
        top += 8 * BAND + 48
    return picture


def bands(picture, left, top, bits):
    """The eight bands of 128 places, with the rows that stand there."""
    breadth = lanes_of(bits) * COLUMN
    for row in range(bits):
        place = index(row, 0)
        x, y = left + place % 128 * COLUMN, top + place // 128 * BAND
        picture.box(x, y, breadth, BAND, COLOURS[row // 8], "#ffffff")
        picture.box(x + 1, y + 1, COLUMN - 1, BAND - 2, INK)
        picture.text(x + breadth // 2, y + BAND // 2, f"row {row}")
    for first in range(0, BLOCK, 128):
        picture.text(left - 8, top + first // 128 * BAND + BAND // 2, first, "end", GREY)


def columns(picture, left, top, heads):
    """The numbers of each eighth column and of the last, the columns of lane 0 in bold."""
    picture.text(left - 8, top + 16, "column", "end", GREY)
    for number in [*range(0, 128, 8), 127]:
        x = left + number * COLUMN + 4
        fill, weight = (INK, "bold") if number in heads else (GREY, "normal")
        picture.path(f"M{x} {top + 1}v5", fill)
        picture.text(x, top + 16, number, fill=fill, weight=weight)


def jumps(picture, left, top, heads):
    """The arrows of lane 0 from the column of eight rows to that of the next eight; those to the left are dashed."""
    for head, following in zip(heads, heads[1:]):
        start, end = left + head * COLUMN + 7, left + following * COLUMN + 1
        peak = top - abs(following - head) * 3 // 4 - 2
        more = ' stroke-dasharray="4 3"' if following < head else ""
        picture.arrow(f"M{start} {top - 2}C{start} {peak} {end} {peak} {end} {top - 1}", more)


def digit_colour(bits, width, row):
    return MARK if straddles(bits, width, row) else (BLUE, PALE)[row % 2]


def digits_row(picture, left, top, unit, bits, width, digits):
    """The digits of a lane side by side, with a unit of breadth for each bit."""
    for row, digit in enumerate(digits):
        x = left + row * width * unit
        picture.box(x, top, width * unit, 44, digit_colour(bits, width, row), "#ffffff")
        picture.text(x + width * unit // 2, top + 15, f"row {row}")
        picture.text(x + width * unit // 2, top + 33, digit)


def packed_lane():
    """One packed lane: its words, and the same bits as one number in two bases."""
    bits, width, lane = 16, 3, 1
    rows = [index(row, lane) % 8 for row in range(bits)]
    number = number_of(rows, width)
    words = digits_of(number, bits, width)
    picture = Picture(980, 500, "A packed lane: words of 16 bits, digits of 3 bits")

    picture.heading(16, 24, f"Lane {lane} of a block of u{bits}, i mod 8 at the place i, packed to {width} bits")
    picture.note(16, 48, f"Bit 0 of a word is at the left. A row has {width} bits; an orange row straddles two words.")
    cell, left = 43, 86
    for bit in range(bits):
        picture.text(left + bit * cell + cell // 2, 78, bit, fill=GREY)
    for k, word in enumerate(words):
        y = 90 + k * 70
        picture.text(left - 12, y + 15, f"word {k}", "end")
        picture.text(left + bits * cell + 18, y + 15, f"packed[{lanes_of(bits) * k + lane}] = 0x{word:04X}", "start")
        for bit in range(bits):
            row = (bits * k + bit) // width
            picture.box(left + bit * cell, y, cell, 30, digit_colour(bits, width, row), "#ffffff")
            picture.text(left + bit * cell + cell // 2, y + 15, word >> bit & 1)
        for row in range(bits):
            first = max(row * width - bits * k, 0)
            end = min(row * width + width - bits * k, bits)
            if first < end:
                x, y_below = left + first * cell, y + 34
                picture.path(f"M{x + 3} {y_below}v4H{left + end * cell - 3}v-4", GREY)
                picture.text((x + left + end * cell) // 2, y + 48, f"row {row}")
    picture.heading(16, 324, f"The same bits as one number, 0x{number:X}")
    unit, left = 18, 98
    picture.text(left - 12, 365, f"base 2^{bits}", "end")
    picture.text(left - 12, 423, f"base 2^{width}", "end")
    for k, word in enumerate(words):
        x = left + k * bits * unit
        picture.box(x, 350, bits * unit, 30, COLOURS[5], "#ffffff")
        picture.text(x + bits * unit // 2, 365, f"word {k} = 0x{word:04X}")
        if k > 0:
            picture.path(f"M{x} 345V402", more=' stroke-dasharray="4 3"')
    digits_row(picture, left, 400, unit, bits, width, rows)
    for bit in range(0, bits * width + 1, 2 * width):
        picture.text(left + bit * unit, 456, bit, fill=GREY)
    picture.note(16, 482, f"The numbers below are bits: row r has the bits r * {width} to r * {width} + {width - 1}.")
    return picture


def words_of_lanes():
    """Where the words of the lanes stand in a packed block."""
    bits, width, lane = 16, 3, 1
    lanes = lanes_of(bits)
    cell, left = 13, 96
    picture = Picture(980, 396, "Where the words of a lane stand in a packed block")
    picture.heading(16, 24, f"A packed block of u{bits} at width {width}: {lanes * width} words")
    picture.note(16, 48, f"Word k of a lane is packed[{lanes} * k + lane]. Dark: lane {lane}.")
    picture.text(left - 12, 82, "lane", "end", GREY)
    for number in range(0, lanes, 8):
        picture.text(left + number * cell + cell // 2, 82, number, fill=GREY)
    for k in range(width):
        y = 94 + k * 56
        picture.text(left - 12, y + 14, f"word {k}", "end")
        for number in range(lanes):
            fill = INK if number == lane else BLUE
            picture.box(left + number * cell, y, cell, 28, fill, "#ffffff")
        first = lanes * k
        picture.text(left + lane * cell, y + 39, f"packed[{first + lane}]", "start")
        picture.text(left + lanes * cell, y + 39, f"packed[{first + lanes - 1}]", "end")
    picture.note(16, 276, "A vector register takes neighbours in memory, which are neighbouring lanes:")
    for line, register in enumerate((128, 256, 512, 1024)):
        y = 300 + line * 24
        picture.text(left - 12, y + 3, f"{register} bits", "end")
        picture.path(f"M{left} {y}v6H{left + register // bits * cell}v-6", GREY)
    return picture


def sixteen_lanes():
    """The rows of a group of sixteen lanes, the rows of words that they take, and what is carried from row to row."""
    bits, width = 8, 3
    unit, left, line, top = 18, 190, 34, 190
    right = left + bits * width * unit
    picture = Picture(980, top + bits * line + 44, f"A group of sixteen lanes of u{bits} at width {width}, row after row")
    picture.heading(16, 24, f"A packed block of u{bits} at width {width}: a group of sixteen lanes is {width} rows of words")
    cell = 6
    for k in range(width):
        y = 44 + k * 18
        picture.text(left - 12, y + 7, f"word {k} of each lane", "end", GREY)
        picture.box(left, y, lanes_of(bits) * cell, 14, PALE)
        picture.box(left, y, 16 * cell, 14, BLUE)
        picture.path("".join(f"M{left + at * cell} {y}v14" for at in range(lanes_of(bits) + 1)), "#ffffff")
    picture.text(left + 8 * cell, 108, "lanes 0 to 15", fill=GREY)
    picture.text(left + 72 * cell, 108, f"lanes 16 to {lanes_of(bits) - 1}: seven more groups", fill=GREY)
    picture.heading(16, 142, "The bits of each of the sixteen lanes, and what stands after each row of digits")
    for k in range(width):
        picture.text(left + (2 * k + 1) * bits * unit // 2, top - 20, f"word {k}", fill=GREY)
    for column, words in enumerate(("rows of words", "the carry has")):
        picture.text(right + 70 + column * 130, top - 20, words, fill=GREY)
    for row in range(bits):
        y, end = top + row * line, (row + 1) * width
        taken = (end + bits - 1) // bits
        picture.text(left - 12, y + 13, f"after row {row}", "end")
        for bit in range(bits * width):
            own = row * width <= bit < end
            fill = digit_colour(bits, width, row) if own and straddles(bits, width, row) else COLOURS[0] if own else PALE
            picture.box(left + bit * unit, y, unit, 26, fill if bit < taken * bits else "#ffffff", "#ffffff")
        picture.path(f"M{left} {y}H{left + taken * bits * unit}V{y + 26}H{left}Z", INK)
        picture.path(f"M{left + taken * bits * unit} {y}H{right}V{y + 26}H{left + taken * bits * unit}Z", GREY, ' stroke-dasharray="3 3"')
        picture.text(left + (2 * row + 1) * width * unit // 2, y + 13, f"row {row}")
        picture.text(right + 70, y + 13, f"{taken} taken")
        picture.text(right + 200, y + 13, f"word {end // bits}" if end % bits else "nothing")
    picture.note(16, top + bits * line + 20, "Dashed: words that are not taken yet. Each is taken with the first row that has bits in it.")
    return picture


def transposed_lane():
    """Each lane of a transposed block is a run of neighbours of the original."""
    bits = 16
    lanes = lanes_of(bits)
    shown = {0: COLOURS[0], 1: COLOURS[1], 16: COLOURS[2], 32: COLOURS[3], 63: COLOURS[4]}
    picture = Picture(980, 604, "Lanes of a transposed block and the elements of the original")
    picture.heading(16, 24, f"The original block of u{bits}: each run of {bits} neighbours becomes a lane")
    left, run = 64, 110
    for lane in range(lanes):
        first = transpose(index(0, lane))
        x, y = left + first % 128 * run // bits, 72 + first // 128 * 26
        picture.box(x, y, run, 26, shown.get(lane, PALE), "#ffffff")
        picture.text(x + run // 2, y + 13, f"lane {lane}")
    for first in range(0, 128, bits):
        picture.text(left + first * run // bits + run // 2, 60, f"{first} to {first + bits - 1}", fill=GREY)
    for first in range(0, BLOCK, 128):
        picture.text(left - 8, 85 + first // 128 * 26, first, "end", GREY)
    picture.heading(16, 320, "The transposed block: five of its lanes, and the element of the original at each row")
    left, cell = 96, 54
    picture.text(left - 12, 352, "row", "end", GREY)
    for row in range(bits):
        picture.text(left + row * cell + cell // 2, 352, row, fill=GREY)
    for line, (lane, colour) in enumerate(shown.items()):
        y = 366 + line * 34
        picture.text(left - 12, y + 14, f"lane {lane}", "end")
        for row in range(bits):
            x = left + row * cell
            picture.box(x, y, cell, 28, colour, "#ffffff")
            picture.text(x + cell // 2, y + 14, transpose(index(row, lane)))
    picture.text(left - 12, 552, "lane 0 at", "end", GREY)
    for row in range(bits):
        picture.text(left + row * cell + cell // 2, 552, index(row, 0), fill=GREY)
    picture.note(16, 584, "Last line: where lane 0 stands in the transposed block. The next lane is one further.")
    return picture


# How broad a bit is in the picture of the mask, how high, and where the first word stands.
BIT, WORD, FIRST_WORD = 5, 20, 126


def mask():
    """The bits of a comparison before and after their transpose."""
    bits, traced, rows = 16, 3, (0, 9, 15)
    before, after = 72, 584
    picture = Picture(980, 496, "The mask of a comparison before and after its bit transpose")
    picture.note(16, 24, "The 1024 bits are sixteen words of 64 bits; bit 0 of a word is at the left.")
    picture.note(16, 44, f"Blue: rows 0 to 7 of u{bits}. Green: rows 8 to 15. Orange: lane {traced}.")
    picture.heading(before, 76, f"Before: bit lane * {bits} + row")
    picture.heading(after, 76, "After: bit index(row, lane)")
    bits_by_lane(picture, before, bits, traced)
    bits_by_row(picture, after, bits, traced)
    for word in range(BLOCK // 64):
        y = FIRST_WORD + word * WORD + WORD // 2
        picture.text(before - 8, y, f"word {word}", "end", GREY)
        picture.text(after + 64 * BIT + 8, y, f"word {word}", "start", GREY)
    for step, row in enumerate(reversed(rows)):
        bit_arrow(picture, (before, traced * bits + row), (after, index(row, traced)), step)
    moved = f"The arrows move rows {rows[0]}, {rows[1]} and {rows[2]} of lane {traced}."
    picture.note(before, FIRST_WORD + 16 * WORD + 26, moved)
    return picture


def bit_corner(left, bit):
    """The upper left corner of a bit, where the words begin at the left."""
    return left + bit % 64 * BIT, FIRST_WORD + bit // 64 * WORD


def bits_by_lane(picture, left, bits, traced):
    for lane in range(lanes_of(bits)):
        for row in range(0, bits, 8):
            x, y = bit_corner(left, lane * bits + row)
            picture.box(x, y, 8 * BIT, WORD, MARK if lane == traced else COLOURS[row // 8])
        x, y = bit_corner(left, lane * bits)
        picture.box(x, y, bits * BIT, WORD, "none", "#ffffff")
        picture.text(x + bits * BIT // 2, y + WORD // 2, f"lane {lane}")


def bits_by_row(picture, left, bits, traced):
    lanes = lanes_of(bits)
    for row in range(bits):
        x, y = bit_corner(left, index(row, 0))
        picture.box(x, y, lanes * BIT, WORD, COLOURS[row // 8], "#ffffff")
        picture.text(x + lanes * BIT // 2, y + WORD // 2, f"row {row}")
        x, y = bit_corner(left, index(row, traced))
        picture.box(x, y + 1, BIT, WORD - 2, MARK)


def bit_arrow(picture, source, target, step):
    """An arrow from a bit to a bit. Of each it is told where its words begin at the left, and its number."""
    x, y = bit_corner(*source)
    x_end, y_end = bit_corner(*target)
    turn, y_end = source[0] + 64 * BIT + 14 + step * 14, y_end + WORD // 2
    picture.arrow(f"M{x + BIT // 2} {y}V{y - 6 - step * 8}H{turn}V{y_end}H{x_end}")
    picture.text(target[0] - 10, y_end - 10, f"bit {source[1]} to bit {target[1]}", "end")


def column():
    """The heads of a column's blocks, their words, and where one value is."""
    bits, number = 32, 2689
    lanes = lanes_of(bits)
    names = ["1000 + i", "300", "77 + i / 64", "5000 + i / 8"]
    formulas = [lambda i: 1000 + i, lambda i: 300, lambda i: 77 + i // 64, lambda i: 5000 + i // 8]
    blocks = [[formula(i) for i in range(BLOCK)] for formula in formulas]
    heads = [head_of(block) for block in blocks]
    starts = [sum(lanes * width for _, width in heads[:b]) for b in range(len(heads) + 1)]
    picture = Picture(980, 496, "The heads of a column's blocks, their words, and where a value is")
    picture.heading(16, 24, f"A column of {len(blocks)} blocks of u{bits}: {starts[-1]} words in place of {len(blocks) * BLOCK}")
    b, place = divmod(number, BLOCK)
    column_heads(picture, names, heads, starts, lanes, b)
    column_words(picture, heads, starts, b)
    reference, width = heads[b]
    row, lane = place_of(place, bits)
    picture.heading(16, 320, f"Value number {number}: block {number} / {BLOCK} = {b}, place {number} % {BLOCK} = {place}")
    said = f"Place {place} is row {row} of lane {lane}; at width {width} its bits are {row * width} to {row * width + width - 1} of the lane's words."
    picture.note(16, 346, said)
    digits = digits_of(number_of([blocks[b][index(r, lane)] - reference for r in range(bits)], width), bits, width)
    column_value(picture, bits, width, row, starts[b] + lane, digits[0])
    digit = blocks[b][place] - reference
    picture.note(16, 472, f"Its digit is {digit}, and the value {reference} + {digit} = {reference + digit}.")
    return picture


def column_heads(picture, names, heads, starts, lanes, traced):
    """A table of the blocks: their values, their heads, and their words."""
    columns = [16, 110, 270, 390, 490, 720]
    for x, name in zip(columns, ["block", "value at place i", "reference", "width", "words", "they begin at"]):
        picture.text(x, 56, name, "start", GREY)
    for b, ((reference, width), name) in enumerate(zip(heads, names)):
        y = 80 + 26 * b
        if b == traced:
            picture.box(8, y - 12, 964, 24, PALE)
        picture.box(columns[0], y - 9, 18, 18, COLOURS[b])
        picture.text(columns[0] + 26, y, b, "start")
        cells = [name, reference, width, f"{lanes} * {width} = {lanes * width}", starts[b]]
        for x, cell in zip(columns[1:], cells):
            picture.text(x, y, cell, "start")


def column_words(picture, heads, starts, traced):
    """The words of the blocks, one after another."""
    left, top, breadth = 60, 216, 860
    for b, (_, width) in enumerate(heads):
        x, end = (left + start * breadth // starts[-1] for start in starts[b : b + 2])
        if width == 0:
            picture.path(f"M{x} {top - 12}V{top + 42}", INK, ' stroke-dasharray="4 3"')
            picture.text(x, top - 20, f"block {b}: no words")
            continue
        picture.box(x, top, end - x, 30, COLOURS[b], INK if b == traced else "#ffffff")
        picture.text((x + end) // 2, top + 15, f"block {b}")
    for start in sorted(set(starts)):
        x = left + start * breadth // starts[-1]
        picture.path(f"M{x} {top + 32}v8", GREY)
        picture.text(x, top + 52, start, fill=GREY)
    picture.text(left - 8, top + 52, "word", "end", GREY)


def column_value(picture, bits, width, row, word, value):
    """The bits of one word, with the digit of a row marked."""
    cell, left, top = 27, 100, 390
    picture.text(left - 10, top + 15, f"word {word}", "end")
    for bit in range(bits):
        of_row = bit // width == row
        picture.box(left + bit * cell, top, cell, 30, MARK if of_row else (BLUE, PALE)[bit // width % 2], "#ffffff")
        picture.text(left + bit * cell + cell // 2, top + 15, value >> bit & 1)
        picture.text(left + bit * cell + cell // 2, top - 12, bit, fill=GREY)
    for other in range(bits // width):
        x, end = left + other * width * cell, left + (other + 1) * width * cell
        picture.path(f"M{x + 3} {top + 34}v4H{end - 3}v-4", GREY)
        picture.text((x + end) // 2, top + 48, f"row {other}")


PICTURES = {
    "overview": overview,
    "places": places,
    "packed-lane": packed_lane,
    "words": words_of_lanes,
    "sixteen-lanes": sixteen_lanes,
    "transposed-lane": transposed_lane,
    "mask": mask,
    "column": column,
}


def main(arguments):
    drawn = {FOLDER / f"{name}.svg": draw().svg() for name, draw in PICTURES.items()}
    if arguments == ["--check"]:
        stale = [path for path in drawn if not path.is_file() or path.read_text() != drawn[path]]
        stale += [path for path in sorted(FOLDER.glob("*.svg")) if path not in drawn]
        for path in stale:
            print(f"{path} is not what docs/pictures.py draws")
        return 1 if stale else 0
    if arguments:
        print(__doc__)
        return 2
    FOLDER.mkdir(exist_ok=True)
    for path, text in drawn.items():
        path.write_text(text)
    return 0


if __name__ == "__main__":
    sys.exit(main(sys.argv[1:]))
