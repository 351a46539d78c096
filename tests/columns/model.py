"""A second reader and writer of columns as bytes, by docs/FORMAT.md and the layout's definitions alone, slow and plain. What tests of
crates/suite_of_callers expect comes from here: `python3 tests/columns/model.py` prints it."""

ORDER = [0, 4, 2, 6, 1, 5, 3, 7]


def place(row, lane):
    """Where a row of a lane stands in a block."""
    return ORDER[row // 8] * 16 + row % 8 * 128 + lane


def transposed_index(i):
    """Which value of a block of neighbours stands at a place of the transposed block."""
    return i % 16 * 64 + ORDER[i // 16 % 8] * 8 + i // 128


def crc32c(data):
    register = 0xFFFFFFFF
    for byte in data:
        register ^= byte
        for _ in range(8):
            register = register >> 1 ^ (0x82F63B78 if register & 1 else 0)
    return register ^ 0xFFFFFFFF


def packed(bits, width, block):
    """The words of a block: those of a lane are its values as digits of `width` bits, the first row lowest."""
    lanes = 1024 // bits
    words = [0] * (lanes * width)
    for lane in range(lanes):
        number = sum((block[place(row, lane)] % 2**width) << width * row for row in range(bits))
        for k in range(width):
            words[lanes * k + lane] = number >> bits * k & 2**bits - 1
    return words


def unpacked(bits, width, words):
    lanes = 1024 // bits
    block = [0] * 1024
    for lane in range(lanes):
        number = sum(words[lanes * k + lane] << bits * k for k in range(width))
        for row in range(bits):
            block[place(row, lane)] = number >> width * row & 2**width - 1
    return block


def bytes_of(bits, words):
    return b"".join(word.to_bytes(bits // 8, "little") for word in words)


def words_of(bits, data):
    return [int.from_bytes(data[i : i + bits // 8], "little") for i in range(0, len(data), bits // 8)]


def width_of(numbers):
    return max(number.bit_length() for number in numbers)


def differences(bits, block):
    """The bases of a block's lanes, and the differences of its neighbours in the order of lanes."""
    lanes = 1024 // bits
    before = lambda i: block[max(i - 1, 0)]
    bases = [before(transposed_index(lane)) for lane in range(lanes)]
    along = [0] * 1024
    for i in range(1024):
        j = transposed_index(i)
        along[i] = (block[j] - before(j)) % 2**bits
    return bases, along


def block_of(bits, block, frames_only):
    """The form, the width and the reference of a block, and its bytes."""
    least = min(block)
    frame = width_of([value - least for value in block])
    bases, along = differences(bits, block)
    width = width_of(along)
    if frames_only or frame <= width + 1:
        return 0, frame, least, bytes_of(bits, packed(bits, frame, [value - least for value in block]))
    return 1, width, 0, bytes_of(bits, bases) + bytes_of(bits, packed(bits, width, along))


def sealed(values, body, checked):
    rest = values.to_bytes(4, "little") + len(body).to_bytes(4, "little") + bytes(4) + body
    return (crc32c(rest) if checked else 0).to_bytes(4, "little") + rest


def widest_block(bits, block, frames_only=False):
    """The same of a block of differences of the full width, the longest that a block can be."""
    bases, along = differences(bits, block)
    return 1, bits, 0, bytes_of(bits, bases) + bytes_of(bits, packed(bits, bits, along))


def page_of(bits, values, frames_only, checked, block_of=block_of):
    heads, data = b"", b""
    blocks = (len(values) + 1023) // 1024
    for k in range(blocks):
        block = values[1024 * k : 1024 * k + 1024]
        form, width, reference, own = block_of(bits, block + [block[-1]] * (1024 - len(block)), frames_only)
        start = 16 + 16 * blocks + len(data)
        heads += bytes([form, width, 0, 0]) + start.to_bytes(4, "little") + reference.to_bytes(8, "little")
        data += own
    return sealed(len(values), heads + data, checked)


def encode(bits, values, frames_only=False, checked=True, block_of=block_of):
    out = b"FLC\x01" + bytes([bits, 3 if checked else 0, 0, 0])
    for i in range(0, len(values), 65536):
        out += page_of(bits, values[i : i + 65536], frames_only, checked, block_of)
    return out + sealed(0, len(values).to_bytes(8, "little"), checked)


def decode(bits, data):
    """The values of a column, or None where the bytes are none."""
    number = lambda part: int.from_bytes(part, "little")
    if len(data) < 8 or data[:4] != b"FLC\x01" or data[4] != bits or data[5] not in (0, 3) or data[6:8] != bytes(2):
        return None
    checked, rest, values, lanes = data[5] == 3, data[8:], [], 1024 // bits
    while True:
        if len(rest) < 16 or len(rest) < 16 + number(rest[8:12]):
            return None
        page, rest = rest[: 16 + number(rest[8:12])], rest[16 + number(rest[8:12]) :]
        count = number(page[4:8])
        if number(page[12:16]) or number(page[:4]) != (crc32c(page[4:]) if checked else 0):
            return None
        if count == 0:
            return values if len(page) == 24 and not rest and number(page[16:]) == len(values) else None
        blocks = (count + 1023) // 1024
        if count > 65536 or len(values) % 65536 or len(page) < 16 + 16 * blocks:
            return None
        start, heads = 16 + 16 * blocks, []
        for k in range(blocks):
            head = page[16 + 16 * k : 32 + 16 * k]
            form, width, reference = head[0], head[1], number(head[8:])
            if form > 1 or width > bits or head[2:4] != bytes(2) or number(head[4:8]) != start or reference >> bits or form and reference:
                return None
            heads.append((form, width, reference, start))
            start += 128 * (form + width)
        if start != len(page):
            return None
        found = []
        for form, width, reference, start in heads:
            own = page[start : start + 128 * (form + width)]
            if form == 0:
                found += [(digit + reference) % 2**bits for digit in unpacked(bits, width, words_of(bits, own))]
                continue
            bases, along = words_of(bits, own[:128]), unpacked(bits, width, words_of(bits, own[128:]))
            block = [0] * 1024
            for lane in range(lanes):
                value = bases[lane]
                for row in range(bits):
                    value = (value + along[place(row, lane)]) % 2**bits
                    block[transposed_index(place(row, lane))] = value
            found += block
        values += found[:count]


def bounds_of(bits, form, width, reference, own):
    """Bounds of the values of a block, without its packed words. If the upper bound is not an element, they are all elements."""
    bases = words_of(bits, own[:128]) if form else [reference]
    least, greatest = min(bases), max(bases) + (bits if form else 1) * (2**width - 1)
    return (least, greatest) if greatest < 2**bits else (0, 2**bits - 1)


def bounds(bits, data):
    """The bounds of each block of a column."""
    number = lambda part: int.from_bytes(part, "little")
    found, rest = [], data[8:]
    while count := number(rest[4:8]):
        for k in range((count + 1023) // 1024):
            head = rest[16 + 16 * k : 32 + 16 * k]
            form, width, start = head[0], head[1], number(head[4:8])
            found.append(bounds_of(bits, form, width, number(head[8:]), rest[start : start + 128 * (form + width)]))
        rest = rest[16 + number(rest[8:12]) :]
    return found


def decided(bits, data, value):
    """How many blocks a comparison with a value decides without their packed words."""
    return sum(not least <= value <= greatest for least, greatest in bounds(bits, data))


# Five kinds of values, as many as are asked for, of elements of so many bits.
KINDS = {
    "none": lambda bits, n: [],
    "same": lambda bits, n: [200] * n,
    "near": lambda bits, n: [(7 * i * i + 3 * i) % 50 + 100 for i in range(n)],
    "ramp": lambda bits, n: [3 * i % 2**bits for i in range(n)],
    "far": lambda bits, n: [(2654435761 * (i + 1) % 2**32 * 4294967311 + i) % 2**bits for i in range(n)],
}

def changed(data):
    """Bytes that are nearly those of a column: each bit turned, cut off at each place, and each byte twice."""
    for i in range(8 * len(data)):
        yield data[: i // 8] + bytes([data[i // 8] ^ 1 << i % 8]) + data[i // 8 + 1 :]
    for i in range(len(data)):
        yield data[:i]
    for i in range(len(data)):
        yield data[: i + 1] + data[i:]


def digest(bits, data):
    """One number that tells which of these are columns, and of which values."""
    total = 0
    for other in changed(data):
        values = decode(bits, other)
        own = 0 if values is None else 1 + crc32c(bytes_of(bits, values))
        total = crc32c(total.to_bytes(4, "little") + own.to_bytes(8, "little"))
    return total


if __name__ == "__main__":
    print("bits, blocks, bytes of a column of one page whose blocks are differences of the full width, each value 7, their checksum")
    for bits in (8, 16, 32, 64):
        for blocks in (57, 64):
            data = encode(bits, [7] * 1024 * blocks, False, False, widest_block)
            assert decode(bits, data) == [7] * 1024 * blocks
            print(f"    ({bits}, {blocks}, {len(data)}, {crc32c(data)}),")
    print("bits, kind, values, whether frames alone, whether with checksums, bytes, their checksum")
    for bits in (8, 16, 32, 64):
        for kind, values_of in KINDS.items():
            for n in (0,) if kind == "none" else (1, 1023, 1024, 1025, 3000) + ((66000,) if kind == "ramp" else ()):
                values = values_of(bits, n)
                for frames_only, checked in ((False, True), (True, False)):
                    data = encode(bits, values, frames_only, checked)
                    assert decode(bits, data) == values
                    print(f"    ({bits}, {list(KINDS).index(kind)}, {n}, {str(frames_only).lower()}, {str(checked).lower()}, {len(data)}, {crc32c(data)}),")
        for frames_only in (False, True):
            values = KINDS["ramp"](bits, 66000)
            data = encode(bits, values, frames_only)
            found = bounds(bits, data)
            assert all(found[i // 1024][0] <= value <= found[i // 1024][1] for i, value in enumerate(values))
            told = [(value, decided(bits, data, value)) for value in (0, values[1023], values[1024], values[33000], values[-1], 2**bits - 1)]
            print(f"    ({bits}, {str(frames_only).lower()}, ({min(found)[0]}, {max(greatest for _, greatest in found)}), {told}),")
        for checked in (True, False):
            values = KINDS["near"](bits, 3)
            print(f"u{bits} with {len(values)} values, {checked}: {digest(bits, encode(bits, values, True, checked))}")
