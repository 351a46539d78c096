#!/usr/bin/env bash
# Packs and unpacks blocks of bytes through the program, and prints a line for each thing that is as it should be:
# 'ok NAME'. Any other line tells what is not.
set -u
cd "$(dirname "$0")/.." || exit 1
work=$(mktemp -d)
trap 'rm -rf "$work"' EXIT

python3 - "$work" <<'END'
import pathlib
import subprocess
import sys

work = pathlib.Path(sys.argv[1])
PROGRAM = "./flblock"


def run(words, block):
    """The status, what was written, and how many bytes of the block stayed unread."""
    (work / "in").write_bytes(block)
    with open(work / "in", "rb", buffering=0) as source:
        done = subprocess.run([PROGRAM, *words.split()], stdin=source, capture_output=True)
        return done.returncode, done.stdout, len(source.read())


def check(name, holds):
    print(f"ok {name}" if holds else f"{name}: something else")


def bytes_of(values, bits):
    return b"".join(value.to_bytes(bits // 8, "little") for value in values)


# The block of i mod 8 as u16, packed to 3 bits: word 1 is 0x9249, word 65 0x4924, word 129 0x2492.
ramp = bytes_of([i % 8 for i in range(1024)], 16)
status, packed, unread = run("pack u16 3", ramp + b"x")
check("flblock pack u16 3 on a block and one byte", (status, len(packed), unread) == (0, 384, 1))
parts = packed[2:4], packed[130:132], packed[258:260]
check("flblock pack u16 3: its words", parts == (b"\x49\x92", b"\x24\x49", b"\x92\x24"))
check("flblock unpack u16 3", run("unpack u16 3", packed) == (0, ramp, 0))
check("flblock pack u16 3 on 2047 bytes", run("pack u16 3", ramp[:2047]) == (3, b"", 0))
check("flblock unpack u8 0", run("unpack u8 0", b"") == (0, bytes(1024), 0))
check("flblock pack u8 0", run("pack u8 0", bytes(1024)) == (0, b"", 0))
check("flblock pack u16 17", run("pack u16 17", ramp) == (2, b"", 2048))
check("flblock pack u24 3", run("pack u24 3", ramp) == (1, b"", 2048))
check("flblock pack u16 +3", run("pack u16 +3", ramp) == (1, b"", 2048))

# Every type and width: packed and unpacked, a value comes back modulo 2^width. The values differ in all of their bits
# along each lane.
for bits in 8, 16, 32, 64:
    mixed = [(2654435761 * (i + 1) % 2**32 // 2**12) * (1 + 2**20 + 2**40 + 2**60) % 2**bits for i in range(1024)]
    for width in range(bits + 1):
        status, packed, unread = run(f"pack u{bits} {width}", bytes_of(mixed, bits))
        there = (status, len(packed), unread) == (0, 128 * width, 0)
        low = bytes_of([value % 2**width for value in mixed], bits)
        check(f"flblock pack and unpack u{bits} {width}", there and run(f"unpack u{bits} {width}", packed) == (0, low, 0))
END
