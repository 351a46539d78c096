#!/usr/bin/env bash
# Holds the digests that the tests of suite expect against crates/suite/lines, what a program over the Rust crate printed: prints
# 'ok NAME' where they are those of its lines. Any other line tells what is not. It is tried too, on lines of which one has another
# digest.
#
#     tests/digests.sh --write    stores them
set -u
cd "$(dirname "$0")/.." || exit 1
stored=crates/suite/src/tests/digests/stored.rt
lines=crates/suite/lines
digests() {
    python3 - "$1" <<'END'
"""Prints the digests of the digests of all lines of an element type and a width, as the file that the tests read."""
import itertools
import sys


def digest(lines):
    """The 64-bit FNV-1a hash of their digests, each as eight bytes, the lowest first."""
    found = 0xCBF29CE484222325
    for byte in b"".join(int(line[4], 16).to_bytes(8, "little") for line in lines):
        found = (found ^ byte) * 0x100000001B3 % 2**64
    text = f"{found:016X}"
    return "0x" + "_".join(text[at : at + 4] for at in range(0, 16, 4))


lines = [line.split() for line in open(sys.argv[1])]
found = {key: digest(group) for key, group in itertools.groupby(lines, key=lambda line: (line[1], line[2]))}


def array(name, text, keys):
    print(f"\n/// {text}\npub(crate) const {name}: [u64; {len(keys)}] = [")
    print("".join(f"    {found[key]},\n" for key in keys) + "];")


print("//! The digests of the lines of `crates/suite/lines`, which a program over the Rust crate printed. `tests/digests.sh --write`")
print("//! makes them of these.")
print(f"\n/// Of the lines without an element type.\npub(crate) const ORDERS: u64 = {found['-', '-']};")
array("WITHOUT_WIDTH", "Of the lines without a width, of `u8`, `u16`, `u32` and `u64`.", [(f"u{bits}", "-") for bits in (8, 16, 32, 64)])
for bits in 8, 16, 32, 64:
    array(f"U{bits}", f"Of the lines of `u{bits}` at each width.", [(f"u{bits}", str(width)) for width in range(bits + 1)])
END
}
if [ "${1-}" = --write ]; then
    digests $lines >$stored
    exit
fi
if digests $lines | cmp -s - $stored; then
    echo "ok the digests that suite expects are those of the $(wc -l <$lines) lines of the Rust crate"
else
    echo "$stored has other digests than $lines"
fi
if digests <(sed '5000s/.$/0/' $lines) | diff - $stored | grep -q '^<     0x'; then
    echo 'ok another digest of a line is seen'
else
    echo 'another digest of a line is not seen'
fi
