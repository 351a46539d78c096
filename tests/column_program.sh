#!/usr/bin/env bash
# Runs ./flcolumn beside a second reader and writer of columns, and prints a line for each thing that is as it should be: 'ok NAME'.
# Any other line tells what is not.
set -u
cd "$(dirname "$0")/.." || exit 1
# shellcheck source=tests/check
. tests/check

# The proved build, which rt ci has left, says nothing on standard error.
./flcolumn --help >"$work/help" 2>"$work/said"
cat "$work/said"
check './flcolumn --help names the commands' grep -q 'encode.*decode.*info.*get' <(tr '\n' ' ' <"$work/help")
check './flcolumn --help explains encodings and indices' grep -q 'FOR.*delta.*--for-only.*start at 0' <(tr '\n' ' ' <"$work/help")

# Round trips: what the program writes is what the other writes, and what it reads is what the other was given.
python3 - <<'END' 2>&1
import os
import pathlib
import subprocess
import sys
import tempfile

sys.path.insert(0, "tests/columns")
import model


def run(words, data):
    """The status, the output and the text that the program ends with."""
    ended = subprocess.run(["./flcolumn"] + words.split(), input=data, capture_output=True)
    return ended.returncode, ended.stdout, ended.stderr.decode()


def check(name, holds):
    print(f"ok {name}" if holds else f"{name}: not so")


def thousandths(bytes_, values):
    """How many bytes a value has, in thousandths, rounded half up."""
    ratio = (2000 * bytes_ + values) // (2 * values)
    return f"{ratio // 1000}.{ratio % 1000:03}"


LENGTHS = {"none": (0,), "same": (1, 1024), "near": (1023, 1025), "ramp": (3000,), "far": (2, 2048)}
for bits in (8, 16, 32, 64):
    for frames_only, checked in ((False, True), (True, True), (False, False)):
        words = f"encode u{bits}" + " --for-only" * frames_only + " --no-checksums" * (not checked)
        there = back = True
        for kind, lengths in LENGTHS.items():
            for n in lengths:
                values = model.KINDS[kind](bits, n)
                data = model.bytes_of(bits, values)
                column = model.encode(bits, values, frames_only, checked)
                there = there and run(words, data) == (0, column, "")
                back = back and run("decode", column) == (0, data, "")
        check(f"flcolumn {words} writes as the model", there)
        check(f"flcolumn decode reads what {words} wrote", back)

data = model.bytes_of(32, model.KINDS["ramp"](32, 3000))
check("flcolumn encode takes --frames-only for --for-only", run("encode u32 --frames-only", data) == run("encode u32 --for-only", data) != run("encode u32", data))

# Several pages.
values = model.KINDS["ramp"](16, 66000)
data, column = model.bytes_of(16, values), model.encode(16, values)
check("flcolumn encode u16 on 66000 values", run("encode u16", data) == (0, column, ""))
check("flcolumn decode on 66000 values", run("decode", column) == (0, data, ""))
places = (0, 65999, 65535, 65536, 65536)
lines = "".join(f"{values[i]}\n" for i in places)
check("flcolumn get on 66000 values", run("get " + " ".join(map(str, places)), column) == (0, lines.encode(), ""))
check("flcolumn get of no such value", run("get 0 66000", column) == (7, b"", "flcolumn: index 66000 is out of range: the column has 66000 values\n"))
status, out, _ = run("info", column)
told = dict(line.split(": ", 1) for line in out.decode().splitlines())
wanted = {"element bits": "16", "checksums": "yes", "values": "66000", "pages": "2", "bytes": str(len(column)), "bytes a value": thousandths(len(column), 66000)}
check("flcolumn info on 66000 values", status == 0 and wanted.items() <= told.items())
check("flcolumn info counts the blocks", sum(int(count) for name, count in told.items() if " of width " in name) == 65)
check("flcolumn info draws the widths", 1 <= len(told["widths"]) <= 64)

# The longest pages: blocks of differences of the full width.
for bits in (8, 16, 32, 64):
    for blocks in (57, 64):
        for checked in (True, False):
            values = model.KINDS["far"](bits, 1024 * blocks)
            column = model.encode(bits, values, False, checked, model.widest_block)
            name = f"flcolumn decode on {blocks} blocks of differences of {bits} bits" + " without checksums" * (not checked)
            check(name, run("decode", column) == (0, model.bytes_of(bits, values), ""))

# 64 bytes for 7 and for 1024 values: 9.1428.. and 0.0625 bytes a value.
for count, ratio in ((7, "9.143"), (1024, "0.063")):
    small = model.encode(8, [5] * count)
    check(f"flcolumn info rounds the bytes a value of {count} values", f"bytes: 64\nbytes a value: {ratio}\n" in run("info", small)[1].decode())

# Every cut, and every bit that is turned, of a small column.
column = model.encode(8, model.KINDS["near"](8, 3), True)
cuts = [run("decode", column[:n]) for n in range(len(column))]
check("flcolumn decode refuses each cut", all(status == 2 and text.startswith("flcolumn: at byte ") for status, _, text in cuts))
check("flcolumn decode says where a cut is", all(int(text.split()[3].rstrip(":")) <= n for n, (_, _, text) in enumerate(cuts)))
check("flcolumn decode says what a cut is", all("unexpected end of input" in text for _, _, text in cuts))
turned = [column[: i // 8] + bytes([column[i // 8] ^ 1 << i % 8]) + column[i // 8 + 1 :] for i in range(0, 8 * len(column), 29)]
check("flcolumn decode refuses turned bits", all(run("decode", data)[0] == 2 for data in turned))
check("flcolumn info refuses turned bits", all(run("info", data)[:2] == (2, b"") for data in turned[::4]))
check("flcolumn get refuses turned bits", all(run("get 0", data)[:2] == (2, b"") for data in turned[::4]))
check("flcolumn decode refuses bytes behind a column", run("decode", column + b"x") == (2, model.bytes_of(8, model.KINDS["near"](8, 3)), f"flcolumn: at byte {len(column)}: unexpected bytes after the end of the column\n"))
huge = column[:16] + (2**32 - 1).to_bytes(4, "little") + column[20:]
check("flcolumn decode refuses a length that no page has", run("decode", huge) == (2, b"", "flcolumn: at byte 16: the page length does not match the page's contents\n"))
check("flcolumn encode refuses a part of a value", run("encode u32", b"12345") == (3, column[:0] + b"FLC\x01\x20\x03\0\0", "flcolumn: at byte 5: the input ends inside a value: expected a multiple of 4 bytes\n"))

# Files in place of the standard streams.
values = model.KINDS["ramp"](16, 66000)
data, column = model.bytes_of(16, values), model.encode(16, values)
folder = tempfile.TemporaryDirectory()
at = folder.name
files = {"values": data, "column": column, "long": bytes(2 * len(data)), "taken": b"taken"}
for name, held in files.items():
    pathlib.Path(at, name).write_bytes(held)
os.link(f"{at}/taken", f"{at}/hard")
os.symlink("taken", f"{at}/soft")


def ends(words, wanted, changed={}, data=b""):
    """Whether a run ends so, and of the files just these have other bytes, or are new."""
    ended = run(words, data)
    now = {it.name: it.read_bytes() for it in pathlib.Path(at).iterdir()}
    for name in changed:
        pathlib.Path(at, name).unlink() if name not in files else pathlib.Path(at, name).write_bytes(files[name])
    return ended == wanted and now == files | {"hard": b"taken", "soft": b"taken"} | changed


for words, of, given in (("encode u16", "values", data), ("decode", "column", column), ("info", "column", column), ("get 65999 0", "column", column)):
    status, out, text = run(words, given)
    check(f"flcolumn {words} reads a file", ends(f"{words} --input {at}/{of}", (0, out, "")))
    check(f"flcolumn {words} writes a file", ends(f"{words} --output {at}/new", (0, b"", ""), {"new": out}, given))
    check(f"flcolumn {words} goes between files", ends(f"{words} --input {at}/{of} --output {at}/new", (0, b"", ""), {"new": out}))
    check(f"flcolumn {words} writes over a file", ends(f"{words} --output={at}/long --input={at}/{of}", (0, b"", ""), {"long": out}))
missing = f'flcolumn: cannot read "{at}/missing": No such file or directory (os error 2)\n'
check("flcolumn refuses an input that is missing, and makes no output", ends(f"decode --input {at}/missing --output {at}/new", (4, b"", missing)))
check("flcolumn refuses an input that is missing, and leaves the output", ends(f"decode --input {at}/missing --output {at}/taken", (4, b"", missing)))
check("flcolumn refuses an input that is a folder", ends(f"info --input {at}", (4, b"", f'flcolumn: cannot read "{at}": Is a directory (os error 21)\n')))
for name, why in ((f"{at}/missing/new", "No such file or directory (os error 2)"), (at, "Is a directory (os error 21)")):
    refused = (5, b"", f'flcolumn: cannot write "{name}": {why}\n')
    check(f"flcolumn refuses an output: {why}", ends(f"encode u8 --input {at}/values --output {name}", refused))
check("flcolumn refuses an output that is full", ends(f"encode u8 --input {at}/values --output /dev/full", (5, b"", 'flcolumn: cannot write "/dev/full": No space left on device (os error 28)\n')))
for name in (f"{at}/taken", f"{at}/../{pathlib.Path(at).name}/taken", f"{at}/hard", f"{at}/soft"):
    same = (9, b"", f'flcolumn: cannot write "{name}": it is the input too\n')
    check(f"flcolumn refuses the input as its output: {name.removeprefix(at)}", ends(f"encode u8 --input {at}/taken --output {name}", same))
with open(f"{at}/taken", "rb") as taken:
    ended = subprocess.run(["./flcolumn", "encode", "u8", "--output", f"{at}/taken"], stdin=taken, capture_output=True)
check("flcolumn refuses standard input as its output", ended.returncode == 9 and pathlib.Path(at, "taken").read_bytes() == b"taken")
check("flcolumn reads and writes one device", ends("encode u8 --input /dev/null --output /dev/null", (0, b"", "")))

# What a terminal is told of long work, and of short work, and what no terminal is told.
with open(f"{at}/zeros", "wb") as zeros:
    zeros.truncate(129 << 20)


def told_to_terminal(words):
    """What the program writes to a terminal that is its standard error."""
    here, there = os.openpty()
    status = subprocess.run(["./flcolumn"] + words.split(), stdout=subprocess.DEVNULL, stderr=there).returncode
    os.write(there, b"|")
    said = b""
    while not said.endswith(b"|"):
        said += os.read(here, 4096)
    os.close(here)
    os.close(there)
    return status, said


long, short = f"encode u64 --input {at}/zeros", f"encode u16 --input {at}/values"
check("flcolumn tells a terminal how far it is", told_to_terminal(long) == (0, b"\rflcolumn: 64 MiB read\rflcolumn: 128 MiB read\r\x1b[K|"))
check("flcolumn tells a terminal nothing of short work", told_to_terminal(short) == (0, b"|"))
check("flcolumn tells nothing where there is no terminal", run(f"{long} --output /dev/null", b"") == (0, b"", ""))
folder.cleanup()
END

# The words, and the status that they should end in, with a text and no output.
refusal() {
    local status=$1 ended
    shift
    ./flcolumn "$@" </dev/null >"$work/out" 2>"$work/err"
    ended=$?
    check "flcolumn $*: status $status" test "$ended $(wc -c <"$work/out") $(test -s "$work/err" && echo said)" = "$status 0 said"
}
refusal 1
refusal 1 encode
refusal 1 encode u24
refusal 1 encode u8 u8
refusal 1 encode u8 --frames
refusal 1 Encode u8
refusal 1 decode u8
refusal 1 get
refusal 1 get x
refusal 1 get -1
refusal 1 get +1
refusal 1 get 0 +0
refusal 1 get 18446744073709551616
refusal 1 info --input
refusal 1 decode --output=a --output=b
refusal 1 $'\xff'
# What is wrong in a word is told by the program, with the word, and what is wrong in their form by clap.
says() {
    local text=$1
    shift
    ./flcolumn "$@" </dev/null 2>"$work/err"
    [ $? = 1 ] && [ "$(head -n 1 "$work/err")" = "$text" ]
}
is_type='expected u8, u16, u32 or u64'
is_index='expected a number below 2^64'
check 'flcolumn shows a type that is none' says "flcolumn: invalid type 'u17': $is_type" encode u17
check 'flcolumn shows a type with control characters' says "flcolumn: invalid type 'u8\\n': $is_type" encode $'u8\n'
check 'flcolumn shows an index that is a word' says "flcolumn: invalid index 'x': $is_index" get x
check 'flcolumn shows an index with a sign' says "flcolumn: invalid index '+1': $is_index" get +1
check 'flcolumn shows an index that is too large' says "flcolumn: invalid index '18446744073709551616': $is_index" get 18446744073709551616
check 'flcolumn shows an empty index' says "flcolumn: invalid index '': $is_index" get 0 ''
check 'flcolumn shows the first index that is none' says "flcolumn: invalid index '1.5': $is_index" get 0 1.5 x 2
check 'flcolumn tells of words that are no text' says 'flcolumn: an argument is not UTF-8 text' $'\xff'
check 'flcolumn leaves an option that it has not to clap' says "error: unexpected argument '--frames' found" encode u8 --frames
check 'flcolumn leaves an option without its value to clap' says "error: a value is required for '--input <FILE>' but none was supplied" info --input

refusal 2 decode
refusal 2 info
refusal 2 get 0
refusal 4 info --input ''

# FIFOs. A program that opened one which has no other end would wait for ever.
mkfifo "$work/one" "$work/other"
head -c 1000 /dev/zero >"$work/zeros"
same_fifo() {
    timeout 10 ./flcolumn "$@" --output "$work/one" >"$work/out" 2>"$work/err"
    [ $? = 9 ] && [ "$(cat "$work/err")" = "flcolumn: cannot write \"$work/one\": it is the input too" ]
}
standard_fifo() { same_fifo encode u8 <>"$work/one"; }
between_fifos() {
    timeout 10 cat "$work/zeros" >"$work/one" &
    timeout 10 cat "$work/other" >"$work/out" &
    timeout 10 ./flcolumn encode u8 --input "$work/one" --output "$work/other" && wait &&
        ./flcolumn decode <"$work/out" | cmp - "$work/zeros"
}
check 'flcolumn refuses a FIFO as its input and its output' same_fifo encode u8 --input "$work/one"
check 'flcolumn refuses a FIFO as its standard input and its output' standard_fifo
check 'flcolumn goes between two FIFOs' between_fifos

# The second table of docs/PROGRAM.md has the texts.
sed -n '/^## flcolumn/,$p' docs/PROGRAM.md >"$work/page"
stands_in_table() { check "docs/PROGRAM.md: status $1 of flcolumn" grep -qF "| $1 | \`$2\` |" "$work/page"; }
stands_in_table 2 'at byte N: ..'
stands_in_table 1 "invalid type 'WORD': expected u8, u16, u32 or u64"
stands_in_table 1 "invalid index 'WORD': expected a number below 2^64"
stands_in_table 3 'at byte N: the input ends inside a value: expected a multiple of M bytes'
stands_in_table 4 'cannot read standard input: ..'
stands_in_table 4 'cannot read "FILE": ..'
stands_in_table 5 'cannot write standard output: ..'
stands_in_table 5 'cannot write "FILE": ..'
stands_in_table 6 'out of memory'
stands_in_table 7 'index N is out of range: the column has M values'
stands_in_table 8 'too many values: expected fewer than 2^64 in a column'
stands_in_table 9 'cannot write "FILE": it is the input too'
