#!/usr/bin/env bash
# Runs the program by the command of the README, and prints a line for each thing that is as it should be: 'ok NAME'. Any
# other line tells what is not.
# shellcheck disable=SC2030,SC2031
set -u
cd "$(dirname "$0")/.." || exit 1
work=$(mktemp -d)
trap 'rm -rf "$work"' EXIT

# The words, and the status and the text of the refusal that they should end in.
refusal() {
    local words=$1 status=$2 text=$3 ended
    # shellcheck disable=SC2086
    ./flblock $words >"$work/out" 2>"$work/err"
    ended=$?
    if [ "$ended" = "$status" ] && [ ! -s "$work/out" ] && [ "$(cat "$work/err")" = "$text" ]; then
        echo "ok flblock $words: status $status"
    else
        echo "flblock $words: status $ended, '$(cat "$work/err")'"
    fi
}

usage='usage: flblock ramp|pack|unpack u8|u16|u32|u64 WIDTH'
wide="width is greater than the type's bits"

# The proved build, which rt ci has left, says nothing else on standard error.
./flblock >"$work/first" 2>"$work/log"
cat "$work/log"

# The block of i mod 16 at four bits: line j is four times the digit of j mod 16.
for j in $(seq 0 255); do printf '%x%x%x%x\n' $((j % 16)) $((j % 16)) $((j % 16)) $((j % 16)); done >"$work/ramp"
cmp -s "$work/first" "$work/ramp" && echo 'ok flblock without words' || echo 'flblock without words writes something else'
./flblock ramp u16 4 >"$work/out" && cmp -s "$work/out" "$work/ramp" && echo 'ok flblock ramp u16 4' || echo 'flblock ramp u16 4 writes something else'

# A line of what the program wrote last, counted from 0.
line() { sed -n "$(($1 + 1))p" "$work/out"; }
./flblock ramp u8 3 >"$work/out"
[ "$(wc -l <"$work/out") $(line 0) $(line 1) $(line 129) $(line 257)" = '384 00 49 92 24' ] && echo 'ok flblock ramp u8 3' || echo 'flblock ramp u8 3 writes something else'
./flblock ramp u64 64 >"$work/out"
[ "$(wc -l <"$work/out") $(line 16) $(line 128)" = '1024 0000000000000080 0000000000000040' ] && echo 'ok flblock ramp u64 64' || echo 'flblock ramp u64 64 writes something else'
./flblock ramp u32 0 >"$work/out" && [ ! -s "$work/out" ] && echo 'ok flblock ramp u32 0' || echo 'flblock ramp u32 0 writes something'

refusal 'ramp u16 17' 2 "$wide"
refusal 'ramp u8 999999999' 2 "$wide"
refusal 'ramp u24 3' 1 "$usage"
refusal 'ramp u16 +3' 1 "$usage"
refusal 'ramp u16 0x3' 1 "$usage"
refusal 'ramp u16 0000000003' 1 "$usage"
refusal 'Ramp u16 3' 1 "$usage"
refusal 'ramp U16 3' 1 "$usage"
refusal 'ramp u16' 1 "$usage"
refusal 'ramp u16 3 3' 1 "$usage"
refusal 'ramp u24 99' 1 "$usage"

# The table of docs/PROGRAM.md has the statuses and the texts.
stands_in_table() {
    local text=${2//|/\\|}
    grep -qF "| $1 | \`$text\` |" docs/PROGRAM.md && echo "ok docs/PROGRAM.md: status $1" || echo "docs/PROGRAM.md has no status $1 with '$2'"
}
stands_in_table 1 "$usage"
stands_in_table 2 "$wide"
stands_in_table 3 'input ended before the block was whole'
stands_in_table 4 'reading failed'
stands_in_table 5 'writing failed'
stands_in_table 6 'no memory'

# The same where a stream, an argument or the memory fails: the name of the case, the status, the text, and what is run.
failing() {
    local name=$1 status=$2 text=$3 ended
    shift 3
    "$@" 2>"$work/err"
    ended=$?
    if [ "$ended" = "$status" ] && [ "$(cat "$work/err")" = "$text" ]; then
        echo "ok flblock $name: status $status"
    else
        echo "flblock $name: status $ended, '$(cat "$work/err")'"
    fi
}

on_no_bytes() { ./flblock pack u16 3 </dev/null; }
on_a_directory() { ./flblock pack u16 3 <.; }
on_closed_input() { ./flblock pack u16 3 <&-; }
on_a_pipe_that_ends_early() { head -c 2047 /dev/zero | ./flblock pack u16 3; }
to_a_full_device() { ./flblock ramp u16 4 >/dev/full; }
to_closed_output() { ./flblock ramp u16 4 >&-; }
# Its reader has ended by the time that the program begins.
to_a_pipe_that_ends_early() {
    local ended
    exec 3> >(:)
    wait $!
    ./flblock ramp u64 64 >&3
    ended=$?
    exec 3>&-
    return $ended
}
# Where nothing is read or nothing is written, nobody misses the stream.
no_bytes_on_closed_input() { ./flblock unpack u16 0 <&- | cmp - <(head -c 2048 /dev/zero) && return "${PIPESTATUS[0]}"; }
no_bytes_to_a_full_device() { ./flblock pack u8 0 </dev/zero >/dev/full; }
# The status tells where the text cannot be written.
with_closed_error() { ./flblock pack u24 3 2>&-; }
with_full_error() { ./flblock pack u16 17 2>/dev/full; }
# A hundred thousand words, where the program has 8 MB.
with_little_memory() {
    python3 -c 'import resource, subprocess, sys
limit = lambda: resource.setrlimit(resource.RLIMIT_AS, (2**23, 2**23))
sys.exit(subprocess.run(["crates/flblock_main/out/flblock_main"] + ["word"] * 100000, preexec_fn=limit).returncode)'
}
failing 'on no bytes' 3 'input ended before the block was whole' on_no_bytes
failing 'on a directory' 4 'reading failed' on_a_directory
failing 'on closed input' 4 'reading failed' on_closed_input
failing 'on a pipe that ends early' 3 'input ended before the block was whole' on_a_pipe_that_ends_early
failing 'to a full device' 5 'writing failed' to_a_full_device
failing 'to closed output' 5 'writing failed' to_closed_output
failing 'to a pipe that ends early' 5 'writing failed' to_a_pipe_that_ends_early
failing 'unpack u16 0 on closed input' 0 '' no_bytes_on_closed_input
failing 'pack u8 0 to a full device' 0 '' no_bytes_to_a_full_device
failing 'pack u24 3 with closed standard error' 1 '' with_closed_error
failing 'pack u16 17 to a full standard error' 2 '' with_full_error
failing 'with a verb that is no text' 1 "$usage" ./flblock $'\xff' u16 3
failing 'with a type that is no text' 1 "$usage" ./flblock ramp $'u16\xfe' 3
failing 'with a width that is no text' 1 "$usage" ./flblock ramp u16 $'3\xc3'
failing 'with a word too many that is no text' 1 "$usage" ./flblock ramp u16 3 $'\xff'
failing 'with little memory' 6 'no memory' with_little_memory

# Streams that take or give a part of what they are asked for. Each of these is run by the program and by others, below, which write
# what they read.
# A whole run through a pipe that holds 4096 bytes: the writer waits there, and a signal ends its call with what was taken. The
# reader takes single bytes, at most this many, and leaves.
through_a_pipe() {
    python3 - "$work/ramp64" "$@" <<'END'
import fcntl, os, signal, subprocess, sys, termios, time
ours, theirs = os.pipe()
fcntl.fcntl(theirs, 1031, 4096)  # F_SETPIPE_SZ
run = subprocess.Popen(sys.argv[3:], stdin=open(sys.argv[1], "rb"), stdout=theirs)
os.close(theirs)
while run.poll() is None and int.from_bytes(fcntl.ioctl(ours, termios.FIONREAD, bytes(4)), sys.byteorder) < 4096:
    time.sleep(0.01)
while run.poll() is None and open(f"/proc/{run.pid}/stat").read().rsplit(")", 1)[1].split()[0] != "S":
    time.sleep(0.01)
os.kill(run.pid, signal.SIGSTOP)
os.waitpid(run.pid, os.WUNTRACED)
os.kill(run.pid, signal.SIGCONT)
taken = b""
while len(taken) < int(sys.argv[2]) and (byte := os.read(ours, 1)):
    taken += byte
os.close(ours)
sys.stdout.buffer.write(taken)
sys.exit(run.wait())
END
}
# A block through a pipe, of which the second part comes once the first is read.
from_a_pipe() {
    python3 - "$work/values" "$@" <<'END'
import fcntl, os, subprocess, sys, termios, time
block = open(sys.argv[1], "rb").read()
theirs, ours = os.pipe()
run = subprocess.Popen(sys.argv[2:], stdin=theirs)
for part in block[:1000], block[1000:]:
    os.write(ours, part)
    while run.poll() is None and any(fcntl.ioctl(theirs, termios.FIONREAD, bytes(4))):
        time.sleep(0.01)
os.close(ours)
sys.exit(run.wait())
END
}
# What is run has to write this many bytes of the file, and no others.
writes() {
    local file=$1 length=$2 ended
    shift 2
    "$@" >"$work/part"
    ended=$?
    cmp -s "$work/part" <(head -c "$length" "$file") && return $ended
    echo "it writes other bytes, $(wc -c <"$work/part")" >&2
    return 99
}
to_a_short_file() (
    trap '' XFSZ
    prlimit --fsize=1000 "$@" <"$work/ramp"
)
# A program, and its words where it writes the ramp of four bits, that of 64, and what it makes of the block: this file.
parts() {
    local program=$1 ramp=$2 ramp64=$3 block=$4 made=$work/$5
    # shellcheck disable=SC2086
    {
        failing 'to a file with room for 1000 bytes' 5 'writing failed' writes "$work/ramp" 1000 to_a_short_file "$program" $ramp
        failing 'to a pipe that takes parts' 0 '' writes "$work/ramp64" 17408 through_a_pipe 20000 "$program" $ramp64
        failing 'to a reader that leaves' 5 'writing failed' writes "$work/ramp64" 100 through_a_pipe 100 "$program" $ramp64
        failing 'on a pipe that gives parts' 0 '' writes "$made" "$(stat -c %s "$made")" from_a_pipe "$program" $block
    }
}
for _ in {0..127}; do printf '\0\0\1\0\2\0\3\0\4\0\5\0\6\0\7\0'; done >"$work/values"
./flblock pack u16 3 <"$work/values" >"$work/packed"
./flblock ramp u64 64 >"$work/ramp64"
parts ./flblock 'ramp u16 4' 'ramp u64 64' 'pack u16 3' packed

# A small program over the adapters.
copier() {
    cat <<'END'
//! Reads so many bytes from standard input, and writes them to standard output.
#![tactic(auto)]

use fastlanes_streams::{Counted, fill, finish};
use std::env;
use std::process::ExitCode;

fn main(rt: HostRuntime) -> ExitCode {
    let len = env::args(&rt)
        .ok()
        .and_then(|args| args.skip(1).next())
        .and_then(|arg| arg.as_str().parse().ok())
        .unwrap_or(0);
    let mut bytes = [0; 17408];
    let bytes = &mut bytes[..len];
    if fill(&mut Counted::new(rt.stdin()), bytes).is_err() {
        return ExitCode::from(4);
    }
    if finish(&mut Counted::new(rt.stdout()), bytes).is_err() {
        let _ = eprintln!(rt; "writing failed");
        return ExitCode::from(5);
    }
    ExitCode::SUCCESS
}
END
}

# The same with that program over wrong adapters, in copies, built without proofs: what is wrong, the line and what stands there,
# and how many of the four tests have to fail. Each test passes over one of them.
adapters=crates/fastlanes_streams/src/counted.rt
is_caught() {
    local what=$1 old=$2 new=$3 failed=$4 tree log
    tree=$(mktemp -d -p "$work")
    mkdir -p "$tree/crates/copier/src"
    tar -c --exclude=out start HANDLES crates/fastlanes_streams | tar -x -C "$tree"
    printf 'fastlanes_streams:\ncopier: fastlanes_streams\n' >"$tree/crates.txt"
    copier >"$tree/crates/copier/src/main.rt"
    grep -qF "$old" "$tree/$adapters" || echo "no adapter has '$old'"
    python3 -c 'import sys
path, old, new = sys.argv[1:]
text = open(path).read()
open(path, "w").write(text.replace(old, new, 1))' "$tree/$adapters" "$old" "$new"
    "$tree/start" copier 0 2>"$tree/log" || cat "$tree/log"
    log=$(work=$tree-run && mkdir "$work" && cp "$tree/../"{ramp,ramp64,values} "$work" &&
        parts "$tree/crates/copier/out/copier.unproved" 1280 17408 2048 values)
    if [ "$(grep -vc '^ok ' <<<"$log")" = "$failed" ] && [ "$(grep -c '^ok ' <<<"$log")" = $((4 - failed)) ]; then
        echo "ok a program over an adapter that $what is caught"
    else
        printf 'a program over an adapter that %s is not caught where it has to be:\n%s\n' "$what" "$log"
    fi
}
is_caught 'tells a part that was taken as all' 'Ok(count) if count > 0 => Ok(count)' 'Ok(count) if count > 0 => Ok(bytes.len())' 3 >"$work/caught1" &
is_caught 'tells a write that failed as all taken' '_ => self.fail(),' '_ => Ok(bytes.len()),' 2 >"$work/caught2" &
is_caught 'tells a short read as a whole one' 'Ok(count) => Ok(count)' 'Ok(count) => Ok(if count > 0 { buf.len() } else { 0 })' 1 >"$work/caught3" &
wait
cat "$work/caught"[123]

# The loop of docs/PROGRAM.md: three blocks and a half become four packed ones, each as if it were packed alone, and come back.
mkdir "$work/loop"
ln -s "$PWD/flblock" "$work/loop/flblock"
for _ in {0..447}; do printf '\0\0\1\0\2\0\3\0\4\0\5\0\6\0\7\0'; done >"$work/loop/values"
head -c 2048 "$work/loop/values" | ./flblock pack u16 3 >"$work/block"
{ tail -c 1024 "$work/loop/values"; head -c 1024 /dev/zero; } | ./flblock pack u16 3 >"$work/last"
# shellcheck disable=SC2016
loop=$(sed -n '/^```bash/,/^```/{//!p}' docs/PROGRAM.md)
if (cd "$work/loop" && bash -c "$loop") && cmp "$work/loop/values" "$work/loop/back" &&
    cat "$work/block" "$work/block" "$work/block" "$work/last" | cmp - "$work/loop/packed"; then
    echo 'ok flblock in the loop of docs/PROGRAM.md'
else
    echo 'the loop of docs/PROGRAM.md packs or unpacks something else'
fi

# Every type and width against the stored answers of the Rust crate.
while read -r type width digest; do
    case $type in '#'*) continue ;; esac
    found=$(./flblock ramp "$type" "$width" | sha256sum | cut -d ' ' -f 1)
    [ "$found" = "$digest" ] && echo "ok flblock ramp $type $width" || echo "flblock ramp $type $width differs from the Rust crate"
done <tests/ramp.sha256
