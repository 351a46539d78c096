#!/usr/bin/env bash
# Refuses memory: to the library and to its tests, which ask for none, and to the program, whose arguments need some. Prints
# a line for each thing that is as it should be: 'ok NAME'. Any other line tells what is not. Each check is tried too, on
# what it has to refuse. The tests and the program are those that rt ci has left. FASTLANES_C_LIB may name the static
# library, by an absolute path.
set -u
cd "$(dirname "$0")/.." || exit 1
command -v cc >/dev/null || {
    echo "skipped: the tests of memory (no cc)"
    exit 0
}
# shellcheck source=tests/check
. tests/check
# shellcheck source=tests/in_turn
. tests/in_turn

# shellcheck source=tests/static_library
. tests/static_library
library=$FASTLANES_C_LIB

fails() { ! "$@"; }

# No file of the folders, but of their tests, names what hands out memory: code asks for it through an allocator that it is given.
asks_no_allocator() {
    grep -rnE --exclude=tests.rt --exclude-dir=tests '\b[Aa]lloc(Global|ator)?\b|\b(Box|Rc|Arc|Vec|String)\b' "$@"
    # Where a folder is missing it ends with another status.
    [ $? = 1 ]
}
# What the archive needs of others is what sets and compares bytes, and it does not call the system itself.
needs_no_memory() {
    local needed
    needed=$(nm -u "$1" | sed -n 's/^ *U //p' | grep -vxE 'mem(set|cpy|move|cmp)|bcmp')
    [ -z "$needed" ] || {
        echo "it needs $needed"
        return 1
    }
    [ -s "$1" ] && ! objdump -d "$1" | grep -wE 'syscall|sysenter|int +\$0x80'
}

check 'the libraries are given no allocator' asks_no_allocator crates/fastlanes*/src crates/flblock/src
mkdir "$work/asking"
echo 'pub fn ask(rt: &impl AllocGlobal) { let _ = Vec::<u8>::new(); }' >"$work/asking/lib.rt"
check 'one that is given an allocator is refused' fails asks_no_allocator "$work/asking"
check 'a folder that is missing is refused' fails asks_no_allocator "$work/missing"
check 'the static library needs no memory' needs_no_memory "$library"
echo '#include <stdlib.h>
void *ask(void) { return malloc(8); }' | cc -x c -c -o "$work/asking.o" - && ar rc "$work/asking.a" "$work/asking.o"
check 'one that needs memory is refused' fails needs_no_memory "$work/asking.a"

# Every function at every width while each request for memory ends the program, on buffers between pages that must not be
# touched. It reads a count, so that a function left out shows.
flags='-std=c99 -O1 -Wall -Wextra -Werror -I include'
# shellcheck disable=SC2086
check 'tests/memory/library.c compiles' cc $flags -o "$work/library" tests/memory/library.c "$library"
check 'every function of the header answers where no memory is given, on the stack that it promises' tests/memory/answers "$work/library"
echo '#include "fastlanes.h"
#include <stdlib.h>
void fl_unpack_u8(size_t width, const uint8_t *input, size_t input_len, uint8_t *output) {
    free(malloc(8));
    (void)width, (void)input, (void)input_len, (void)output;
}' | cc -x c -I include -fno-builtin -c -o "$work/asking.o" -
objcopy --weaken-symbol=fl_unpack_u8 "$library" "$work/weak.a"
# shellcheck disable=SC2086
cc $flags -o "$work/library" tests/memory/library.c "$work/asking.o" "$work/weak.a" 2>"$work/log"
check 'a function that asks for memory is refused' fails tests/memory/answers "$work/library"

check 'tests/memory/refuse.c compiles' cc -O1 -Wall -Wextra -Werror -shared -fPIC -o "$work/refuse.so" tests/memory/refuse.c

# The library's own tests, with every request for memory refused: each passes, and has made none.
passes_without_memory() {
    rm -f "$work/refused"
    REFUSED_REQUEST=each REFUSED_FILE=$work/refused LD_PRELOAD=$work/refuse.so "$1" "$2" >"$work/out" 2>&1
    grep -qx 'test result: ok' "$work/out" && [ ! -e "$work/refused" ]
}
# The tests of a program, but those of the module that may ask, where it has one.
all_pass_without_memory() {
    local names name
    names=$("$1" --list | sed -n 's/: test$//p')
    [ "$("$1" --list | tail -n 1)" = "tests: $(wc -l <<<"$names")" ] || return 1
    for name in $(grep -v "^${2:-none}::" <<<"$names"); do
        passes_without_memory "$1" "$name" || {
            echo "$name fails, or asks for memory"
            return 1
        }
    done
}
is_refused() { ! passes_without_memory "$@" && [ -e "$work/refused" ]; }
check 'every test of suite passes where no memory is given' all_pass_without_memory crates/suite/out/suite_tests
check 'every test of suite_of_callers does, but those of with_memory' \
    all_pass_without_memory crates/suite_of_callers/out/suite_of_callers_tests tests::with_memory
check 'a test that asks for memory is refused' \
    is_refused crates/suite_of_callers/out/suite_of_callers_tests tests::with_memory::commands::run::writes_may_fail

# The program, with each of its requests for memory refused in turn.
for _ in {0..127}; do printf '\0\0\1\0\2\0\3\0\4\0\5\0\6\0\7\0'; done >"$work/block"

preload=$work/refuse.so
refused=REFUSED_REQUEST
input=$work/block
ends_without_memory() {
    [ "$(cat "$work/status")" = 6 ] && [ ! -s "$work/out" ] && [ "$(cat "$work/err")" = 'no memory' ]
}

# Where one of its requests is refused a program ends as without, or for want of memory.
bears_refusal() {
    if ends_without_memory; then echo 'no memory' >>"$work/seen"; else ends_as_without; fi
}
bears_refusals() { in_turn bears_refusal "$@"; }

program=crates/flblock_main/out/flblock_main
check 'flblock without words bears refusals' bears_refusals $program
check 'flblock ramp u64 64 bears refusals' bears_refusals $program ramp u64 64
check 'flblock pack u16 3 bears refusals' bears_refusals $program pack u16 3
check 'flblock unpack u16 3 bears refusals' bears_refusals $program unpack u16 3
check 'flblock pack u24 3 bears refusals' bears_refusals $program pack u24 3
# shellcheck disable=SC2046
check 'flblock with many words bears refusals' bears_refusals $program $(seq 100)
check 'some refusal ended for want of memory' grep -q 'no memory' "$work/seen"
echo '#include <stdio.h>
#include <stdlib.h>
int main(void) {
    char *text = malloc(8);
    if (!text) return 1;
    puts("text");
    free(text);
    return 0;
}' | cc -x c -o "$work/quiet" - && check 'a program that ends otherwise is refused' fails bears_refusals "$work/quiet"
