#!/usr/bin/env bash
# Makes the static library for every x86-64 processor of level 2 or above, and prints a line for each thing that is as it should
# be: 'ok NAME'. Any other line tells what is not.
set -u
cd "$(dirname "$0")/.." || exit 1
command -v cc >/dev/null && [ "$(uname -m)" = x86_64 ] || {
    echo "skipped: the library for every processor (no cc for x86-64)"
    exit 0
}
# shellcheck source=tests/check
. tests/check

# The stubs, over functions that answer their level.
release/functions >"$work/functions"
sed 's/.*/STUB(&)/' "$work/functions" >"$work/names"
mkdir "$work/v2" "$work/v3"
for level in 2 3; do
    while read -r name; do
        echo "unsigned long $name(long a, long b, long c, long d, long e, long f, long g)" \
            "{ return $level * 1000 + a + 2 * b + 3 * c + 4 * d + 5 * e + 6 * f + g; }"
    done <"$work/functions" | cc -x c -O1 -fPIC -ffunction-sections -c -o "$work/v$level/functions.o" -
    ar rc "$work/v$level.a" "$work/v$level/functions.o"
done
check 'release/archive joins two libraries' release/archive "$work/v2.a" "$work/v3.a" "$work/stubs.a"
check 'tests/levels/stubs.c compiles' \
    cc -std=c99 -D_GNU_SOURCE -Wall -Wextra -Werror -pthread -I "$work" -o "$work/stubs" tests/levels/stubs.c "$work/stubs.a"
# Whether all calls answer this one level.
answers() { [ "$(env "$1" "$work/stubs" | sort -u)" = "$2" ]; }
highest=2
! grep -qw avx2 /proc/cpuinfo || highest=3
check 'every stub runs the code for this processor, from any thread and before main' answers A=B $highest
check 'every stub runs the code for v2 where the environment says so' answers FASTLANES_CPU=x86-64-v2 2
ends_below_v2() {
    FASTLANES_CPU=x86-64 "$work/stubs" 2>"$work/said"
    [ $? = 134 ] && grep -qx 'fastlanes: its code needs .* has no SSE3, SSSE3, CMPXCHG16B, SSE4.1, SSE4.2, POPCNT, LAHF.' "$work/said"
}
check 'below v2 a call ends the program with a line that says what is missing' ends_below_v2

# Of other functions than it calls a program keeps nothing, and a shared object has no other names than the header's.
echo 'long fl_pack_u8(), fl_unpack_u8(), fl_unpack_single_u8();
int main(void) { return fl_pack_u8() + fl_unpack_u8() + fl_unpack_single_u8() == 0; }' >"$work/three.c"
keeps_three() {
    cc -o "$work/three" "$work/three.c" "$1" -Wl,--gc-sections && nm "$work/three" | sed -n 's/.* \(fl_.*_v[23]\)$/\1/p' >"$work/kept"
    [ "$(paste -sd ' ' "$work/kept")" = "$(echo fl_{pack,unpack_single,unpack}_u8_v{2,3})" ]
}
check 'a program that calls three functions keeps the code of three' keeps_three "$work/stubs.a"
exports_the_names() {
    cc -shared -o "$work/stubs.so" -Wl,--whole-archive "$1" -Wl,--no-whole-archive &&
        nm -D --defined-only "$work/stubs.so" | sed 's/.* //' | sort | diff "$work/functions" -
}
check 'a shared object of it exports the functions of the header alone' exports_the_names "$work/stubs.a"

# The library itself, by the code for either processor: what the header's tests and those of memory see of it.
# shellcheck source=tests/static_library
. tests/static_library
library=$work/libfastlanes.a
has_its_own_rows() {
    nm -A "$1" 2>/dev/null >"$work/named" && grep -q ' T fl_pack_u64$' "$work/named" || return 1
    sed -n 's/.*:rows-[^:]*:.* T //p' "$work/named" | sort >"$work/rows"
    shift
    [ "$(paste -sd ' ' "$work/rows")" = "$*" ]
}
# The C functions in a file of Rattle's that name a vector.
go_by_rows() {
    awk -v row="$1" '/ fn fl_/ { name = $0; sub(/.* fn /, "", name); sub(/\(.*/, "", name) } $0 ~ "<" row "[,>]" { print name }' "$2" | sort >"$work/rows"
    shift 2
    [ "$(paste -sd ' ' "$work/rows")" = "$*" ]
}
check 'the calls of u64 at a width go by rows of 16 bytes' go_by_rows u64x2 crates/fastlanes_c/src/blocks.rt fl_{for_pack,pack_blocks,pack,undelta_pack,unfor_pack,unpack_blocks,unpack}_u64
check 'in that for v2 all calls are those of fastlanes_c' has_its_own_rows "$(library_for x86-64-v2)"
check 'in that for v3 the calls of u32 and u64 at a width go by rows of 64 bytes' \
    has_its_own_rows "$(library_for x86-64-v3)" fl_{for_pack,pack_blocks,pack,undelta_pack,unfor_pack,unpack_blocks,unpack}_{u32,u64}
# A function of this library beside itself.
times_beside_itself() {
    bench/versions/run --op fl_transpose_bits_u8 --csv "$work/times" "$1" "$1" >"$work/ratios" &&
        grep -qE '^fl_transpose_bits_u8 +[0-9]+\.[0-9]{3} +[0-9]+\.[0-9]{3}$' "$work/ratios" && [ "$(wc -l <"$work/times")" = 2 ]
}
check 'bench/versions/run times a function of two versions' times_beside_itself "$(library_for x86-64-v2)"
check 'release/archive joins the libraries for v2 and v3' release/archive "$FASTLANES_C_LIB" "$(library_for x86-64-v3)" "$library"
check 'a program that calls three functions of them keeps the code of three' keeps_three "$library"
check 'and takes 0.1 MB' test "$(stat -c %s "$work/three")" -lt 150000
check 'a shared object of them exports the functions of the header alone' exports_the_names "$library"
needs_what_it_says() { [ -z "$(nm -u "$1" | sed -n 's/^ *U //p' | grep -vE '^(fl_.*|fastlanes_.*|mem.*|bcmp|strcmp|strlen|getenv|write|abort)$')" ]; }
check 'they need of the C library what the header says' needs_what_it_says "$library"
flags='-std=c99 -O1 -Wall -Wextra -Werror -I include -Wl,--gc-sections'
for source in include/column.c include/bytes.c tests/header/{blocks,columns,comparisons,digests,folds}.c tests/memory/library.c; do
    # shellcheck disable=SC2086
    check "$source compiles with them" cc $flags -o "$work/$(basename "$source" .c)" "$source" "$library"
done
# At a level, the highest where none is said: a column of a million values, in blocks and as bytes, all comparisons, the stored lines
# and rows of the Rust crate, blocks one after another, and all functions between pages that must not be touched, on at most the stack
# that the header promises.
tests/header/stored_lines >"$work/stored"
tests/header/stored_rows >"$work/stored_rows"
answers_rightly() {
    env "$1" "$work/column" && env "$1" "$work/bytes" && env "$1" "$work/columns" && env "$1" "$work/comparisons" && env "$1" "$work/digests" | sort | cmp "$work/stored" - &&
        env "$1" "$work/folds" | cmp "$work/stored_rows" - && env "$1" "$work/blocks" && tests/memory/answers env "$1" "$work/library"
}
check 'the stored lines that a C program prints are 11,356' test "$(wc -l <"$work/stored")" = 11356
check 'the stored rows of sums and ranges are 124' test "$(wc -l <"$work/stored_rows")" = 124
check 'every function answers by the code for this processor' answers_rightly A=B
check 'every function answers by the code for v2' answers_rightly FASTLANES_CPU=x86-64-v2
