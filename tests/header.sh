#!/usr/bin/env bash
# Compiles and runs programs that use the header, and prints a line for each thing that is as it should be: 'ok NAME'.
# Any other line tells what is not. FASTLANES_C_LIB may name the static library, by an absolute path.
set -u
cd "$(dirname "$0")/.." || exit 1
command -v cc >/dev/null || {
    echo "skipped: the C header's tests (no cc)"
    exit 0
}
# shellcheck source=tests/check
. tests/check

# shellcheck source=tests/static_library
. tests/static_library
library=$FASTLANES_C_LIB

# The functions that the header declares, and those that the library has.
release/functions >"$work/declared"
nm "$library" 2>/dev/null | sed -n 's/.* T \(fl_\)/\1/p' | sort >"$work/defined"
check 'the header declares the functions that the library has' diff "$work/declared" "$work/defined"
check 'they are 149' test "$(wc -l <"$work/declared")" = 149

# The block of 0, 1, 2 .. as u16. At four bits the first words are these, by the Rust crate.
for digit in 0 1 2 3 4 5 6 7 8 9 a b c d e f; do echo "$digit$digit$digit$digit"; done >"$work/words"
flags='-Wall -Wextra -pedantic -Werror -I include'
# shellcheck disable=SC2086
check 'include/example.c compiles as C99' cc -std=c99 $flags -o "$work/example" include/example.c "$library"
"$work/example" >"$work/printed"
check 'include/example.c reads back what it packed' test $? = 0
check 'include/example.c packs as the Rust crate' diff "$work/printed" "$work/words"

# The blocks of a million values need so many words at the bit lengths of their greatest less their least values.
# shellcheck disable=SC2086
check 'include/column.c compiles as C99' cc -std=c99 $flags -o "$work/column" include/column.c "$library"
"$work/column" >"$work/printed"
check 'include/column.c reads back what it stored' test $? = 0
printf '406432 words\n1600000000 1600865128 1606999994\n' >"$work/wanted"
check 'include/column.c stores as many words as it needs' diff "$work/printed" "$work/wanted"

# The second reader of tests/columns/model.py writes as many bytes for these values.
# shellcheck disable=SC2086
check 'include/bytes.c compiles as C99' cc -std=c99 $flags -o "$work/bytes" include/bytes.c "$library"
"$work/bytes" >"$work/printed"
check 'include/bytes.c reads back what it stored' test $? = 0
cat >"$work/wanted" <<'END'
1641648 bytes
value 123456 is 1600865128
17566 are less than 1600123456; of 976 blocks the heads alone told it
at byte 8: checksum mismatch
END
check 'include/bytes.c stores as many bytes as it needs, and finds what it asks for' diff "$work/printed" "$work/wanted"

# Every comparison at each width, on words that no packing wrote, against the digits of the layout's formula.
# shellcheck disable=SC2086
check 'tests/header/comparisons.c compiles' cc -std=c99 -O1 $flags -o "$work/comparisons" tests/header/comparisons.c "$library"
check 'the comparisons are those of the digits, by the formula of the layout' "$work/comparisons"

# The sum, the least and the greatest digit at each width: those of what fl_unpack writes, and those that are stored.
# shellcheck disable=SC2086
check 'tests/header/folds.c compiles' cc -std=c99 -O1 $flags -o "$work/folds" tests/header/folds.c "$library"
"$work/folds" >"$work/printed"
check 'sums and ranges are those of the elements that are unpacked' test $? = 0
tests/header/stored_rows >"$work/wanted"
check 'the stored rows are 124' test "$(wc -l <"$work/wanted")" = 124
check 'sums and ranges are those that the Rust crate unpacks' diff "$work/printed" "$work/wanted"

# Blocks one after another at each width.
# shellcheck disable=SC2086
check 'tests/header/blocks.c compiles' cc -std=c99 -O1 $flags -o "$work/blocks" tests/header/blocks.c "$library"
check 'blocks one after another are those that calls of one block give' "$work/blocks"

# The archive of `rt lib` lacks the error strings; a program adds them.
# shellcheck disable=SC2086
check 'release/errors.c compiles as C99' cc -std=c99 $flags -c -o "$work/errors.o" release/errors.c

# Every precondition of every call, kept and broken, in the header that checks them.
# shellcheck disable=SC2086
check 'the header with checks compiles as C99' cc -std=c99 -DFASTLANES_CHECKED $flags -fsyntax-only -x c include/fastlanes.h
# The compiler warns of broken preconditions, too.
check 'tests/header/checked.c compiles' \
    cc -std=c99 -D_POSIX_C_SOURCE=200809L -DFASTLANES_CHECKED -w -I include -o "$work/checked" tests/header/checked.c "$library"
check 'each call with a broken precondition aborts, and no other' sh -c '"$1" >"$2/returned" 2>"$2/aborted"' _ "$work/checked" "$work"
sort -u "$work/returned" -o "$work/returned"
sed -n 's/^#define \(fl_[a-z0-9_]*\) .*/returned \1/p' include/fastlanes_checked.h | sort >"$work/wanted"
check 'each call whose preconditions hold returns' diff "$work/wanted" "$work/returned"
sort -u "$work/aborted" -o "$work/aborted"
sed -nE 's/^    fl_require\(.*, "(\w+)", "(.*)"\);$/\1 requires: \2/p' include/fastlanes_checked.h | sort >"$work/wanted"
check 'each precondition is checked, by a line that names the call and the condition' diff "$work/wanted" "$work/aborted"
check 'these are 982' test "$(wc -l <"$work/wanted")" = 982

# Columns, and what is none, between pages that must not be touched.
# shellcheck disable=SC2086
check 'tests/header/columns.c compiles' cc -std=c99 -O1 $flags -o "$work/columns" tests/header/columns.c "$library"
check 'columns come back, and what is none is refused' "$work/columns"

# Null pointers where a length is 0, while the C compiler's sanitizers look on.
sanitized='-g -fsanitize=address,undefined -fno-sanitize-recover=all'
fails() { ! "$@"; }
# shellcheck disable=SC2086
if echo 'int main(void) { return 0; }' | cc -x c $sanitized -o "$work/sanitized" - 2>/dev/null && "$work/sanitized"; then
    check 'tests/header/zero_lengths.c compiles' \
        cc -std=c99 $flags $sanitized -o "$work/zero" tests/header/zero_lengths.c "$library"
    # All that have a length except rle_decode, whose indices need values, and those that return a length.
    tr '\n' ' ' <include/fastlanes.h | grep -oE ' fl_\w+_u8\([^)]*\*\w+, size_t \w+_len[^)]*' | sed 's/(.*//; s/_u8//' | grep -v rle_decode |
        while read -r name; do grep -q "${name}_##type(" tests/header/zero_lengths.c || echo "$name"; done >"$work/missing"
    check 'many functions have a length' test "$(grep -cE ' fl_\w+_u8\(.*_len' include/fastlanes.h)" -gt 15
    check 'it calls every function with a length' test ! -s "$work/missing"
    check 'a null pointer of no elements is as any other, under sanitizers' "$work/zero"
    check 'a null pointer of some elements is found' fails "$work/zero" some
    # shellcheck disable=SC2086
    check 'tests/header/columns.c compiles with sanitizers' \
        cc -std=c99 -O1 $flags $sanitized -o "$work/columns" tests/header/columns.c "$library"
    check 'columns come back, and what is none is refused, under sanitizers' "$work/columns"
else
    echo 'skipped: null pointers under sanitizers (cc has none)'
fi

# The library as a program finds it in a checkout, which stands elsewhere here.
mkdir -p "$work/checkout/crates/fastlanes_c/out"
cp -r include "$work/checkout/include"
ln -s "$library" "$work/checkout/crates/fastlanes_c/out/libfastlanes_c.a"
prints_the_words() { "$1" | diff - "$work/words"; }
by_pkg_config() {
    local found
    found=$(PKG_CONFIG_PATH=$work/checkout/include pkg-config --cflags --libs fastlanes) || return
    # shellcheck disable=SC2086
    cc -std=c99 -o "$work/by_pkg_config" include/example.c $found && prints_the_words "$work/by_pkg_config"
}
# A program, whose libraries ask for this package too, by its version or by none.
by_cmake() {
    mkdir "$work/by_cmake"
    cp include/example.c "$work/by_cmake"
    cat >"$work/by_cmake/CMakeLists.txt" <<END
cmake_minimum_required(VERSION 3.13)
project(example C)
find_package(fastlanes $1 REQUIRED PATHS $work/checkout/include)
find_package(fastlanes REQUIRED PATHS $work/checkout/include)
add_executable(example example.c)
target_link_libraries(example PRIVATE fastlanes)
END
    cmake -S "$work/by_cmake" -B "$work/by_cmake/out" && cmake --build "$work/by_cmake/out" &&
        prints_the_words "$work/by_cmake/out/example"
}
has_not_version() {
    rm -rf "$work/by_cmake"
    ! by_cmake "$1" && grep -q "version: 0.7.2" "$work/log"
}
is_small() { [ "$(stat -c %s "$1")" -lt 200000 ]; }
if command -v pkg-config >/dev/null; then
    check 'pkg-config finds header and library' by_pkg_config
    check 'with pkg-config a program is small' is_small "$work/by_pkg_config"
else
    echo 'skipped: include/fastlanes.pc (no pkg-config)'
fi
if command -v cmake >/dev/null; then
    check 'CMake finds header and library' by_cmake 0.7
    check 'with CMake a program is small' is_small "$work/by_cmake/out/example"
    check 'CMake finds no version before this one' has_not_version 0.6
    check 'CMake finds no version after this one' has_not_version 0.7.3
else
    echo 'skipped: include/fastlanes-config.cmake (no cmake)'
fi

command -v c++ >/dev/null || {
    echo "skipped: the header's test in C++ (no c++)"
    exit 0
}
# The same block at ten bits, where every value comes back. The words are those of the Rust crate. An empty vector gives a
# null pointer.
cat >"$work/example.cpp" <<'END'
#include <vector>

#include "fastlanes.h"
#include "fastlanes.h"

int main() {
    std::vector<uint16_t> none, zeros(1024, 1);
    fl_pack_u16(0, zeros.data(), none.data(), none.size());
    fl_unpack_u16(0, none.data(), none.size(), zeros.data());
    if (zeros != std::vector<uint16_t>(1024)) return 1;
    uint16_t values[1024], packed[640], back[1024];
    for (unsigned i = 0; i < 1024; i++) values[i] = static_cast<uint16_t>(i);
    fl_pack_u16(10, values, packed, 640);
    if (packed[63] != 0xfc3f || packed[64] != 0x1002 || packed[320] != 0x0040 || packed[639] != 0xfff7) return 1;
    fl_unpack_u16(10, packed, 640, back);
    for (unsigned i = 0; i < 1024; i++)
        if (back[i] != i) return 1;
    return 0;
}
END
# shellcheck disable=SC2086
check 'the header with checks compiles as C++' c++ -std=c++11 -DFASTLANES_CHECKED $flags -fsyntax-only -x c++ include/fastlanes.h
# shellcheck disable=SC2086
check 'the header compiles as C++' c++ -std=c++11 $flags -o "$work/example++" "$work/example.cpp" "$library"
check 'a program in C++ packs as the Rust crate' "$work/example++"
