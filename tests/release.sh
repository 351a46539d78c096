#!/usr/bin/env bash
# Makes the release, unpacks it in an empty folder where no kit is on the path, and builds and runs programs over it. Prints a line
# for each thing that is as it should be: 'ok NAME'. Any other line tells what is not.
set -u
cd "$(dirname "$0")/.." || exit 1
for command in cc c++ cargo cmake pkg-config aarch64-linux-gnu-gcc qemu-aarch64; do
    command -v "$command" >/dev/null && [ "$(uname -m)" = x86_64 ] || {
        echo "skipped: the release ($command is not there, or this is no x86-64)"
        exit 0
    }
done
# shellcheck source=tests/check
. tests/check

# shellcheck source=tests/static_library
. tests/static_library
check 'release/make makes a release' release/make "$work/first.tar.gz"
made_again() { release/make "$work/second.tar.gz" && cmp "$work/first.tar.gz" "$work/second.tar.gz"; }
check 'made again it is the same, byte for byte' made_again
for source in include/column.c include/bytes.c tests/header/{blocks,columns,comparisons,digests,folds}.c tests/memory/library.c; do
    check "$source compiles for aarch64" aarch64-linux-gnu-gcc -std=c99 -O1 -I include -o "$work/$(basename "$source" .c)" "$source" \
        "$(library_for aarch64)"
done
on_aarch64() { qemu-aarch64 -L /usr/aarch64-linux-gnu "$@"; }
prints_the_stored_lines() { on_aarch64 "$work/digests" | sort | cmp <(tests/header/stored_lines) -; }
prints_the_stored_rows() { on_aarch64 "$work/folds" | cmp <(tests/header/stored_rows) -; }
check 'on aarch64 a column of a million values comes back' on_aarch64 "$work/column"
check 'on aarch64 columns of bytes come back, and what is none is refused' on_aarch64 "$work/columns"
check 'on aarch64 the comparisons are those of the digits' on_aarch64 "$work/comparisons"
check 'on aarch64 the stored lines of the Rust crate come out' prints_the_stored_lines
check 'on aarch64 sums and ranges are those of the digits, and the stored rows come out' prints_the_stored_rows
check 'on aarch64 blocks one after another are those that calls of one block give' on_aarch64 "$work/blocks"
check 'on aarch64 every function answers between pages that must not be touched' \
    tests/memory/answers qemu-aarch64 -L /usr/aarch64-linux-gnu "$work/library"

functions=$PWD/release/functions
mkdir "$work/empty"
tar -C "$work/empty" -xzf "$work/first.tar.gz"
cd "$work"/empty/* || exit 1
PATH=/usr/bin:/bin:$(dirname "$(command -v cargo)")
unset FASTLANES_C_LIB
has_no_kit() { ! command -v rt; }
check 'no kit is on the path' has_no_kit
check 'the sums of the release are right' sha256sum --quiet -c SHA256SUMS

# Programs in C and C++, which print the first words of a block at four bits, as the Rust crate packs it.
for digit in 0 1 2 3 4 5 6 7 8 9 a b c d e f; do echo "$digit$digit$digit$digit"; done >"$work/words"
prints_the_words() { "$@" | diff - "$work/words"; }
by_pkg_config() {
    local found
    found=$(PKG_CONFIG_PATH=$PWD/x86_64/lib/pkgconfig pkg-config --cflags --libs 'fastlanes >= 0.7') || return
    # shellcheck disable=SC2086
    "$1" -o "$work/by_pkg_config" -x "$2" example.c -x none $found &&
        LD_LIBRARY_PATH=$PWD/x86_64/lib prints_the_words "$work/by_pkg_config"
}
check 'a program in C by pkg-config, over the shared object' by_pkg_config cc c
statically() {
    cc -I x86_64/include -o "$work/static" example.c x86_64/lib/libfastlanes.a -Wl,--gc-sections && prints_the_words "$work/static" &&
        [ "$(stat -c %s "$work/static")" -lt 200000 ]
}
check 'a program in C over the static library, and small' statically
by_cmake() {
    mkdir "$work/$1"
    cp example.c "$work/$1"
    cat >"$work/$1/CMakeLists.txt" <<END
cmake_minimum_required(VERSION 3.13)
project(example C)
find_package(fastlanes 0.7 REQUIRED PATHS $PWD/x86_64)
find_package(fastlanes REQUIRED PATHS $PWD/x86_64)
add_executable(example example.c)
target_link_libraries(example PRIVATE $1)
END
    cmake -S "$work/$1" -B "$work/$1/out" && cmake --build "$work/$1/out" && prints_the_words "$work/$1/out/example"
}
check 'a program in C by CMake, over the static library' by_cmake fastlanes
check 'a program in C by CMake, over the shared object' by_cmake fastlanes_shared
cat >"$work/example.cpp" <<'END'
#include <vector>
#include "fastlanes.h"

int main() {
    std::vector<uint16_t> values(1024), packed(640), back(1024);
    for (unsigned i = 0; i < 1024; i++) values[i] = static_cast<uint16_t>(i);
    fl_pack_u16(10, values.data(), packed.data(), packed.size());
    fl_unpack_u16(10, packed.data(), packed.size(), back.data());
    return packed[63] == 0xfc3f && packed[64] == 0x1002 && back == values ? 0 : 1;
}
END
in_cpp() { c++ -I x86_64/include -o "$work/cpp" "$work/example.cpp" x86_64/lib/libfastlanes.a -Wl,--gc-sections && "$work/cpp"; }
check 'a program in C++' in_cpp
over_shared_on_aarch64() {
    aarch64-linux-gnu-gcc -I aarch64/include -o "$work/arm" example.c -Laarch64/lib -lfastlanes &&
        prints_the_words on_aarch64 -E LD_LIBRARY_PATH="$PWD/aarch64/lib" "$work/arm"
}
check 'a program in C on aarch64, over the shared object' over_shared_on_aarch64
exports_the_names() {
    "$functions" "$1/include/fastlanes.h" >"$work/functions"
    nm -D --defined-only "$1/lib/libfastlanes.so" | sed 's/.* //' | sort | diff "$work/functions" - &&
        readelf -d "$1/lib/libfastlanes.so" | grep -q 'soname: \[libfastlanes.so.0.7\]'
}
check 'the shared object for x86-64 has a soname and the functions of the header alone' exports_the_names x86_64
check 'that for aarch64 too' exports_the_names aarch64

# A program in Rust, over the package as a folder and as cargo packs it.
uses_the_package() {
    mkdir -p "$work/$1/src"
    cat >"$work/$1/Cargo.toml" <<END
[package]
name = "user"
version = "0.1.0"
edition = "2021"

[dependencies]
fastlanes = { package = "fastlanes-rattle", $2 }

[patch.crates-io]
${3:-}
END
    cat >"$work/$1/src/main.rs" <<'END'
use fastlanes::BitPacking;

fn main() {
    let block: [u16; 1024] = core::array::from_fn(|i| i as u16);
    let mut packed = [0; 640];
    BitPacking::pack::<10, 640>(&block, &mut packed);
    println!("{:04x} {:04x} {:04x} {:04x}", packed[63], packed[64], packed[320], packed[639]);
}
END
    # Of the Rust crate.
    [ "$(cd "$work/$1" && cargo run --offline --release --quiet)" = 'fc3f 1002 0040 fff7' ]
}
check 'a program in Rust over the package as a folder' uses_the_package folder "path = \"$PWD/rust\""
mkdir "$work/packed"
for crate in *.crate; do tar -C "$work/packed" -xzf "$crate"; done
check 'a program in Rust over the package as cargo packs it' uses_the_package packed_user 'version = "0.7.2"' "
fastlanes-rattle = { path = \"$work/packed/fastlanes-rattle-0.7.2\" }
fastlanes-rattle-sequence = { path = \"$work/packed/fastlanes-rattle-sequence-0.7.2\" }"
check 'the packed package is below 10 MB, which registries take' test "$(stat -c %s fastlanes-rattle-0.7.2.crate)" -lt 10000000
for_v3() {
    RUSTFLAGS='-C target-cpu=x86-64-v3' CARGO_TARGET_DIR=$work/v3 uses_the_package folder_v3 "path = \"$PWD/rust\"" &&
        nm "$work/v3/release/user" | grep -q ' fl_pack_u16_v3$' && ! nm "$work/v3/release/user" | grep -q ' fl_pack_u16$'
}
! grep -qw avx2 /proc/cpuinfo || check 'a program in Rust for v3 calls the code for v3, without stubs' for_v3
