#!/usr/bin/env bash
# Tests the Rust package. Prints 'ok NAME' for each check that passes, and other lines for failures. FASTLANES_C_LIB may be the
# absolute path of the static library.
set -u
cd "$(dirname "$0")/.." || exit 1
command -v cargo >/dev/null || {
    echo "skipped: the tests of the Rust package (no cargo)"
    exit 0
}
work=$(mktemp -d)
trap 'rm -rf "$work"' EXIT

# shellcheck source=tests/static_library
. tests/static_library
export CARGO_TARGET_DIR=$work/target
# Each program is built once and not debugged: without debug information and incremental data, this script needs 70 % of the time.
export CARGO_PROFILE_DEV_DEBUG=0 CARGO_INCREMENTAL=0
if (cd rust && cargo test --offline --locked -- --show-output) >"$work/log" 2>&1; then
    sed -n -E 's/^test (.*) \.\.\. ok$/ok the Rust package: \1/p' "$work/log"
    if grep -qx 'compared [1-9][0-9]* reference digests' "$work/log"; then
        echo "ok the Rust package: $(grep -x 'compared [1-9][0-9]* reference digests' "$work/log")"
    else
        echo 'the Rust package compared no reference digests'
    fi
else
    echo 'cargo test failed in rust/:'
    tail -n 40 "$work/log"
fi
grep -A 5 '^warning' "$work/log" || echo 'ok the Rust package builds without a warning'
if (cd rust && RUSTFLAGS=-Dwarnings cargo check --offline --locked --no-default-features) >"$work/log" 2>&1; then
    echo 'ok the Rust package builds without the feature alloc'
else
    echo 'the Rust package does not build without the feature alloc:'
    tail -n 20 "$work/log"
fi

# Some of the tests again, under an address sanitizer, which only nightly cargo has.
if cargo +nightly --version >/dev/null 2>&1; then
    host=$(rustc -vV | sed -n 's/^host: //p')
    if (cd rust && RUSTFLAGS=-Zsanitizer=address CARGO_TARGET_DIR=$work/sanitized \
        cargo +nightly test --offline --locked --target "$host" --test calls --test column_bytes --test comparisons --test hostile --test runs) \
        >"$work/log" 2>&1; then
        sed -n -E 's/^test (.*) \.\.\. ok$/ok the Rust package under an address sanitizer: \1/p' "$work/log"
    else
        echo 'cargo test under an address sanitizer failed in rust/:'
        tail -n 40 "$work/log"
    fi
else
    echo 'tests/rust.sh: there is no nightly cargo, so nothing runs under an address sanitizer' >&2
fi

# A package that depends on the Rust package.
mkdir -p "$work/user/src"
cat >"$work/user/Cargo.toml" <<END
[package]
name = "user"
version = "0.1.0"
edition = "2021"

[dependencies]
fastlanes = { package = "fastlanes-rattle", path = "$PWD/rust" }
END
cat >"$work/user/src/main.rs" <<'END'
use fastlanes::BitPacking;

fn main() {
    let block: [u16; 1024] = core::array::from_fn(|i| i as u16);
    let mut packed = [0; 640];
    BitPacking::pack::<10, 640>(&block, &mut packed);
    println!("{:04x} {:04x} {:04x} {:04x}", packed[63], packed[64], packed[320], packed[639]);
}
END
found=$(cd "$work/user" && cargo run --offline --quiet 2>"$work/log")
# The words are those of the crate fastlanes.
if [ "$found" = 'fc3f 1002 0040 fff7' ]; then
    echo 'ok a package that uses the Rust package'
else
    echo "a package that uses the Rust package prints '$found': expected 'fc3f 1002 0040 fff7'"
    tail -n 20 "$work/log"
fi

# The Rust blocks of the pages (```rs, see tests/pages.py) are tests of rustdoc in such a package. Names have the lines of the pages.
mkdir -p "$work/pages/src"
sed 's/^name = .*/name = "pages"/' "$work/user/Cargo.toml" >"$work/pages/Cargo.toml"
echo '#![allow(non_snake_case)]' >"$work/pages/src/lib.rs"
blocks=0
for page in *.md */*.md; do
    module=$(tr -c '[:alnum:]\n' _ <<<"$page")
    tests/pages.py rs "$page" >"$work/pages/src/$module"
    printf '\n#![doc = include_str!("%s")]\n' "$module" >"$work/pages/src/$module.rs"
    echo "pub mod $module;" >>"$work/pages/src/lib.rs"
    blocks=$((blocks + $(grep -c '^```rust$' "$work/pages/src/$module")))
done
if (cd "$work/pages" && cargo test --offline --doc) >"$work/log" 2>&1 && [ "$(grep -c '^test src/.* ok$' "$work/log")" = "$blocks" ]; then
    sed -n -E 's/^test src\/(.*) \.\.\. ok$/ok the Rust block of \1/p' "$work/log"
else
    echo "the $blocks Rust blocks of the pages do not all pass:"
    tail -n 40 "$work/log"
fi

# bench/oracle prints the reference digests of the crate fastlanes. It prints the same over the Rust package, if its Cargo.toml names
# this package, without the other packages that the macros of the crate need.
mkdir "$work/oracle"
cp -r bench/oracle/Cargo.toml bench/oracle/src "$work/oracle"
line="fastlanes = { package = \"fastlanes-rattle\", path = \"$PWD/rust\", features = [\"runtime\"] }"
sed -i "s|^fastlanes = .*|$line|; /^pastey = /d; /^seq-macro = /d" "$work/oracle/Cargo.toml"
(cd "$work/oracle" && cargo run --offline --quiet) 2>"$work/log" | sort >"$work/lines"
if sort crates/suite/lines | cmp -s - "$work/lines"; then
    echo 'ok bench/oracle prints the reference digests over the Rust package'
else
    echo "bench/oracle prints $(wc -l <"$work/lines") lines over the Rust package: expected the reference digests"
    grep -A 9 '^error' "$work/log"
fi

# Without a library that can be linked, the build fails with a message that says why, and how to build one.
build_says() {
    local text=$1
    if (cd "$work/user" && FASTLANES_C_LIB=$2 cargo build --offline) >"$work/log" 2>&1; then
        echo "the Rust package builds with FASTLANES_C_LIB='$2'"
    elif grep -qF "$text" "$work/log" && grep -q 'cd crates/fastlanes_c && rt lib' "$work/log"; then
        echo "ok the Rust package without a library: $text"
    else
        echo "with FASTLANES_C_LIB='$2' the message is:"
        tail -n 20 "$work/log"
    fi
}
build_says "static library not found: $work/none.a" "$work/none.a"
build_says 'FASTLANES_C_LIB is crates/fastlanes_c/out/libfastlanes_c.a: expected an absolute path' crates/fastlanes_c/out/libfastlanes_c.a
build_says 'FASTLANES_C_LIB is empty: expected an absolute path' ''
build_says "is not a library: expected an archive of 64-bit ELF objects" "$PWD/test"
# The header of an object for aarch64 (ELF machine 183), in an archive.
(printf '\177ELF\2\1\1\0\0\0\0\0\0\0\0\0\1\0\267\0' && head -c 44 /dev/zero) >"$work/other.o"
ar rcS "$work/other.a" "$work/other.o"
build_says 'is for ELF machine 183: expected 62' "$work/other.a"
