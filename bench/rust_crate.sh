# Where cargo finds the Rust crate fastlanes, for bench/run and bench/oracle/digests, which source this.

# Sets `source` to the options that tell it to cargo: none, or where there is no registry and FASTLANES_RUST names a
# folder with the source of the crate, those by which cargo takes it from there. The arguments name crates that the
# caller's package asks for beside it: where the crate's own Cargo.toml has a folder for one, that is taken too.
find_rust_crate() {
    source=()
    [ -n "${FASTLANES_RUST-}" ] || return 0
    local crate folders name path
    crate=$(readlink -e "$FASTLANES_RUST") || fail "no folder $FASTLANES_RUST (FASTLANES_RUST)"
    source=(--offline --config "patch.crates-io.fastlanes.path=\"$crate\"")
    [ $# -gt 0 ] || return 0
    folders=$(dependency_folders "$crate" "$@") || fail "the crate in $crate could not be looked at"
    while read -r name path; do
        [ -z "$name" ] || source+=(--config "patch.crates-io.$name.path=\"$path\"")
    done <<<"$folders"
}

# Prints a line 'NAME FOLDER' for each of the named crates that the crate in a folder takes from a folder.
dependency_folders() {
    cargo metadata --offline --no-deps --format-version 1 --manifest-path "$1/Cargo.toml" | python3 -c '
import json
import sys

for package in json.load(sys.stdin)["packages"]:
    for dependency in package["dependencies"]:
        if package["name"] == "fastlanes" and dependency["name"] in sys.argv[1:] and "path" in dependency:
            print(dependency["name"], dependency["path"])
' "${@:2}"
}
