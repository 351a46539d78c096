#!/usr/bin/env bash
# Runs the examples in the comments of the libraries, as tests of a crate in a copy of the tree, without proofs. Prints a line
# for each thing that is as it should be: 'ok NAME'. Any other line tells what is not. It is tried too, on an example that is
# wrong and on one that does not compile, both of which it has to name.
set -u
cd "$(dirname "$0")/.." || exit 1
work=$(mktemp -d)
trap 'rm -rf "$work"' EXIT

# Copies the libraries to a tree, beside a crate that may have examples.
copy() {
    mkdir -p "$1/crates/examples/src"
    grep -E '^fastlanes\w*:' crates.txt >"$1/crates.txt"
    local libraries
    mapfile -t libraries < <(sed 's/:.*//' "$1/crates.txt")
    echo "examples: ${libraries[*]} num_traits" >>"$1/crates.txt"
    tar -c --exclude=out HANDLES "${libraries[@]/#/crates/}" | tar -x -C "$1"
}

# Runs the examples of a tree's sources, those whose file has this text in its path. A line tells how many run and are right,
# or each that is not, by its crate, file and item.
run_examples() {
    python3 - "$1" "${2:-}" <<'PYTHON'
import pathlib
import re
import subprocess
import sys

tree, text = pathlib.Path(sys.argv[1]), sys.argv[2]
ITEM = re.compile(r" *(?:pub(?:\(crate\))? )?(?:fn|trait|struct|enum|const|type|mod|macro_rules!) (\w+)")


def examples_of(lines):
    """The examples of a file, each by the item whose comment it stands in; those of a comment on the file have no item."""
    open_one, whole = None, []
    for line in lines:
        if comment := re.match(r" *//([/!]) ?(.*)", line):
            if not comment[2].startswith("```"):
                if open_one is not None:
                    open_one.append(comment[2])
            elif open_one is None:
                open_one = [comment[2]]
            else:
                if re.split(r"\W", open_one[0][3:])[0] in ("", "rust"):
                    if comment[1] == "!":
                        yield "", open_one[1:]
                    else:
                        whole.append(open_one[1:])
                open_one = None
        elif whole and (item := ITEM.match(line)):
            yield from ((item[1], it) for it in whole)
            whole = []
    yield from (("", it) for it in whole)


crate = tree / "crates/examples"
names = {}
for path in sorted(tree.glob("crates/fastlanes*/src/**/*.rt")):
    if text in str(path.relative_to(tree)):
        for item, lines in examples_of(path.read_text().splitlines()):
            place = path.relative_to(tree)
            module = "__".join((place.parts[1], *place.parts[3:-1], place.stem, *item.split()))
            if module in names:
                module += f"_{len(names)}"
            names[module] = f"{item or 'the file'} in {place}"
            body = "".join(f"    {it}\n" if it else "\n" for it in lines)
            head = "use std::process::Abort;\n\n#[test]\nfn example(rt: HostRuntime) {\n"
            (crate / f"src/{module}.rt").write_text(f"{head}{body}}}\n")
modules = "".join(f"\n#[cfg(test)]\nmod {it};\n" for it in names)
(crate / "src/lib.rt").write_text(f"//! The examples.\n#![tactic(auto)]\n{modules}")
ran = subprocess.run(["rt", "try", "--test"], cwd=crate, stdin=subprocess.DEVNULL, stdout=subprocess.PIPE, stderr=subprocess.STDOUT, text=True)
said = ran.stdout
right = {it for it in names if re.search(rf"^test {it}::example \.\.\. ok$", said, re.M)}
if right == names.keys() and names and ran.returncode == 0:
    print(f"ok examples: {len(right)} run")
else:
    for module, name in names.items():
        if found := re.search(rf"^test {module}::example \.\.\. (?!ok$).*\n((?: +.*\n)*)|^src/{module}\.rt:.*$", said, re.M):
            print(f"the example of {name} is not right: {' '.join(found[0].split())}")
    print(f"examples: {len(right)} of {len(names)} are right")
    if not right:
        print(said[-2000:])
PYTHON
}

# One that does not compile, in the place of an example's line.
does_not_compile() {
    copy "$work/other"
    sed -i 's/^\/\/\/ assert_eq!(rt; fastlanes::index(1, 3), 131);$/\/\/\/ assert_eq!(rt; fastlanes::no_index(1, 3), 131);/' \
        "$work/other/crates/fastlanes_base/src/order.rt"
    if run_examples "$work/other" order.rt | grep '^the example of index in crates/fastlanes_base/src/order.rt is not right: ' >/dev/null; then
        echo 'ok examples: one that does not compile is refused'
    else
        echo 'an example that does not compile is not refused'
    fi
}

does_not_compile >"$work/other_said" &
# One that is wrong stands among the others.
copy "$work/tree"
cat >>"$work/tree/crates/fastlanes_base/src/order.rt" <<'END'

/// ```rust
/// assert_eq!(rt; fastlanes::index(1, 3), 132);
/// ```
fn wrong() {}
END
run_examples "$work/tree" >"$work/said"
wrong='the example of wrong in crates/fastlanes_base/src/order.rt is not right: '
counted=$(sed -nE 's/^examples: ([0-9]+) of ([0-9]+) are right$/\1 \2/p' "$work/said")
read -r right all <<<"$counted"
if grep -q "^$wrong" "$work/said" && [ "$(wc -l <"$work/said")" = 2 ] && ((right > 0 && right + 1 == all)); then
    echo "ok examples: $right run"
    echo 'ok examples: one that is wrong is refused'
else
    echo 'of the examples one alone was to be refused, which is wrong:'
    cat "$work/said"
fi
wait
cat "$work/other_said"
