#!/usr/bin/env bash
# Holds the documents against what they speak of, and prints a line for each thing that is as it should be: 'ok NAME'. Any
# other line tells what is not.
set -u
cd "$(dirname "$0")/.." || exit 1

python3 docs/pictures.py --check && echo 'ok the pictures are those that docs/pictures.py draws'
python3 bench/report.py --check && echo 'ok the tables and the charts of speed are those of bench/results'
python3 docs/reference.py --check && echo 'ok the pages of docs/reference are current'

tests/pages.py links words c 2>&1

# The same on a page with faults.
pages=$PWD/tests/pages.py
work=$(mktemp -d)
trap 'rm -rf "$work"' EXIT
ln -s "$PWD/include" "$work/include"
cat >"$work/README.md" <<'END'
# A page about `fl_pack_u8`, twice
# A page about fl_pack_u8, twice

[heading](#a-page-about-fl_pack_u8-twice-1), [other site](https://example.org/none#none), [no file](none.md), [no heading](#none),
[outside](../none.md), `[code](none.md)`

```c
return (int)n + (int)values[0];
```

```c cpp
#include <fastlanes.h>
fl_pack_u8(1, values);
```

```C
```
END
cat >"$work/faults" <<'END'
README.md: link 'none.md': no such file
README.md: link '#none': no heading of README.md has this anchor
README.md: link '../none.md': leaves the repository
README.md:16: unknown word 'C' after ```
END
(cd "$work" && "$pages" links words) | sed 's/: expected one of .*//' | diff "$work/faults" - &&
    echo 'ok a page with wrong links and words is rejected'
cat >"$work/faults" <<'END'
ok cc accepts the block at README.md:8
cc rejects the block at README.md:12:
c++ rejects the block at README.md:12:
END
if command -v cc >/dev/null && command -v c++ >/dev/null; then
    (cd "$work" && "$pages" c) | grep ' the block at ' | diff "$work/faults" - && echo 'ok a page with a wrong C block is rejected'
fi

python3 - <<'END'
import pathlib
import re

sources = [path.read_text() for path in pathlib.Path("crates").glob("*/src/**/*.rt")]
sources += [path.read_text() for path in pathlib.Path("crates").glob("*/proofs/**/*.antt")]
pages = ["README.md", "CONTRIBUTING.md", "docs/COLUMN.md", "docs/PROVING.md"]
for page in map(pathlib.Path, pages):
    blocks = re.findall(r"```(?:rust|antt)\n(.*?)```", page.read_text(), re.S)
    for block in blocks:
        name = re.search(r"(?:fn|pub(?! fn)) (\w+)", block).group(1)
        if any(block in source for source in sources):
            print(f"ok {name} of {page} stands in the sources")
        else:
            print(f"{name} of {page} is not what stands in the sources")

# docs/PROVING.md copies `fastlanes` and the crates below it, and their lines of crates.txt.
lines = re.findall(r"^(\w+)[^:\n]*:(.*)$", pathlib.Path("crates.txt").read_text(), re.M)
uses = {name: libraries.split() for name, libraries in lines}


def with_below(names):
    """These crates and the crates of this repository below them."""
    found = [*names]
    for name in found:
        found += [library for library in uses[name] if library in uses and library not in found]
    return set(found)


page = pathlib.Path("docs/PROVING.md").read_text()
copied = re.search(r"cp -r \S*/fastlanes \S*/fastlanes_\{([\w,]+)\} crates", page)[1].split(",")
listed = re.findall(r"\w+", re.search(r"grep -E '\^fastlanes\(([^)]*)\)", page)[1])
first = with_below(["fastlanes"])
if {f"fastlanes_{part}" for part in copied} == {f"fastlanes{part}" for part in listed} == first - {"fastlanes"}:
    print("ok docs/PROVING.md copies the crates below fastlanes")
else:
    print(f"docs/PROVING.md copies {copied} and lists {listed}; below fastlanes are {first}")

# For each further feature it names the crates to copy, and the line of a caller, below whose crates there are no others.
for feature, more, line in re.findall(r"^\| ([^|]*) \| ([^|]*) \| `readings: ([^`]*)` \|$", page, re.M):
    more = set(re.findall(r"`(\w+)`", more)) | (set() if "without the first six" in more else first)
    needed = with_below([name for name in line.split() if name in uses])
    if needed <= more and more - first <= needed:
        print(f"ok docs/PROVING.md copies the crates for {feature}")
    else:
        print(f"docs/PROVING.md copies {sorted(more - first)} for {feature}; the line needs {sorted(needed - first)}")

END
