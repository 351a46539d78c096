#!/usr/bin/env bash
# Runs the commands of the pages that name ./flcolumn or ./flblock, by the rules of tests/pages.py. Prints 'ok NAME' for each thing that
# holds; any other line is a failure.
set -u
cd "$(dirname "$0")/.." || exit 1
# shellcheck source=tests/check
. tests/check
pages=$PWD/tests/pages.py
"$pages" commands 2>&1

# The same on a page with wrong lines, over programs that print two lines and fail.
for name in flcolumn flblock; do
    mkdir -p "$work/crates/${name}_main/out"
    printf '#!/bin/sh\necho "first $*"\necho second >&2\nexit 3\n' | tee "$work/$name" >"$work/crates/${name}_main/out/${name}_main"
    chmod +x "$work/$name" "$work/crates/${name}_main/out/${name}_main"
done
cat >"$work/README.md" <<'END'
```console
$ echo kept >file

$ ./flcolumn a \
  b
first a b
second
$ ./flblock c # Two lines.
...
second
$ cat file; ./flcolumn
kept
first
$ ./flblock
```

```sh
test -e file
./flcolumn || true
```

```sh
./flblock
true
```

```console
$ ./test
```
END
cat >"$work/wanted" <<'END'
ok README.md:2: echo kept >file
ok README.md:4: ./flcolumn a \
ok README.md:8: ./flblock c # Two lines.
README.md:11: cat file; ./flcolumn: status 3, printed:
README.md:14: ./flblock: status 3, printed:
ok README.md:18: test -e file
README.md:23: ./flblock: status 3, printed:
END
finds_wrong_lines() { (cd "$work" && "$pages" commands) | grep 'README.md:' | diff "$work/wanted" -; }
check 'a page whose commands print other lines or fail is rejected' finds_wrong_lines
