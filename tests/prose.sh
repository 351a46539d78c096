#!/usr/bin/env bash
# Checks that the hand-written pages are plain (tests/prose.py), and that the script finds a page that is not. Prints 'ok NAME' for each
# thing that holds; any other line is a failure.
# shellcheck disable=SC2016
set -u
cd "$(dirname "$0")/.." || exit 1
# shellcheck source=tests/check
. tests/check
prose=$PWD/tests/prose.py
"$prose" 2>&1

# Ten sentences of eight words.
plain() { for _ in {1..10}; do echo 'Call `pack` to compress a block of values.'; done; }
# A sentence of this many words.
sentence() { seq -s ' ' "$1" | sed 's/1 /One /; s/$/./'; }
# Listed phrases in the parts that do not count.
not_prose() {
    printf '\n# How many stand beside\n\n<!-- how many -->\n\n    how many\n\n```text\nhow many\n```\n\n`how many`\n'
    printf '\n<!-- rows begins -->\nHow many stand.\n<!-- rows ends -->\n'
}
# Checks standard input as README.md. Prints the status, and the lines that are not 'ok' without their limits.
faults() {
    cat >"$work/README.md"
    (cd "$work" && "$prose") >"$work/found" 2>&1
    echo "$? $(grep -v '^ok ' "$work/found" | sed 's/: expected at most .*//')"
}
check 'a plain page is accepted' test "$(faults < <(plain))" = '0 '
check 'code, headings, comments and generated parts do not count' test "$(faults < <(plain && not_prose))" = '0 '
check 'a page in dialect is rejected' test "$(faults < <(plain && echo 'It tells how many.'))" = \
    '1 README.md: 84 words, 24 listed phrases per 1,000, 7.6 words a sentence, 0 % over 30'
check 'a page of long sentences is rejected' test "$(faults < <(for _ in {1..9}; do sentence 19; done))" = \
    '1 README.md: 171 words, 0 listed phrases per 1,000, 19.0 words a sentence, 0 % over 30'
check 'a page with a sentence too long in eleven is rejected' test "$(faults < <(plain && sentence 31))" = \
    '1 README.md: 111 words, 0 listed phrases per 1,000, 10.1 words a sentence, 9 % over 30'
check 'a README of 171 lines is rejected' test "$(faults < <(plain && yes '' | head -n 161))" = '1 171 lines of README.md'
words_20001() { for _ in {1..250}; do plain; done | tr '\n' ' ' && echo End.; }
check 'pages of 20001 words are rejected' test "$(faults < <(words_20001))" = '1 20001 words of all pages'

# A phrase over the end of a line, and a long sentence, with their lines.
{ plain && echo 'It tells how' && echo 'many.' && sentence 31; } >"$work/README.md"
(cd "$work" && "$prose" README.md) >"$work/found"
cat >"$work/wanted" <<'END'
README.md:11: 'how many': the number of
README.md:11: 'tells': returns, reports, states
README.md:13: a sentence of 31 words: split it
END
check 'phrases and long sentences are shown with their lines' diff "$work/wanted" <(grep '^README.md:[0-9]' "$work/found")
