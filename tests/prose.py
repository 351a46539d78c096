#!/usr/bin/env python3
"""Checks that the hand-written pages are plain: short sentences, and the words that the field uses.

    tests/prose.py          checks the pages below the current folder, and prints 'ok PAGE: ..' or what exceeds a limit
    tests/prose.py FILE     prints the listed phrases and the long sentences of a page with their lines, then its figures

The status is 1 if a limit is exceeded. tests/prose.txt lists the phrases and the usual words. Code, names in backticks, headings,
comments, and the parts that a script writes between `begins` and `ends` marks do not count.
"""
import pathlib
import re
import sys

# Not docs/reference/*.md, which a script writes.
PAGES = ("*.md", "*/*.md", "include/fastlanes.h")
PHRASES_PER_1000, WORDS_A_SENTENCE, PERCENT_LONG = 8, 18, 8
LONG = 30
README_LINES, ALL_WORDS = 170, 20000

LIST = pathlib.Path(__file__).with_name("prose.txt")
ROWS = [line.split("\t") for line in LIST.read_text().splitlines() if not line.startswith("#")]
PHRASES = [(re.compile(rf"\b(?:{phrase})\b".replace(" ", r"\s"), re.I), usual) for phrase, usual in ROWS]

NOT_PROSE = (
    r"<!-- ([^>]*) begins -->.*?<!-- \1 ends -->",
    r"<!--.*?-->",
    r"^ *```.*?^ *```",
    r"!\[[^]]*\]\([^)]*\)",
    r"^(?:#| {4}\S|\|[-|: ]+\|$)[^\n]*",
)
WORD = re.compile(r"[\w'^%.-]*\w")
# A paragraph, an item of a list and a cell of a table each end a sentence.
SENTENCE_END = re.compile(r"\n\s*\n|\n(?=(?:[-*]|\d+\.) )|\||(?<=[.!?])\s+(?=[A-Z*(\"\d])")


def line_ends(match):
    """The line ends of a text that is left out, so that the other lines keep their numbers."""
    return "\n" * match[0].count("\n")


def prose_of(path):
    """The prose of a page, on the lines on which it is there."""
    text = path.read_text()
    if path.suffix == ".h":
        text = re.sub(r"\*/.*?(?:/\*|\Z)", line_ends, f"*/{text}", flags=re.S)
        text = re.sub(r"^\s*?\*+", "", text, flags=re.M)
    else:
        for part in NOT_PROSE:
            text = re.sub(part, line_ends, text, flags=re.S | re.M)
        text = re.sub(r"\[([^]]*)\]\([^)]*\)", r"\1", text)
    text = re.sub(r"`(?:[^`\n]|\n(?!\n))*`", lambda name: "NAME" + line_ends(name), text)
    return "\n".join(" ".join(line.split()) for line in text.split("\n"))


def phrases_in(prose):
    """Each listed phrase: its line, itself, and the usual words."""
    found = [(match.start(), match[0], usual) for phrase, usual in PHRASES for match in phrase.finditer(prose)]
    return [(prose.count("\n", 0, at) + 1, " ".join(said.split()), usual) for at, said, usual in sorted(found)]


def sentences_in(prose):
    """Each sentence of three words or more: its line, and how long it is."""
    at = 0
    for end in [*(match.span() for match in SENTENCE_END.finditer(prose)), (len(prose), 0)]:
        length = len(WORD.findall(prose, at, end[0]))
        if length >= 3:
            yield prose.count("\n", 0, at) + 1, length
        at = end[1]


def check(path):
    """Prints the figures of a page, or what exceeds a limit. Returns whether it is plain, and its words."""
    prose = prose_of(path)
    words = len(prose.split())
    lengths = [length for _, length in sentences_in(prose)] or [0]
    phrases = round(1000 * len(phrases_in(prose)) / max(words, 1))
    mean = round(sum(lengths) / len(lengths), 1)
    long = round(100 * sum(length > LONG for length in lengths) / len(lengths))
    figures = f"{words} words, {phrases} listed phrases per 1,000, {mean} words a sentence, {long} % over {LONG}"
    is_plain = phrases <= PHRASES_PER_1000 and mean <= WORDS_A_SENTENCE and long <= PERCENT_LONG
    limits = f"expected at most {PHRASES_PER_1000}, {WORDS_A_SENTENCE} and {PERCENT_LONG} % (see tests/prose.py {path})"
    print(f"ok {path}: {figures}" if is_plain else f"{path}: {figures}: {limits}")
    return is_plain, words


def check_all():
    """Checks each page, the lines of the README, and the words of all pages. Returns whether all is within the limits."""
    pages = sorted({page for pattern in PAGES for page in pathlib.Path().glob(pattern)})
    checked = {page: check(page) for page in pages}
    lines = len(pathlib.Path("README.md").read_text().splitlines())
    words = sum(words for page, (_, words) in checked.items() if page.suffix == ".md")
    counts = ((lines, README_LINES, "lines of README.md"), (words, ALL_WORDS, "words of all pages"))
    for count, most, what in counts:
        print(f"ok {count} {what}" if count <= most else f"{count} {what}: expected at most {most}")
    return all(is_plain for is_plain, _ in checked.values()) and all(count <= most for count, most, _ in counts)


def show(path):
    """Prints what makes a page less plain, with its lines. Returns whether it is within the limits."""
    prose = prose_of(path)
    notes = [(line, f"'{said}': {usual}") for line, said, usual in phrases_in(prose)]
    notes += [(line, f"a sentence of {length} words: split it") for line, length in sentences_in(prose) if length > LONG]
    for line, note in sorted(notes):
        print(f"{path}:{line}: {note}")
    return check(path)[0]


sys.exit(not all([show(pathlib.Path(name)) for name in sys.argv[1:]] if sys.argv[1:] else [check_all()]))
