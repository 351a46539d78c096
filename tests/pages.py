#!/usr/bin/env python3
"""Checks the links and the code blocks of the pages (*.md) below the current folder. Prints 'ok NAME' for each thing that holds; any
other line is a failure.

    tests/pages.py links       links into this repository: the file is there, and so is the heading of an anchor
    tests/pages.py words       code blocks: each begins with a word of the list below, and ends
    tests/pages.py c           C blocks: a compiler accepts them with include/fastlanes.h
    tests/pages.py commands    shell blocks that name ./flcolumn or ./flblock: they run, and print the lines that follow
    tests/pages.py rs PAGE     prints a page of which only the Rust blocks are left, for rustdoc (tests/rust.sh)

The first words after ``` decide what a block is:

c           C99. cpp: C++11. c cpp: both. A block with a `main` is a whole file. Any other block is the body of a function that has the
            parameters `const uint32_t *values, size_t n` and may return an int. If it has #include lines, the file has only these;
            otherwise it includes stdio.h, stdlib.h, string.h and fastlanes.h.
rs          Rust over the package in rust/: a test of rustdoc.
console     Lines that begin with `$ ` are commands. Lines after a command are what it prints, to standard output or standard error;
            a line `...` is any number of lines. A command without such lines has to end with status 0. The blocks of a page run in
            one temporary folder, which begins with nothing but the two programs.
sh          The same. A block without `$ ` is one script.

Blocks of `rust` and `antt` are Rattle and its logic (tests/documents.sh looks for them in the sources), `bash` is tests/program.sh's.
Nothing checks `toml`, `cmake`, `mermaid` and `text`. In rust/README.md `cargo test` runs the blocks without a word, and those of `rust`.
"""
import os
import pathlib
import re
import shutil
import subprocess
import sys
import tempfile
import urllib.parse

PAGES = sorted(page for pattern in ("*.md", "*/*.md", "docs/reference/*.md") for page in pathlib.Path().glob(pattern))
TOP = pathlib.Path().resolve()
BLOCK = re.compile(r"^( *)```([^\n`]*)\n(.*?)^ *``` *$", re.S | re.M)
CODE = re.compile(r"(`+)(?:(?!\n\n).)*?\1", re.S)
LINK = re.compile(r'\]\(\s*<?([^)\s>]+)[^)]*\)|^\[[^]]+\]: *(\S+)|\b(?:href|src)="([^"]*)"', re.M)
COMPILERS = {"c": ["cc", "-std=c99", "-x", "c"], "cpp": ["c++", "-std=c++11", "-x", "c++"]}
PROGRAMS = ("flcolumn", "flblock")
FIRST_WORDS = {"c", "cpp", "rs", "console", "sh", "rust", "antt", "bash", "toml", "cmake", "mermaid", "text"}


def blocks_of(page):
    """The code blocks of a page: the words after ```, the code, and the line on which it begins."""
    text = page.read_text()
    for block in BLOCK.finditer(text):
        code = re.sub(f"^{block[1]}", "", block[3], flags=re.M)
        yield block[2].split(), code, text.count("\n", 0, block.start(3)) + 1


def anchors_of(page):
    """The anchors of a page, as GitHub makes them from its headings, and those that it has itself."""
    text = BLOCK.sub("", page.read_text())
    anchors = set(re.findall(r'<a (?:id|name)="([^"]*)"', text))
    counts = {}
    for heading in re.findall(r"^ {0,3}#{1,6} +(.*?)(?: +#+)? *$", text, re.M):
        said = re.sub(r"!?\[([^]]*)\]\([^)]*\)", r"\1", heading)
        slug = re.sub(r"[^\w\- ]", "", said.lower()).replace(" ", "-")
        counts[slug] = counts.get(slug, -1) + 1
        anchors.add(f"{slug}-{counts[slug]}" if counts[slug] else slug)
    return anchors


def fault_of(page, link):
    """What is wrong with a link of a page, if anything."""
    path, _, anchor = link.partition("#")
    target = (page.parent / urllib.parse.unquote(path)).resolve() if path else page.resolve()
    if re.match("https?://", link):
        return None
    if not target.is_relative_to(TOP):
        return "leaves the repository"
    if not target.exists():
        return "no such file"
    if anchor and (target.suffix != ".md" or urllib.parse.unquote(anchor) not in anchors_of(target)):
        return f"no heading of {target.relative_to(TOP)} has this anchor"
    return None


def check_links():
    for page in PAGES:
        text = CODE.sub("", BLOCK.sub("", page.read_text()))
        links = ["".join(link) for link in LINK.findall(text)]
        faults = {link: fault for link in links if (fault := fault_of(page, link))}
        for link, fault in faults.items():
            print(f"{page}: link '{link}': {fault}")
        if not faults:
            print(f"ok the links of {page}")


def check_words():
    for page in PAGES:
        words = FIRST_WORDS | ({""} if page == pathlib.Path("rust/README.md") else set())
        found = [(line - 1, "".join(said[:1])) for said, _, line in blocks_of(page)]
        unknown = [(line, word) for line, word in found if word not in words]
        faults = [f"{page}:{line}: unknown word '{word}' after ```: expected one of {sorted(words)}" for line, word in unknown]
        if re.search("^ *```", BLOCK.sub("", page.read_text()), re.M):
            faults.append(f"{page}: a code block does not end")
        print("\n".join(faults) or f"ok the code blocks of {page} are of known languages")


def file_of(code, page, line):
    """The file that a C compiler reads for a block. Its messages have the lines of the page."""
    mark = f'#line {line} "{page}"\n'
    if re.search(r"\bmain *\(", code):
        return mark + code
    includes = re.findall(r"^ *#include.*\n", code, re.M)
    includes = includes or [f"#include <{name}.h>\n" for name in ("stdio", "stdlib", "string", "fastlanes")]
    body = re.sub(r"^ *#include.*$", "", code, flags=re.M)
    head = "int example(const uint32_t *values, size_t n);\nint example(const uint32_t *values, size_t n) {\n(void)values, (void)n;\n{\n"
    return f"#include <stddef.h>\n#include <stdint.h>\n{''.join(includes)}{head}{mark}{body}}}\nreturn 0;\n}}\n"


def check_c():
    for page in PAGES:
        for words, code, line in blocks_of(page):
            for language in [word for word in words if word in COMPILERS]:
                compiler, *options = COMPILERS[language]
                if not shutil.which(compiler):
                    print(f"skipped: the {language} block at {page}:{line} (no {compiler})")
                    continue
                command = [compiler, *options, "-Wall", "-Wextra", "-Werror", "-fsyntax-only", "-Iinclude", "-"]
                ran = subprocess.run(command, input=file_of(code, page, line), capture_output=True, text=True)
                if ran.returncode == 0:
                    print(f"ok {compiler} accepts the block at {page}:{line}")
                else:
                    print(f"{compiler} rejects the block at {page}:{line}:\n{ran.stderr.strip()}")


def commands_of(code, line):
    """The commands of a shell block: each with its line, and the lines that it has to print."""
    if not re.search(r"^\$ ", code, re.M):
        return [(line, code.strip(), [])]
    commands = []
    for number, said in enumerate(code.split("\n"), line):
        if commands and commands[-1][1].endswith("\\"):
            commands[-1][1] += f"\n{said}"
        elif said.startswith("$ "):
            commands.append([number, said[2:], []])
        elif commands:
            commands[-1][2].append(said)
    # An empty line before the next command is no output.
    return [(number, command, "\n".join(lines).rstrip().splitlines()) for number, command, lines in commands]


def check_command(page, line, command, lines, folder):
    streams = {"stdin": subprocess.DEVNULL, "stdout": subprocess.PIPE, "stderr": subprocess.STDOUT}
    ran = subprocess.run(["bash", "-e", "-c", command], cwd=folder, **streams)
    printed = ran.stdout.decode(errors="replace")
    wanted = "".join(r"(?:.*\n)*" if it.strip() == "..." else re.escape(it) + r"\n" for it in lines)
    holds = re.fullmatch(wanted, printed if printed.endswith("\n") else f"{printed}\n") if lines else ran.returncode == 0
    name = f"{page}:{line}: {command.splitlines()[0]}"
    expected = "\n".join(lines) or "status 0"
    print(f"ok {name}" if holds else f"{name}: status {ran.returncode}, printed:\n{printed}expected:\n{expected}")


def check_commands():
    missing = [name for name in PROGRAMS if not os.access(f"crates/{name}_main/out/{name}_main", os.X_OK)]
    if missing:
        print(f"skipped: the commands of the pages (no proved {' and '.join(missing)})")
        return
    for page in PAGES:
        with tempfile.TemporaryDirectory() as folder:
            for name in PROGRAMS:
                os.symlink(TOP / name, pathlib.Path(folder, name))
            for words, code, line in blocks_of(page):
                if words[:1] in (["console"], ["sh"]) and re.search(r"\./(?:flcolumn|flblock)\b", code):
                    for at, command, lines in commands_of(code, line):
                        check_command(page, at, command, lines, folder)


def print_rust(page):
    """Prints a page, whose lines keep their numbers, with its Rust blocks as those that rustdoc runs."""
    lines = [""] * len(page.read_text().split("\n"))
    for words, code, line in blocks_of(page):
        if words[:1] == ["rs"]:
            lines[line - 2 : line - 1] = ["```rust"]
            lines[line - 1 : line + code.count("\n")] = [*code.split("\n")[:-1], "```"]
    print("\n".join(lines))


if sys.argv[1] == "rs":
    print_rust(pathlib.Path(sys.argv[2]))
else:
    for name in sys.argv[1:]:
        {"links": check_links, "words": check_words, "c": check_c, "commands": check_commands}[name]()
