#!/usr/bin/env bash
# Looks for lemmas and definitions that nothing cites: no contract, no answer, no table of docs/PROVING.md, itself or through
# others. Prints a line for each thing that is as it should be: 'ok NAME'. Any other line tells what is not. It is tried too, on
# copies with a lemma that nothing cites.
set -u
cd "$(dirname "$0")/.." || exit 1
python3 - <<'PYTHON'
import pathlib
import re

WORD = re.compile(r"[\w'-]+")
PAGE = pathlib.Path("docs/PROVING.md")
FILES = {it: it.read_text() for kind in ("*.antt", "*.rt") for it in sorted(pathlib.Path("crates").rglob(kind)) if "out" not in it.parts}


def parts_of(text):
    """The words of each definition of a file of proofs or specs, but its own name, and which definitions are public."""
    text = re.sub(r"(^|\s)--.*", r"\1", text)
    # What a module has stands two further in. What is unfolded stands before the line that it serves.
    for module in re.findall(r"^module .*\n(?:(?: .*)?\n)*", text, re.M):
        text = text.replace(module, re.sub(r"^  ", "", module, flags=re.M))
    text = re.sub(r"^unfolding (.*)\n([\w'-]+)", r"\2 \1", text, flags=re.M)
    definitions, public = {}, set()
    for part in re.split(r"\n(?=\S)", text):
        head = re.match(r"((?:(?:abbrev|unfoldable|pub|record|data) )*)([\w'-]+)", part)
        if head and head[2] not in ("use", "mod"):
            definitions.setdefault(head[2], set()).update(WORD.findall(part))
            if "pub " in head[1]:
                public.add(head[2])
    for name, words in definitions.items():
        words.discard(name)
    return definitions, public


def uncited(files, page):
    """Each definition that is not reached from what is cited for itself, as its file and its name."""
    definitions, cited, told, imported = {}, set(), {}, {}
    for path, text in files.items():
        # The names of a module that the file has, each with the module's.
        lists = re.findall(r"(\w+)\.\{([^}]*)\}", text)
        imported[path] = {(module, name) for module, names in lists for name in WORD.findall(names)}
        imported[path] |= set(re.findall(r"(\w+)(?=(?:\.|::)([\w'-]+))", text))
        if path.suffix == ".rt":
            told[path] = set(WORD.findall(re.sub(r"//.*|\b(ghost )?use [^;]*;", "", text)))
        else:
            of_file, public = parts_of(text)
            for name, words in of_file.items():
                definitions[path, name] = words
                # The prover reads the answers of a function by their names, and laws by theirs. A module's parameters serve all in it.
                if len(path.parts) > 4 and name in public or name.endswith("-laws") or name == "module":
                    cited.add((path, name))
    named = {}
    for path, name in definitions:
        named.setdefault(name, []).append(path)

    def meant(path, word):
        """The definitions that a word of a file may mean: the file's own, or those of modules that it has it from."""
        if (path, word) in definitions:
            return [(path, word)]
        return [(it, word) for it in named.get(word, []) if (it.stem, word) in imported[path]]

    for path, words in told.items():
        cited.update(it for word in words for it in meant(path, word))
    for line in page.splitlines():
        if line.startswith("|"):
            cited.update((path, word) for word in re.findall(r"`([^`]*)`", line) for path in named.get(word, []))
    new = cited
    while new:
        new = {it for path, name in new for word in definitions[path, name] for it in meant(path, word)} - cited
        cited |= new
    return sorted(definitions.keys() - cited)


page = PAGE.read_text()
found = uncited(FILES, page)
for path, name in found:
    print(f"nothing cites {name} of {path}")
if not found:
    count = sum(len(parts_of(text)[0]) for path, text in FILES.items() if path.suffix == ".antt")
    print(f"ok each of {count} lemmas, definitions and answers is cited")

LEMMA = "\npub of_no_use : 0 ≡ 0\nof_no_use = refl\n\npub of_use_to_it : 0 ≡ 0\nof_use_to_it = of_no_use\n"
MARK = pathlib.Path("crates/fastlanes_rows/proofs/Numbers.antt")
USER = pathlib.Path("crates/fastlanes_rows/proofs/Begun.antt")
for what, added in {
    "a lemma that nothing cites": {MARK: LEMMA},
    "a lemma that is only imported": {MARK: LEMMA, USER: "\nuse Rattle.fastlanes_rows.proofs.Numbers.{of_no_use}\n"},
    "a definition that nothing cites": {pathlib.Path("crates/fastlanes_rows/specs/Row.antt"): LEMMA.replace("pub", "abbrev pub")},
}.items():
    more = set(uncited({path: text + added.get(path, "") for path, text in FILES.items()}, page)) - set(found)
    names = sorted(name for _, name in more)
    print(f"ok {what} is found" if names == ["of_no_use", "of_use_to_it"] else f"{what}: found are {names}")
PYTHON
