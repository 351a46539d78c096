"""Writes the reference pages from the sources: calls with their contracts, definitions, and modules.

    python3 docs/reference.py            writes docs/reference/*.md
    python3 docs/reference.py --check    writes nothing; ends with 1 if a stored page is not what would be written

Either ends with 1 if a public clause uses a definition that has no comment and is not in UNCOMMENTED.
"""

import re
import sys
from dataclasses import dataclass, field
from functools import cache
from pathlib import Path

TOP = Path(__file__).resolve().parent.parent
FOLDER = TOP / "docs" / "reference"

# The crates that a user lists in crates.txt, each with a page. include/fastlanes.h describes the calls of `fastlanes_c`.
LISTED = [
    "fastlanes",
    "fastlanes_blocks",
    "fastlanes_column",
    "fastlanes_bytes",
    "fastlanes_checksum",
    "fastlanes_streams",
    "fastlanes_format",
    "fastlanes_pages",
    "fastlanes_column_streams",
    "flblock",
    "flcolumn_words",
    "flcolumn",
]
# The crates that only crates of this repository use. A page has their items if its crate re-exports them.
INTERNAL = ["fastlanes_base", "fastlanes_rows", "fastlanes_packing", "fastlanes_masks", "fastlanes_runs"]

# The definitions without a comment that public clauses use, each with the definition above it whose comment covers both.
UNCOMMENTED = {
    "fastlanes_blocks.Comparisons.at_least": "equals",
    "fastlanes_blocks.Comparisons.at_most": "equals",
    "fastlanes_blocks.Comparisons.greater_than": "equals",
    "fastlanes_blocks.Comparisons.less_than": "equals",
    "fastlanes_blocks.Comparisons.unequal": "equals",
    "fastlanes_packing.Kernels.TakesDigit": "AllowsDigit",
    "fastlanes_pages.Heads.frame_greatest": "frame_least",
    "fastlanes_pages.Heads.head_greatest": "head_least",
    "fastlanes_pages.Heads.heads_greatest": "heads_least",
    "fastlanes_pages.Heads.sums_greatest": "sums_least",
    "flblock.Element.bits_of": "bits_and_word",
    "flblock.Element.element_word": "bits_and_word",
    "flblock.Refusal.refusal_number": "text_and_number",
    "flblock.Refusal.refusal_text": "text_and_number",
}

HOW_TO_READ = """\
- A page lists the public calls of a crate by module. A code block has a signature with its clauses, as in the source.
- `requires` is a condition that the caller has to prove. `ensures` is proved for all arguments that meet the conditions;
  for a method of a trait, each implementation has a proof.
- `x.now` is the value behind a reference, `x.old` and `x.new` are this value before and after a call, `result` is what a call
  returns. `Model for X` defines `view`, the value that clauses see of an `X`.
- `Definitions` links the definitions that the clauses use. A proof writes `use Rattle.CRATE.specs.FILE.{NAME}` for one in
  `CRATE/specs/FILE.antt`, or `Rattle.fastlanes.specs.FILE` if `fastlanes` passes it on (`crates/fastlanes/specs/Lib.antt`).
- `abbrev` definitions unfold by themselves; `unfoldable` ones stay closed until a proof says `unfolding NAME`. Definitions
  that are not listed (`All`, `map`, `slice_index`) are in the kit's `std`.
"""


# The modules of a crate, and the items of a module.


@dataclass(eq=False)
class Module:
    crate: str
    path: tuple
    file: Path
    # The documentation with which the file begins.
    header: list
    # The definitions that its `ghost use` lines bring, by name.
    scope: dict
    items: list = field(default_factory=list)

    def name(self):
        return self.path[-1] if self.path else "root"

    def sentence(self):
        return first_sentence(self.header)


@dataclass(eq=False)
class Item:
    """An item of a module, or a member of a trait or of an implementation."""

    module: Module
    kind: str
    name: str
    is_public: bool
    docs: list
    comments: list
    # The lines up to the brace that opens the body, or to the end.
    head: list
    body: list
    members: list


ITEM = re.compile(
    r'(?P<pub>pub )?(?:pub\(\w+\) )?(?:extern "C" )?(?P<kind>fn|struct|enum|trait|impl|const|static|type|mod|use|ghost use|ghost)\b'
    r" ?(?P<name>\w*)"
)
CLAUSE = re.compile(r" *(?:requires|ensures)\b(?: \w+(?= \{))?")


def paragraphs(lines):
    """The lines between empty lines."""
    return [part.splitlines() for part in re.split(r"\n\s*\n", "\n".join(lines)) if part.strip()]


def first_sentence(header):
    return re.split(r"(?<=\.) ", " ".join(paragraphs(header)[0]))[0].rstrip(":.") + "."


def header_of(file):
    """The comment with which a source file begins."""
    begin = re.match(r"((//!|--).*\n)*", file.read_text(encoding="utf-8"))[0]
    return [re.sub(r"^(//!|--) ?", "", line) for line in begin.splitlines()]


def depth_of(line):
    """The number of brackets that a line opens, less those that it closes."""
    line = re.sub(r'"[^"]*"|(?<!\S)//.*', "", line)
    return len(re.findall(r"[(\[{]", line)) - len(re.findall(r"[)\]}]", line))


def opens_body(line):
    return line.endswith("{") and not CLAUSE.match(line)


def items_of(lines, indent, module):
    """The items that begin at an indent."""
    items, docs, comments, at = [], [], [], 0
    while at < len(lines):
        line = lines[at][indent:]
        at += 1
        if line.startswith("///"):
            docs.append(line[4:])
        elif line.startswith("//"):
            comments.append(line)
        elif line.startswith("#["):
            depth = depth_of(line)
            while depth:
                depth += depth_of(lines[at])
                at += 1
        elif found := ITEM.match(line):
            head, body, depth = [line], [], depth_of(line)
            has_body = found["kind"] in ("fn", "struct", "enum", "trait", "impl")
            while not (depth == 0 and line.endswith((";", "{}")) or has_body and depth == 1 and opens_body(line)):
                line = lines[at][indent:]
                at += 1
                head.append(line)
                depth += depth_of(line)
            if depth == 1:
                end = lines.index(" " * indent + "}", at)
                body = lines[at:end]
                at = end + 1
            members = items_of(body, indent + 4, module) if found["kind"] in ("trait", "impl") else []
            items.append(Item(module, found["kind"], found["name"], bool(found["pub"]), docs, comments, head, body, members))
            docs, comments = [], []
        else:
            docs, comments = [], []
    return items


@cache
def modules_of(crate):
    """The modules of a crate by their paths, each before its children."""
    folder = TOP / "crates" / crate / "src"
    modules = {}

    def read(path, file):
        text = file.read_text(encoding="utf-8")
        modules[path] = module = Module(crate, path, file, header_of(file), imports(text))
        module.items = items_of(text.splitlines(), 0, module)
        for item in module.items:
            if item.kind == "mod":
                read((*path, item.name), folder.joinpath(*path, f"{item.name}.rt"))

    read((), folder / "lib.rt")
    return modules


# What a user of a crate reaches.


def leaves(use):
    """The paths that a `use` item brings."""
    prefix, names = re.match(r"(?:pub )?use ([\w:]+?)(?:::\{(.*)\})?;", " ".join(use.head)).groups()
    if names is None:
        return [prefix.split("::")]
    return [[*prefix.split("::"), *name.strip().split("::")] for name in names.split(",") if name.strip()]


def resolve(crate, path, names):
    """The item or the module that a path names in a module, or nothing if it is in no crate of these."""
    if names[0] == "crate":
        return resolve(crate, (), names[1:])
    if names[0] in LISTED + INTERNAL:
        return resolve(names[0], (), names[1:])
    modules = modules_of(crate)
    if (*path, names[0]) in modules:
        path = (*path, names[0])
        return resolve(crate, path, names[1:]) if names[1:] else modules[path]
    for item in modules[path].items:
        if item.kind == "use" and item.is_public:
            for leaf in leaves(item):
                if leaf[-1] == names[0]:
                    return resolve(crate, path, leaf)
        elif item.name == names[0] and item.kind != "impl":
            return item
    return None


def reached(crate, path=()):
    """The public items that a module has or re-exports, itself or through its public modules."""
    for item in modules_of(crate)[path].items:
        if not item.is_public:
            continue
        if item.kind == "mod":
            yield from reached(crate, (*path, item.name))
        elif item.kind == "use":
            for leaf in leaves(item):
                found = resolve(crate, path, leaf)
                if isinstance(found, Module):
                    yield from reached(found.crate, found.path)
                elif found:
                    yield found
        else:
            yield item


def implementations(item):
    """The implementations of a type in its crate, each with the name of its trait, or with None."""
    for module in modules_of(item.module.crate).values():
        for block in module.items:
            if block.kind == "impl":
                head = re.sub(r"^impl(<.*?>)? (?=\w)", "", " ".join(block.head))
                trait, name = re.match(r"(?:(\w+)\S*(?:, \S+)* for )?(?:\w+::)*(\w+)", head).groups()
                if name == item.name:
                    yield trait, block


# The definitions of a crate's specs.


@dataclass(eq=False)
class Definition:
    crate: str
    file: str
    name: str
    # The text with the comment above it, as in the source.
    text: str
    is_commented: bool
    # The comment above it that stands alone, which speaks of all that follow it.
    section: str
    scope: dict


def imports(text):
    """The definitions that `use` lines bring: by the name they have there, the crate, the file and their name in it."""
    found = {}
    for crate, file, names, alias in re.findall(r"use Rattle\.(\w+)\.specs\.(\w+)(?:\.\{(.*?)\}| as (\w+))", text, re.S):
        if crate != "std" and alias:
            found[alias] = (crate, file, None)
        elif crate != "std" and file != "declared":
            for name in names.split(","):
                found |= {name.split()[-1]: (crate, file, name.split()[0])} if name.strip() else {}
    return found


@cache
def specs_of(crate):
    """The files of a crate's specs, each with the comment that begins it and its definitions by name."""
    specs = {}
    for path in sorted((TOP / "crates" / crate / "specs").glob("*.antt")):
        text = path.read_text(encoding="utf-8")
        _, *parts = paragraphs(text.splitlines())
        scope, definitions, section = imports(text), {}, ""
        for part in parts:
            lines = [line for line in part if not line.startswith("--")]
            if not lines:
                section = "\n".join(part)
            elif found := re.match(r"(?:abbrev |unfoldable )?pub (?:record )?(\S+)", lines[0]):
                name = found[1]
                scope[name] = (crate, path.stem, name)
                is_commented = part[0].startswith("--")
                definitions[name] = Definition(crate, path.stem, name, "\n".join(part), is_commented, section, scope)
        specs[path.stem] = [f"-- {line}" for line in header_of(path)], definitions
    return specs


def definition(crate, file, name):
    """The definition of a name. The specs of a crate may pass on those of another crate."""
    if crate not in LISTED + INTERNAL:
        return None
    if file in specs_of(crate):
        return specs_of(crate)[file][1].get(name)
    passed = (TOP / "crates" / crate / "specs" / "Lib.antt").read_text(encoding="utf-8")
    origin = re.search(rf"^pub use Rattle\.(\w+)\.specs\.{file}$", passed, re.M)
    return definition(origin[1], file, name) if origin else None


def uses(text, scope, bound=()):
    """The definitions that a contract or the text of a definition uses. The names that it binds are none."""
    text = re.sub(r"(--|//).*", "", text)
    bound = [*bound, *" ".join(re.findall(r"λ ([\w ]+)\.", text) + re.findall(r"[({]([\w ]+) : ", text)).split()]
    # The names of the fields of a record are none either.
    text = re.sub(r"^  pub \w+ :|(?<=[{;]) \w+ = ", " ", text, flags=re.M)
    found = []
    for name, member in re.findall(r"(?<![\w.-])([^\W\d][\w-]*)(?:\.(\w+))?", text):
        if name in scope and name not in bound:
            crate, file, source = scope[name]
            it = definition(crate, file, source or member)
            found += [it] if it and it not in found else []
    return found


def closure(definitions):
    """These definitions, and all that they use."""
    found, left = set(), list(definitions)
    while left:
        it = left.pop()
        if it not in found:
            found.add(it)
            # The parameters of an equation are bound.
            sides = re.findall(rf"^{re.escape(it.name)} (.*?) = ", it.text, re.M)
            left += uses(it.text, it.scope, re.findall(r"[^\W\d]\w*", " ".join(sides)))
    return found


def in_files(definitions):
    """Definitions by crate and file, in the order of the sources."""
    for crate in INTERNAL + LISTED:
        for file, (header, each) in specs_of(crate).items():
            if found := [it for it in each.values() if it in definitions]:
                yield crate, file, header, found


# Pages.


class Page:
    """The lines of a page. `](@KEY)` in a line links to the heading of that key, on whichever page it is."""

    by_name = {}
    targets = {}

    def __init__(self, name, title):
        self.name = name
        self.lines = []
        self.anchors = []
        self.by_name[name] = self
        self.heading(1, title, name)

    def heading(self, level, text, key):
        # (GitHub makes the anchor of a heading so.)
        anchor = re.sub(r"[^\w -]", "", text.lower()).replace(" ", "-")
        count = self.anchors.count(anchor)
        self.anchors.append(anchor)
        self.targets[key] = self.name, f"#{anchor}" + (f"-{count}" if count else "")
        self.lines += [f"{'#' * level} {text}", ""]

    def text(self, *lines):
        """A paragraph, or nothing if it has no lines."""
        self.lines += [*lines, ""] if lines else []

    def code(self, language, lines):
        self.text(f"```{language}", *lines, "```")

    def link(self, found):
        name, anchor = self.targets[found[1]]
        return f"]({'' if name == self.name else f'{name}.md'}{anchor})"

    def whole(self):
        return re.sub(r"\]\(@([^)]+)\)", self.link, "\n".join(self.lines))


def source_link(path):
    path = path.relative_to(TOP)
    return f"[{path}](../../{path})"


def docs_of(item):
    """The documentation of an item, without examples."""
    text = re.sub(r"```.*?```\n*", "", "\n".join(item.docs), flags=re.S)
    return text.strip().splitlines()


def signature(item):
    """The head of an item, without the brace that opens the body."""
    return re.sub(r"\s*\{\}?$", "", "\n".join(item.head)).splitlines()


def block_of(item, members):
    """A trait or an implementation with some of its members, each with its documentation and without its body."""
    lines = []
    for member in members:
        lines += [f"/// {line}".rstrip() for line in docs_of(member)]
        lines += [*(member.comments if member.kind == "ghost" else []), *signature(member)]
    return [*item.head, *("    " + line for line in lines), "}"]


def fields_of(item):
    """The public fields of a struct, or the variants of an enum, with their documentation."""
    lines, docs = [], []
    for line in item.body:
        docs.append(line)
        if not line.startswith(("    //", "    #")):
            lines += docs if line.startswith("    pub ") or item.kind == "enum" else []
            docs = []
    return lines


def contract_of(item):
    """The clauses of a function without their names, or the text of a ghost member."""
    if item.kind == "ghost":
        return "\n".join(item.head)
    clauses = [number for number, line in enumerate(item.head) if CLAUSE.match(line)]
    return "\n".join(CLAUSE.sub("", line) for line in item.head[clauses[0] :]) if clauses else ""


@dataclass
class Entry:
    """What a page has of a call, a type, a trait, an implementation or a constant."""

    level: int
    label: str
    item: Item
    code: list
    # The members that the code has.
    members: list = field(default_factory=list)

    def key(self):
        return f"{self.item.module.crate}/{'.'.join(self.item.module.path)}/{self.label}"

    def definitions(self):
        return uses("\n".join(map(contract_of, [self.item, *self.members])), self.item.module.scope)


def entries_of(item, label, traits):
    """The entries of an item: its own, those of its methods, and those of its implementations of some traits."""
    own, calls, blocks = Entry(3, label, item, signature(item)), item.members, []
    if item.kind == "trait":
        own.members = [it for it in item.members if it.kind in ("const", "type", "ghost")]
        own.code = block_of(item, own.members) if own.members else own.code
    if item.kind in ("struct", "enum"):
        fields = fields_of(item)
        own.code = [*item.head, *fields, "}"] if fields else own.code
        for trait, block in implementations(item):
            if not trait:
                calls = [*calls, *(it for it in block.members if it.is_public)]
            elif trait in traits:
                shown = [it for it in block.members if it.kind == "ghost" or it.docs or contract_of(it)]
                blocks += [Entry(4, f"{trait} for {label}", block, block_of(block, shown), shown)] if shown else []
        if not (fields or calls or blocks or own.code[-1].endswith(";")):
            # A user has no use of a type that has none of these.
            return []
    return [own, *(Entry(4, f"{label}::{it.name}", it, signature(it)) for it in calls if it.kind == "fn"), *blocks]


def groups_of(crate, items, traits):
    """The entries of the items that a page has, by module, for each item those that belong to it."""
    groups, labels = {}, set()
    for module in [it for name in (*INTERNAL, crate) for it in modules_of(name).values()]:
        for item in module.items:
            if item in items:
                label = f"{module.name()}::{item.name}" if item.name in labels else item.name
                labels.add(label)
                if entries := entries_of(item, label, traits):
                    groups.setdefault(module, []).append(entries)
    return groups


def links_of(entries):
    """Links to the entries of an item."""
    first, *rest = [f"[`{it.label.split('::')[-1] if it.level == 4 else it.label}`](@{it.key()})" for it in entries]
    return f"{first} ({', '.join(rest)})" if rest else first


def write_calls(crate, items, traits):
    """Writes the calls of a crate to its page, and returns the definitions that their clauses use."""
    page = Page(crate, f"`{crate}`")
    root = modules_of(crate)[()]
    page.text(*root.header)
    page.text(f"Generated from {source_link(root.file.parent)}. [How to read this page](README.md#how-to-read-a-page).")
    for other in LISTED:
        names = [f"`{it.name}`" for it in items if it.module.crate == other != crate]
        page.text(*[f"It re-exports from [{other}]({other}.md): {', '.join(names)}."] if names else [])
    groups = groups_of(crate, items, traits)
    page.heading(2, "Calls", f"{crate}/calls")
    page.text(*(f"- {module.name()}: {', '.join(map(links_of, parts))}" for module, parts in groups.items()))
    used = set()
    for module, parts in groups.items():
        page.heading(2, module.name(), f"{crate}/{module.crate}/{module.path}")
        page.text(f"{source_link(module.file)}: {module.sentence()}")
        for entry in [it for entries in parts for it in entries]:
            page.heading(entry.level, f"`{entry.label}`", entry.key())
            page.text(*docs_of(entry.item))
            page.code("rust", entry.code)
            found = entry.definitions()
            used.update(found)
            files = [
                ", ".join(f"`{it.name}`" for it in each) + f" ([{file}](@{owner}/{file}))" for owner, file, _, each in in_files(found)
            ]
            page.text(*[f"Definitions: {', '.join(files)}."] if files else [])
    return used


def write_definitions(page, definitions, level):
    """Writes definitions to a page, the definitions of a file as one block."""
    for crate, file, header, found in in_files(definitions):
        page.heading(level, f"{crate}/specs/{file}.antt", f"{crate}/{file}")
        lines, section = header, ""
        for it in found:
            if it.section != section:
                section = it.section
                lines = [*lines, "", section]
            lines = [*lines, "", it.text]
        page.code("antt", lines)


def write_contents():
    page = Page("README", "Reference")
    page.text("`docs/reference.py` writes these pages from the sources: each public call with its contract, and the definitions.")
    rows = [f"| [{it}]({it}.md) | {modules_of(it)[()].sentence()} |" for it in LISTED]
    page.text("| Crate | First sentence of its documentation |", "|---|---|", *rows)
    page.text(
        "[layout.md](layout.md) has the definitions of the crates below `fastlanes`, [MODULES.md](MODULES.md) all crates and source",
        "files. [include/fastlanes.h](../../include/fastlanes.h) documents the C functions.",
    )
    page.heading(2, "How to read a page", "README/how")
    page.text(*HOW_TO_READ.splitlines())


def write_modules():
    page = Page("MODULES", "Crates and source files")
    lines = re.findall(r"^(\w+)[^:\n]*:(.*)$", (TOP / "crates.txt").read_text(encoding="utf-8"), re.M)
    uses_of = {crate: libraries.split() for crate, libraries in lines}
    page.text(
        "An arrow leads from a crate to a crate that it uses. It is left out if other arrows lead there too, and so are the kit's",
        "libraries: [crates.txt](../../crates.txt) has all uses of each crate.",
    )
    arrows = []
    for crate, libraries in uses_of.items():
        below = {it for library in libraries for it in uses_of.get(library, [])}
        arrows += [f"    {crate} --> {it}" for it in libraries if it in uses_of and it not in below]
    page.code("mermaid", ["graph TD", *arrows])
    for crate in uses_of:
        page.heading(2, crate, f"modules/{crate}")
        folder = TOP / "crates" / crate
        sources = sorted((folder / "src").rglob("*.rt"), key=lambda it: (it.stem not in ("lib", "main"), it.with_suffix("").parts))
        files = [*sources, *sorted(folder.glob("specs/*.antt")), *sorted(folder.glob("proofs/*.antt"))]
        for file in [it for it in files if it.name != "Lib.antt"]:
            name = file.relative_to(folder).with_suffix("")
            page.lines.append(f"- [{name}](../../{file.relative_to(TOP)}): {first_sentence(header_of(file))}")
        page.lines.append("")


def pages():
    """The text of each page by its name, and the definitions on the pages that have no comment."""
    items, owned = {}, set()
    for crate in LISTED:
        found = dict.fromkeys(reached(crate))
        items[crate] = [it for it in found if it.module.crate not in INTERNAL or it not in owned]
        owned.update(found)
    traits = {it.name for it in owned if it.kind == "trait"} | {"Model"}
    used = closure({it for crate in LISTED for it in write_calls(crate, items[crate], traits)})
    for crate in LISTED:
        if own := {it for it in used if it.crate == crate}:
            Page.by_name[crate].heading(2, "Definitions", f"{crate}/definitions")
            write_definitions(Page.by_name[crate], own, 3)
    layout = Page("layout", "Definitions of the internal crates")
    layout.text("The clauses on the other pages use these. [How to read this page](README.md#how-to-read-a-page).")
    write_definitions(layout, {it for it in used if it.crate in INTERNAL}, 2)
    write_contents()
    write_modules()
    bare = {f"{it.crate}.{it.file}.{it.name}" for it in used if not it.is_commented}
    return {FOLDER / f"{name}.md": page.whole() for name, page in Page.by_name.items()}, bare


def main(arguments):
    if arguments not in ([], ["--check"]):
        print(__doc__)
        return 2
    wanted, bare = pages()
    for name in sorted(bare - UNCOMMENTED.keys()):
        print(f"{name} has no comment, and a public clause uses it")
    for name in sorted(UNCOMMENTED.keys() - bare):
        print(f"{name} is in UNCOMMENTED of docs/reference.py, but has a comment or is on no page")
    is_stale = bare != UNCOMMENTED.keys()
    for path in sorted({*wanted, *FOLDER.glob("*.md")}):
        text = wanted.get(path)
        if path.is_file() and path.read_text(encoding="utf-8") == text:
            continue
        if arguments:
            print(f"{path} is not what docs/reference.py writes")
            is_stale = True
        elif text is None:
            path.unlink()
        else:
            FOLDER.mkdir(exist_ok=True)
            path.write_text(text, encoding="utf-8")
    return 1 if is_stale else 0


if __name__ == "__main__":
    sys.exit(main(sys.argv[1:]))
