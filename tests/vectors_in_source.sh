#!/usr/bin/env bash
# Holds the source of what runs on vectors against what no contract can say: that nothing which it calls, itself or through
# other functions, goes lane by lane; that a group of lanes and a block go row by row and group by group through the proved
# steps; that bits are transposed by no plain words, and that a single value is read through a probe. Prints a line for each
# that is as it should be: 'ok NAME'. Any other line tells what is not. The check is tried too, on copies of the source that
# it has to refuse, and on all of these with other names for parameters and variables.
set -u
cd "$(dirname "$0")/.." || exit 1
python3 - <<'PYTHON'
import functools
import pathlib
import re
import sys
from dataclasses import dataclass

PATTERNS = ["fastlanes_rows/src/**/*.rt", "fastlanes_packing/src/**/*.rt", "fastlanes_masks/src/**/*.rt"]


def files_of(patterns):
    """The files of these patterns, but the root files: each text by the name of its module. Each pattern has to match some file, and
    no two files may have one name."""
    files = {}
    for pattern in patterns:
        paths = sorted(pathlib.Path("crates").glob(pattern))
        if not paths:
            raise LookupError(f"no file matches crates/{pattern}")
        for path in paths:
            if path.stem in files:
                raise LookupError(f"two files have the name {path.name}")
            if path.stem != "lib":
                files[path.stem] = path.read_text()
    return files


try:
    FILES = files_of(PATTERNS)
except LookupError as error:
    sys.exit(print(error))

TOKEN = re.compile(r"//[^\n]*|\"[^\"]*\"|'\w+|\w+|::|->|=>|\.\.=?|<<|>>|&&|\|\||[-+*/%^&|=!<>]=|\S")
KEYWORDS = set("if else in match return let mut as for while loop move".split())
OPENS = {"(": ")", "[": "]", "{": "}"}


@dataclass(eq=False)
class Function:
    """A function with a body, which stands in an impl for `owner` or in none; a macro is one too, its name with a '!'. Its
    parameters begin at `head`, its body at `body`, and it ends at `end`."""

    file: str
    owner: str
    name: str
    tokens: list
    head: int
    body: int
    end: int


def end_of(tokens, at):
    """The end of the group of brackets that begins here."""
    depth = 0
    for at in range(at, len(tokens)):
        depth += (tokens[at] in OPENS) - (tokens[at] in OPENS.values())
        if depth == 0:
            return at + 1


def end_of_generics(tokens, at):
    depth = 0
    while tokens[at] == "<" or depth:
        depth += {"<": 1, ">": -1, ">>": -2}.get(tokens[at], 0)
        at += 1
    return at


@functools.lru_cache(None)
def functions_of(file, text):
    tokens = [it for it in TOKEN.findall(text) if not it.startswith("//")]
    found, owner, owner_ends, at = [], "", 0, 0
    while at < len(tokens):
        if at >= owner_ends:
            owner = ""
        if tokens[at] in ("impl", "trait") and not owner:
            opened = tokens.index("{", at)
            begin = tokens.index("for", at) + 1 if "for" in tokens[at:opened] else end_of_generics(tokens, at + 1)
            owner, owner_ends, at = tokens[begin], end_of(tokens, opened), opened
        elif tokens[at] == "macro_rules":
            end = end_of(tokens, at + 3)
            found.append(Function(file, "", tokens[at + 2] + "!", tokens, at + 3, at + 3, end))
            at = end - 1
        elif tokens[at] == "fn":
            name, head = tokens[at + 1], end_of_generics(tokens, at + 2)
            at = head
            while tokens[at] not in ("{", ";"):
                if tokens[at] in ("requires", "ensures"):
                    at = tokens.index("{", at)
                at = end_of(tokens, at) if tokens[at] in OPENS else at + 1
            if tokens[at] == "{":
                found.append(Function(file, owner, name, tokens, head, at, end_of(tokens, at)))
                at = found[-1].end - 1
        at += 1
    return found


def names_bound(it):
    """The parameters of a function, and the names that its body gives by `let` and `for`."""
    bound = {it.tokens[at] for at in range(it.head, end_of(it.tokens, it.head)) if it.tokens[at + 1] == ":"}
    for at in range(it.body, it.end):
        if it.tokens[at] in ("let", "for"):
            while it.tokens[at] not in ("=", ":", "in"):
                bound.add(it.tokens[at])
                at += 1
    return {name for name in bound if re.fullmatch(r"[a-z_]\w*", name)} - KEYWORDS


def renamed(file, text):
    """The same text, without its layout, with another name for each parameter and variable of its functions."""
    functions = [it for it in functions_of(file, text) if not it.name.endswith("!")]
    if not functions:
        return text
    old = functions[0].tokens
    new = list(old)
    for it in functions:
        bound, opened = names_bound(it), []
        for at in range(it.head, it.end):
            before, after = old[at - 1], "" if at + 1 == len(old) else old[at + 1]
            if old[at] in OPENS:
                opened.append(old[at] == "{" and at > it.body and (before[:1].isupper() or before == ">"))
            elif old[at] in OPENS.values():
                opened.pop()
            elif old[at] in bound and before not in (".", "::") and after not in ("::", "("):
                # A struct's field has its own name.
                is_field = opened[-1:] == [True] and before in ("{", ",")
                if is_field and after in (",", "}"):
                    new[at] = f"{old[at]}: other_{old[at]}"
                elif not (is_field and after == ":"):
                    new[at] = f"other_{old[at]}"
    return " ".join(new)


class Source:
    """The functions of all files, and what each calls."""

    def __init__(self, files):
        self.types, self.blocks = files["types"], files["bitpacking"]
        self.functions = [it for file, text in files.items() for it in functions_of(file, text)]
        self.names = {it.name for it in self.functions}
        # The names that a file has from elsewhere, each with the module's that it is from and its own there.
        self.imports = {file: {} for file in files}
        for file, text in files.items():
            for path, names in re.findall(r"\buse\s+((?:\w+\s*::\s*)+)([^;]*);", re.sub("//.*", "", text)):
                module = path.split("::")[-2].strip()
                is_other = module not in files and re.match("fastlanes_|std", path)
                for name, _, here in re.findall(r"(\w+)(\s+as\s+(\w+))?", names):
                    self.imports[file][here or name] = (None if is_other else module, name)

    def one(self, file, name, owner=None):
        found = [it for it in self.functions if it.file == file and it.name == name and owner in (None, it.owner)]
        if len(found) != 1:
            raise LookupError(f"{owner or file} has {len(found)} functions {name}")
        return found[0]

    @functools.lru_cache(None)
    def calls(self, it):
        """What a function calls, or names as one that is called elsewhere: each name, and the functions that it may be."""
        bound = names_bound(it)
        found = []
        for at in range(it.body, it.end - 1):
            name, before, after = it.tokens[at], it.tokens[at - 1], it.tokens[at + 1]
            is_macro_word = before == "$" or before == ":" and it.tokens[at - 3] == "$"
            if not name.isidentifier() or name in KEYWORDS or is_macro_word:
                continue
            module, name = self.imports[it.file].get(name, ("", name))
            if after == "!" and it.tokens[at + 2] in OPENS:
                name += "!"
            else:
                has_generics = after == "::" and it.tokens[at + 2] == "<"
                behind = end_of_generics(it.tokens, at + 2) if has_generics else at + 1
                is_name = name in self.names and name not in bound and before != "." and (has_generics or after not in (":", "::"))
                if it.tokens[behind] != "(" and not is_name:
                    continue
            named = [f for f in self.functions if f.name == name]
            if before == "::":
                named = [f for f in named if f.file == it.tokens[at - 2]] or named
            elif before == ".":
                named = [f for f in named if f.owner]
            elif module != "" and after != "!":
                named = [f for f in named if f.file == module] if module is None or any(f.file == module for f in named) else named
            else:
                named = [f for f in named if f.file == it.file and not f.owner] or named
            found.append((name, named))
        return found

    def called(self, it):
        return [name for name, _ in self.calls(it)]

    def reached(self, it, leaves):
        """A function and all that it calls, itself or through others, but for these; and what is called that no file has."""
        reached, other = [it], None
        for at in reached:
            for name, named in self.calls(at):
                named = [f for f in named if f.file != "vector" or name not in leaves]
                # Of the steps that are done row by row, that of a group is asked about.
                named = [f for f in named if name != "step" or f.owner == "GroupRows"]
                reached += [f for f in named if f not in reached]
                if not named and name not in leaves:
                    other = other or f"{at.name} calls {name}"
        return reached, other


def text_of(it):
    return " ".join(it.tokens[it.body : it.end])


def loops_in(it):
    return [word for word in it.tokens[it.body : it.end] if word in ("for", "while", "loop")]


def elements_in(it, table=""):
    """Where single elements are taken, but of this table, and where they are listed: brackets that are no range, no type of an array
    and no array of one value."""
    taken, listed = [], []
    for at in range(it.body, it.end):
        before, inner = it.tokens[at - 1], it.tokens[at : end_of(it.tokens, at)] if it.tokens[at] == "[" else ""
        is_range = ".." in inner and "," not in inner
        if inner and before != table and not is_range and ";" not in inner:
            is_taken = before in (")", "]") or before.isidentifier() and before not in KEYWORDS
            (taken if is_taken else listed).append(" ".join([before, *inner]))
    return taken, listed


# What may be called of other crates: by rows the operations on a vector, a word alone, and what a cursor, a sink, a width and the layout
# answer;
# by bits those on a vector; by a single value those of a probe and of a word.
ROW_CALLS = set("load put splat minus up down or low next_row next_word put_word place_of_word Lone width lane index zero one len first_chunk_mut Some".split())
BIT_CALLS = set("from_array to_array from_le_bytes to_le_bytes shuffle splat".split())
PROBE_CALLS = set("new word width lane zero row_of lane_of low up down or".split())


def fault_of_reached(source, it, leaves, loop_of="", table=""):
    """Why what a function calls may go element by element, or None."""
    reached, other = source.reached(it, leaves)
    for at in reached:
        for found in [] if at.name == loop_of else loops_in(at):
            return f"{at.name} has {found!r}"
        for found in sum(elements_in(at, table), []):
            return f"{at.name} has {found!r}"
    return other


def fault_of_vectors(source):
    """Why the vectors of rows are not those of std::simd, each operation one of theirs, or None."""
    forms = {it: rf"self {re.escape(sign)} (\w+|\( \w+ as \w+ \))" for it, sign in zip("plus minus up down or".split(), "+ - << >> |".split())}
    forms["load"] = r"Simd :: < \w+ , K > :: from_slice \( & (\w+) \[ (\w+) \.\. \2 \+ K \] \)"
    forms["put"] = r"self \. copy_to_slice \( \w+ \) ;"
    forms["splat"] = r"Simd :: < \w+ , K > :: splat \( \w+ \)"
    forms["low"] = r"self & Simd :: < \w+ , K > :: splat \( width_mask \( \w+ \) \)"
    for name, form in forms.items():
        found = [text_of(it) for it in source.functions if (it.file, it.owner, it.name) == ("vector", "Simd", name)]
        if len(found) != 4 or not all(re.fullmatch(f"{{ {form} }}", it) for it in found):
            return f"{name} is not one operation on vectors for each of the four types"
    rows = re.findall(r"impl RowTypes for (\w+) { type Row = (\w+) ; type Wide = (\w+) ; type Widest = (\w+) ;", " ".join(TOKEN.findall(source.types)))
    wanted = [
        ("u8", "u8x16", "u8x64", "u8x64"),
        ("u16", "u16x16", "u16x32", "u16x64"),
        ("u32", "u32x16", "u32x8", "u32x32"),
        ("u64", "u64x16", "u64x4", "u64x16"),
    ]
    return None if rows == wanted else "the rows of sixteen lanes, the wide ones or the widest are other vectors"


def fault_of_row(source, public, step):
    """Why a public row step is not the step on vectors, or None."""
    it = source.one("lane_rows", public)
    if fault := fault_of_reached(source, it, ROW_CALLS):
        return fault
    return None if source.called(it).count(step) == 1 else f"{public} is not one {step}"


def fault_of_walk(source, file, owner, method, step):
    """Why a walk of a group is not one row step a row, or None."""
    walk, rows, octet = source.one("group_walk", "walk_group"), source.one("steps", "walk_rows"), source.one("steps", "walk_octet")
    if source.called(walk) != ["walk_rows"] or "GroupRows <" not in text_of(walk) or source.called(rows) != 8 * ["walk_octet"]:
        return "walk_group is not the walk of all octets"
    if source.called(octet) != 8 * ["step"] or source.called(source.one("group_walk", "step", "GroupRows")) != ["known", "read", "write"]:
        return "walk_octet is not eight rows of one read and one write"
    called = source.called(source.one(file, method, owner))
    if step == "pack_step" and called == ["pack_group_row"]:
        called = source.called(source.one("rows", "pack_group_row"))
    return None if called == [step] else f"{method} of {owner} is not one {step}"


def fault_of_group(source, public, group, owner, method, step):
    """Why a group call does not go through its rows by one row step each, or None."""
    it = source.one("lane_rows", public)
    if source.called(it).count(group) != 1 or source.called(source.one("sixteen_lanes", group)).count("walk_group") != 1:
        return f"{public} is not one walk of a group"
    return fault_of_walk(source, "sixteen_lanes", owner, method, step) or fault_of_reached(source, it, ROW_CALLS)


def fault_of_block(source, room, public, row, at_width, verb, owner, method, step):
    """Why a block call is not one loop over groups of a row's lanes, at the full width of the widest row's, with one walk of a group
    a turn, or None."""
    it = source.one(room, public)
    rows = f":: at_width :: < Apart < {at_width} < E :: {row} , E :: Widest >> ,"
    if source.called(it) != ["at_width"] or loops_in(it) or rows not in text_of(it):
        return f"{public} is not one {at_width} by rows that are a {row}"
    if source.called(source.one("width", "at", "Apart")) != ["at", "at_apart"] or source.called(source.one("width", "at_apart")) != ["at"]:
        return "a call at a width, as a function of its own or not, is not that call"
    # V are these rows, and X the widest.
    if f"for {at_width} < V , X > {{" not in " ".join(TOKEN.findall(source.blocks)):
        return f"{at_width} does not tell its rows from the widest"
    whole, by_row = f"{verb}_whole", f"{verb}_by"
    for of, name, called in (
        (at_width, "at", [f"{whole} < E , X >", f"{by_row} < E , V , N >"]),
        ("", whole, [f"{by_row} < E , X , Full < E >"]),
    ):
        it = source.one("bitpacking", name, of)
        if [" ".join(found) for found in re.findall(r"(\w+) :: (<[^>]*>)", text_of(it))] != called:
            return f"{name} of {at_width} is not {called}"
    at = source.one("bitpacking", "at", at_width)
    for it in source.reached(at, ROW_CALLS)[0]:
        vectors = re.findall(r":: (Row|Wide|Widest)\b|\b(u\d+x\d+)\b", text_of(it)) if it.file != "sixteen_lanes" else []
        if vectors:
            return f"{it.name} goes by {vectors}"
    walk = source.one("block_walk", "walk_block")
    if loops_in(walk) != ["for"] or "in 0 .. E :: LANES / V :: N {" not in text_of(walk) or source.called(walk).count("walk_group") != 1:
        return "walk_block is not one loop over groups, with one walk of a group a turn"
    if walk not in source.reached(at, ROW_CALLS)[0]:
        return f"{by_row} is not the walk of a block"
    return fault_of_walk(source, "block_walk", owner, method, step) or fault_of_reached(source, at, ROW_CALLS, "walk_block")


def fault_of_constant(source, public, at_width):
    """Why a call at a constant width is not what the call at a width of the run does at that width, or None."""
    if source.called(source.one("bitpacking", public)) != [f"{public}_at"]:
        return f"{public} is not {public}_at"
    it = source.one("bitpacking", f"{public}_at")
    rows = f"Apart :: < {at_width} < E :: Row , E :: Widest >> :: at :: < N > ("
    is_same = source.called(it) == ["at"] and not loops_in(it) and rows in text_of(it)
    return None if is_same else f"{public}_at is not one {at_width} by rows of sixteen lanes"


def fault_of_bits(source, file, public):
    """Why a bit transpose does not compute on vectors alone, or None. Words may be taken apart and listed where nothing is
    computed."""
    reached, other = source.reached(source.one(file, public), BIT_CALLS)
    computes = False
    for it in reached:
        taken, listed = elements_in(it)
        for found in loops_in(it) + taken:
            return f"{it.name} has {found!r}"
        if re.search(r"[\w)\]] (?:[-+*/%^&|]=?|<<|>>) ", text_of(it)):
            result = it.tokens[end_of(it.tokens, it.head) + 1]
            if listed or "_array" in text_of(it) or not re.fullmatch(r"u\d+x\d+", result):
                return f"{it.name} computes on words"
            computes = True
    return other or (None if computes else f"nothing that {public} calls computes")


def fault_of_single(source, public):
    """Why a single value is not read through a probe alone, or None."""
    it = source.one("bitpacking", public)
    text = " ".join(text_of(at) for at in source.reached(it, PROBE_CALLS)[0])
    if fault := fault_of_reached(source, it, PROBE_CALLS, table="ROWS"):
        return fault
    return None if "WordProbe :: new (" in text and ". word (" in text else f"{public} reads through no probe"


CHECKS = {
    "a row is a vector": (fault_of_vectors,),
    "join_row computes on vectors": (fault_of_row, "join_row", "joined"),
    "unpack_row_from computes on vectors": (fault_of_row, "unpack_row_from", "unpack_step"),
    "pack_row_into computes on vectors": (fault_of_row, "pack_row_into", "pack_step"),
    "unpack_group_from is a row step a row": (fault_of_group, "unpack_group_from", "unpack_group", "RowWords", "read", "unpack_step"),
    "pack_group_into is a row step a row": (fault_of_group, "pack_group_into", "pack_group", "RowSink", "write", "pack_step"),
}
for room, row, unpacks, packs in (
    ("lane_rows", "Row", "unpack_rows", "pack_rows"),
    ("bitpacking", "Row", "unchecked_unpack", "unchecked_pack"),
    ("wide_rows", "Wide", "unpack_wide", "pack_wide"),
):
    CHECKS[f"{unpacks} is a group call a group"] = (fault_of_block, room, unpacks, row, "Unpacking", "unpack", "SliceWords", "read", "unpack_step")
    CHECKS[f"{packs} is a group call a group"] = (fault_of_block, room, packs, row, "Packing", "pack", "SliceSink", "write", "pack_step")
CHECKS["unpack does at a constant width the same"] = (fault_of_constant, "unpack", "Unpacking")
CHECKS["pack does at a constant width the same"] = (fault_of_constant, "pack", "Packing")
for file, names in {
    "lanes": ["transpose_8x8_lanes", "transpose_bits_lanes", "untranspose_bits_lanes"],
    "bit_transpose": ["transpose_bits", "untranspose_bits"],
}.items():
    CHECKS |= {f"{name} computes on vectors": (fault_of_bits, file, name) for name in names}
CHECKS |= {f"{name} reads through a probe": (fault_of_single, name) for name in ("unchecked_unpack_single", "unpack_single")}

# Source that has to be refused: which check refuses it, what it is, the file, a function, what its body is then, and what stands at
# the end of the file.
WORD = "lo[j].word_shr(shift as u32).word_or(hi[j].word_shl((E::T - shift) as u32)).word_low(width as u32)"
JOINS = "joined::<E, E::Row>(width, shift, row_of_array(lo), row_of_array(hi))"
BY_WORDS = "fn by_words<E: FastLanes>(width: usize, shift: usize, lo: &[E; 16], hi: &[E; 16]) -> [E; 16]"
REFUSED = [
    (
        "a row is a vector",
        "a row that is written lane by lane",
        *("vector", "Simd::put"),
        "for j in 0..K { words[j] = self[j]; }",
        "",
    ),
    (
        "join_row computes on vectors",
        "a joined row that is a loop over lanes",
        *("lane_rows", "join_row"),
        f"let mut row = array_of_row({JOINS}); for j in 0..16usize {{ row[j] = {WORD}; }} row",
        "",
    ),
    (
        "join_row computes on vectors",
        "a joined row beside one that is made lane by lane and given out",
        *("lane_rows", "join_row"),
        f"let _row = {JOINS}; by_words(width, shift, lo, hi)",
        f"{BY_WORDS} {{ std::array::from_fn(|j| {WORD}) }}",
    ),
    (
        "join_row computes on vectors",
        "the same with sixteen lanes written out",
        *("lane_rows", "join_row"),
        f"let _row = {JOINS}; by_words(width, shift, lo, hi)",
        f"{BY_WORDS} {{ [{', '.join(WORD.replace('[j]', f'[{j}]') for j in range(16))}] }}",
    ),
    (
        "unpack_row_from computes on vectors",
        "a row step that is a loop over lanes",
        *("rows", "unpack_step"),
        "let first = words.take_row(); let mut digits = array_of_row(first);"
        "for j in 0..V::N { digits[j] = digits[j].low(width as u32); } (V::load(&digits, 0), carry)",
        "",
    ),
    (
        "pack_row_into computes on vectors",
        "a packing row step that is a loop over lanes",
        *("rows", "pack_step"),
        "let mut words = array_of_row(carry); let digits = array_of_row(values);"
        "for j in 0..V::N { words[j] = words[j].or(digits[j]); } sink.put_row(V::load(&words, 0)); carry",
        "",
    ),
    (
        "unpack_group_from is a row step a row",
        "a group call without the row steps",
        *("sixteen_lanes", "RowWords::read"),
        "(row_of_array(&self.next_row()), carry)",
        "",
    ),
    (
        "pack_rows is a group call a group",
        "blocks that are packed lane by lane",
        *("block_walk", "walk_block"),
        "for lane in 0..E::LANES { for row in 0..E::T { let (values, read) = reader.read(bits, lane, row, carry.0); writer.write(bits, lane, row, values, carry.1); } }",
        "",
    ),
    (
        "pack does at a constant width the same",
        "a block that is packed lane by lane at a constant width",
        *("bitpacking", "pack_at"),
        "for lane in 0..E::LANES { pack_lane::<E, _>(N::W, output, lane, &mut |place: usize| input[place]); }",
        "",
    ),
    (
        "transpose_8x8_lanes computes on vectors",
        "a swap that is a loop over eight words",
        *("lanes", "swap_lanes"),
        "let mut words = x.to_array(); for j in 0..8usize { words[j] = swap(words[j], distance, mask); } u64x8::from_array(words)",
        "",
    ),
    (
        "transpose_8x8_lanes computes on vectors",
        "one word after another",
        *("lanes", "transpose_8x8_lanes"),
        "let [a, b, c, d, e, f, g, h] = *x; [" + ", ".join(f"transpose_8x8({it})" for it in "abcdefgh") + "]",
        "",
    ),
    (
        "transpose_bits computes on vectors",
        "bits that are transposed by plain words",
        *("bit_transpose", "transpose_bits"),
        "scalar::transpose_bits::<E>(input, output);",
        "",
    ),
    (
        "untranspose_bits computes on vectors",
        "bits that are transposed back by plain words under another name",
        *("bit_transpose", "untranspose_bits"),
        "plain::<E>(input, output);",
        "use scalar::untranspose_bits as plain;",
    ),
    (
        "transpose_bits_lanes computes on vectors",
        "vectors' bits that are transposed by plain words",
        *("lanes", "transpose_bits_lanes"),
        "crate::bit_transpose::scalar::transpose_bits::<E>(input, output);",
        "",
    ),
    (
        "unchecked_unpack_single reads through a probe",
        "a single value that is read from the slice",
        *("bitpacking", "unchecked_unpack_single"),
        "unpack_place(width, input, index)",
        "",
    ),
    (
        "unpack_single reads through a probe",
        "a single value of a constant width that is read from the slice",
        *("bitpacking", "unpack_single"),
        "unpack_place(W, packed, index)",
        "",
    ),
    (
        "unpack_single reads through a probe",
        "a probe that is made, beside a read from the slice",
        *("single", "probe_place"),
        "let mut probe = WordProbe::new(packed, width, index % E::LANES); let _digit = probe_digit(width, &mut probe, 0);"
        "unpack_place(width, packed, index)",
        "",
    ),
]


def tried(check, files):
    try:
        return check[0](Source(files), *check[1:])
    except LookupError as error:
        return str(error)


def with_body(file, function, body, added):
    """All files, one of them with another body of a function, and with more at its end."""
    owner, name = function.split("::") if "::" in function else ("", function)
    it = next(it for it in functions_of(file, FILES[file]) if it.name == name and owner in ("", it.owner))
    return FILES | {file: " ".join([*it.tokens[: it.body], "{", body, "}", *it.tokens[it.end :], added])}


def with_other_names(files):
    return {file: renamed(file, text) for file, text in files.items()}


for name, check in CHECKS.items():
    why = tried(check, FILES)
    print(f"{name}: {why}" if why else f"ok {name}")
    if why := tried(check, with_other_names(FILES)):
        print(f"{name}, with other names: {why}")
for name, what, *change in REFUSED:
    copy = with_body(*change)
    why = tried(CHECKS[name], copy)
    print(f"ok refused, since {why}: {what}" if why else f"not refused: {what}")
    if not tried(CHECKS[name], with_other_names(copy)):
        print(f"not refused with other names: {what}")
for what, patterns in {"a pattern without a match": ["fastlanes_none/src/*.rt"], "two files of one name": PATTERNS[:1] * 2}.items():
    try:
        files_of(patterns)
        print(f"not refused: {what}")
    except LookupError as error:
        print(f"ok refused, since {error}: {what}")
changed = sum(with_other_names(FILES)[file].count("other_") for file in FILES)
print(f"ok with other names for {changed} parameters and variables" if changed > 1000 else "too few names were changed")
PYTHON
