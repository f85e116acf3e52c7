"""Reads the texts of crates for the scripts beside it: the items of src/*.rt, and the definitions of specs/*.antt. A text is read token by
token, so that a word in a comment or a string, or another layout, makes no difference."""
import dataclasses
import pathlib
import re

ROOT = pathlib.Path(__file__).resolve().parent.parent

# Of a .rt file: what is passed over, strings and characters, lifetimes, words, and any other sign. A name of a clause may end in ', and a
# character is one sign between two.
TOKEN = re.compile(
    r"""(?P<gap>\s+|//[^\n]*|/\*.*?\*/)
    |(?P<text>b?r(?P<hashes>\#*)".*?"(?P=hashes)|[bc]?"(?:\\.|[^"\\])*"|b?'(?:\\.[^']*|[^\\'\n])')
    |(?P<life>'[^\W\d]\w*)|(?P<word>\w+'*)|(?P<sign>::|->|=>|.)""",
    re.DOTALL | re.VERBOSE,
)
OPENS, CLOSES = "([{", ")]}"
# What stands before the word that says what an item is.
BEFORE = {"const", "unsafe", "async", "extern", "default"}
CLAUSES = {"requires", "ensures", "ghost"}
# Attributes that say how something is proved or compiled, and not what it promises.
SILENT = re.compile(r"#!?\[(tactic|inline|cold|cfg|test|doc|allow|must_use)\b")


@dataclasses.dataclass
class Token:
    text: str
    start: int
    end: int
    # whether something was passed over before it
    is_apart: bool


@dataclasses.dataclass
class Item:
    """An item of a .rt file."""

    kind: str
    name: str
    is_public: bool
    is_test: bool
    attributes: list
    # all of it but its clauses and what stands in its braces; and the clauses
    head: str
    clauses: list
    # what stands in its braces, by fields, variants or items
    fields: list
    items: list
    # all of its text, and where it stands in the file
    text: str
    start: int
    end: int


def tokens(text):
    found, is_apart = [], False
    for it in TOKEN.finditer(text):
        if it.lastgroup == "gap" or it["gap"]:
            is_apart = True
            continue
        found.append(Token(it[0], it.start(), it.end(), is_apart))
        is_apart = False
    return found


def line(given):
    """Returns tokens as one line, whatever lines they stood on. A comma before a closing bracket on another line is left out."""
    said = ""
    for at, it in enumerate(given):
        after = given[at + 1] if at + 1 < len(given) else None
        if it.text == "," and after and after.text in CLOSES and after.is_apart:
            continue
        is_inside = said.endswith(("(", "[")) or it.text in (")", "]")
        said += " " * (bool(said) and it.is_apart and not is_inside) + it.text
    return said


def past(given, at):
    """Returns the place behind the group that opens at this one, or behind the token."""
    depth = 0
    while at < len(given):
        depth += (given[at].text in OPENS) - (given[at].text in CLOSES)
        at += 1
        if depth <= 0:
            break
    return at


def upto(given, at, ends):
    """Returns the first place from this one on, outside of groups, with one of these tokens."""
    while at < len(given) and given[at].text not in ends:
        at = past(given, at)
    return at


def parts(given):
    """Splits tokens at the commas outside of groups."""
    found, at = [], 0
    while at < len(given):
        end = upto(given, at, {","})
        found.append(given[at:end])
        at = end + 1
    return [it for it in found if it]


def attributes_at(given, at):
    """Returns the attributes that begin at this place, and the place behind them."""
    found = []
    while at < len(given) and given[at].text == "#":
        end = past(given, at + 2 if given[at + 1].text == "!" else at + 1)
        found.append(line(given[at:end]))
        at = end
    return found, at


def items_of(given):
    """Returns the items of these tokens."""
    found, at = [], 0
    while at < len(given):
        item, at = item_at(given, at)
        if item:
            found.append(item)
    return found


def item_at(given, start):
    """Returns the item that begins at this place, if one does, and the place behind it."""
    attributes, at = attributes_at(given, start)
    first = at
    if at >= len(given):
        return None, at
    is_public = given[at].text == "pub"
    at += is_public
    if is_public and at < len(given) and given[at].text == "(":
        at, is_public = past(given, at), False
    while given[at].text in BEFORE and at + 1 < len(given) and (given[at].text != "const" or given[at + 1].text in {"fn", *BEFORE}):
        at += 2 if given[at + 1].text.startswith('"') else 1
    kind = given[at].text
    if kind == "ghost":
        end = min(upto(given, at, {";", ","}), len(given) - 1) + 1
        name, clauses, body = given[at + 1].text if at + 1 < len(given) else "", [], (end, end)
        kind = "ghost use" if name == "use" else "ghost"
        head = line(given[first:end]).rstrip(";,")
    else:
        at += 1
        # (up to the braces of its body: those of clauses stand before)
        is_plain = kind in ("use", "const", "static", "type")
        ends = {";"} if is_plain else {";", "{", *CLAUSES}
        stop = upto(given, at, ends)
        head, clauses = line(given[first:stop]), []
        while stop < len(given) and given[stop].text in CLAUSES:
            begun = stop
            stop = past(given, upto(given, stop, {"{"}))
            clauses.append(line(given[begun:stop]))
        has_body = not is_plain and stop < len(given) and given[stop].text == "{"
        end = past(given, stop) if has_body else stop + 1
        body = (stop + 1, end - 1) if has_body else (end, end)
        name = given[at].text if kind not in ("impl", "use") and at < len(given) else head
    inside = given[body[0] : body[1]]
    is_test = any(re.match(r"#\[(test\b|cfg\(test\))", it) for it in attributes)
    made = Item(
        kind, name, is_public, is_test, [it for it in attributes if not SILENT.match(it)], head, clauses,
        [line(it) for it in parts(inside)] if kind in ("struct", "enum", "union") else [],
        items_of(inside) if kind in ("impl", "trait", "mod") else [],
        line(given[start:end]), given[start].start, given[min(end, len(given)) - 1].end,
    )  # fmt: skip
    return made, end


def owner_of(head):
    """Returns whose items an impl has: the name of a type, or that of a trait and of the type that it is for."""
    given = tokens(head)
    at = 1
    if len(given) > 1 and given[1].text == "<":
        depth = 0
        while at < len(given):
            depth += (given[at].text == "<") - (given[at].text == ">")
            at += 1
            if not depth:
                break
    end = upto(given, at, {"where"})
    return line(given[at:end])


def functions(items, owner=""):
    """Returns all functions, those of impls, traits and modules too, each with its name behind its owner's and the item that it stands in."""
    found = []
    for it in items:
        if it.kind == "fn":
            found.append((f"{owner}{it.name}", it))
        elif it.kind in ("impl", "trait", "mod"):
            inside = owner_of(it.head) if it.kind == "impl" else it.name
            found += functions(it.items, f"{owner}{re.sub('<.*?>', '', inside)}::")
    return found


# Of an .antt file: strings, and comments, which are passed over.
REMARK = re.compile(r'("(?:\\.|[^"\\\n])*")|(?:^|(?<=\s))--[^\n]*', re.MULTILINE)
MODIFIERS = {"abbrev", "pub", "unfoldable", "record", "data", "axiom"}


def definitions(text):
    """Returns what an .antt file defines: by name, its lines. They are its statement and each of its cases, or a record's fields. And its imports."""
    bare = REMARK.sub(lambda it: it[1] or "", text)
    found, imports, name = {}, [], None
    for chunk in re.split(r"\n(?=[^\s}])", "\n" + bare):
        rows = [it.rstrip() for it in chunk.split("\n") if it.strip()]
        if not rows:
            continue
        said = rows[0].split()
        if "use" in said[:2] or said[:2] == ["pub", "mod"] or said[0] == "mod":
            imports.append(" ".join(chunk.split()))
            continue
        at = next((at for at, it in enumerate(said) if it not in MODIFIERS), 0)
        # (a case stands below the statement of what it defines)
        if at or said[0] in found or ":" in said[1:2]:
            name = said[at]
        lines = found.setdefault(name or said[0], [])
        if {"record", "data"} & {*said[:at]}:
            least = min([len(it) - len(it.lstrip()) for it in rows[1:]], default=0)
            lines += [" ".join(it.split()) for it in re.split(rf"\n(?= {{{least}}}\S)", "\n".join(rows))] if least else [" ".join(" ".join(rows).split())]
        else:
            lines.append(" ".join(" ".join(rows).split()))
    return found, imports


def words(text):
    """Returns the words of a clause or a definition."""
    return {it for it in re.split(r"[\s(){}\[\];,.:&<>|*=!\"]+", text) if it}


def crate_lines():
    """Returns the lines of crates.txt, lowest first, each as the words before its colon, which are a name and what is allowed, and those behind."""
    rows = [it.partition("#")[0].partition(":") for it in (ROOT / "crates.txt").read_text(encoding="utf-8").splitlines()]
    return [(before.split(), behind.split()) for before, colon, behind in rows if colon]


def crates():
    """Returns the names of the crates of crates.txt, lowest first, and of each the names of all libraries below it."""
    below = {}
    for before, behind in crate_lines():
        # (the lines of these libraries come before)
        below[before[0]] = [*dict.fromkeys(it for name in behind for it in (name, *below.get(name, [])))]
    return below


def test_files(folder):
    """Returns the files of src/ that are read for tests alone: those of modules under cfg(test), and what stands below them."""
    found = set()
    for file in sorted((folder / "src").rglob("*.rt")):
        inside = file.parent if file.stem in ("lib", "main") else file.with_suffix("")
        for it in items_of(tokens(file.read_text(encoding="utf-8"))):
            if it.kind == "mod" and it.is_test and not it.items:
                found |= {inside / f"{it.name}.rt", *(inside / it.name).rglob("*.rt")}
    return found
