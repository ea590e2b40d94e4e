"""The surface: each public call with its signature, each wrong body that the prover has to reject, and where each
worked row stands, found in the repository by the lists of docs/surface, and put on docs/lists/SURFACE.md.

The lists say what there has to be; nothing in them is read from the crates. calls.txt has calls and types, edits.txt
wrong bodies, rows.txt worked rows. In each a line `== NAME` begins a group, a line at the margin an entry; indented
lines belong to the entry above, and `#` begins a comment.
"""
from __future__ import annotations

import re
from dataclasses import dataclass
from functools import lru_cache
from pathlib import Path

from sources import TOP, Reader, parts, without_lifetimes, written

PAGE = Path("docs/lists/SURFACE.md")
LISTS = Path("docs/surface")
# `CRATE::PATH(TYPES) -> TYPE`, `CRATE::TYPE: TRAIT`, `CRATE::TYPE { MEMBERS }` or `CRATE::TYPE`.
CALL = re.compile(r"(\w+)::([\w:]+)\((.*)\)(?: -> (.+))?")
IMPLEMENTS = re.compile(r"(\w+)::(\w+): (\w+)")
TYPE = re.compile(r"(\w+)::(\w+)(?: \{ (.+) \})?")
# The kinds of places, each with the folder that its files stand in.
FOLDERS = {"row": "tests/rows/", "test": "crates/", "law": "crates/", "text": ""}
ROW = re.compile(r"^(?:row|again|anew) (.+)\n((?:(?!row |again |anew ).*\n?)*)", re.M)


@dataclass(frozen=True)
class Entry:
    """An entry of a list: its group, its line, and the lines below it, as they are indented."""

    group: str
    head: str
    below: tuple[str, ...]


@dataclass(frozen=True)
class Found:
    """What was found of an entry: a row of the page, or what is missing."""

    row: str
    faults: tuple[str, ...]


@dataclass(frozen=True)
class Tree:
    """The repository below a folder."""

    top: Path
    reader: Reader

    def text(self, path: str | Path) -> str | None:
        """The text of a file, or nothing where there is none."""
        whole = self.top / path
        return whole.read_text(encoding="utf-8") if whole.is_file() else None


def entries(text: str) -> list[Entry]:
    """The entries of a list."""
    found: list[Entry] = []
    group = ""
    for line in text.split("\n"):
        if line.startswith("== "):
            group = line[3:].strip()
        elif line.startswith(" ") and line.strip() and found:
            last = found.pop()
            found.append(Entry(last.group, last.head, (*last.below, line)))
        elif line.strip() and not line.startswith("#"):
            found.append(Entry(group, line.strip(), ()))
    return found


def cell(text: str) -> str:
    """The text of a table's cell."""
    return text.replace("|", "\\|")


# ---- calls and types

def said(entry: Entry, says: str) -> str:
    """What a list says of a call, or else the first sentence of its documentation."""
    return cell(" ".join(line.strip() for line in entry.below) or says)


def call_found(tree: Tree, entry: Entry, crate: str, path: str, takes: str, answer: str) -> Found:
    """A call: that the crate exports it, with this signature."""
    given = tree.reader.calls(crate, path)
    if not given:
        return Found("", (f"{crate} has no public call {path}",))
    owner = path.rpartition("::")[0] or None
    wanted = tree.reader.form(crate, None, owner, tuple(parts(without_lifetimes(takes))), answer or "()")
    for call, place, source in given:
        if tree.reader.form(place.crate, source, call.owner, call.takes, call.answer) == wanted:
            return Found(f"| `{crate}` | `{cell(written(call))}` | {said(entry, call.says)} |", ())
    other = "; ".join(written(call) for call, _, _ in given)
    return Found("", (f"{crate}::{path} has another signature than {entry.head.partition('::')[2]}: {other}",))


def type_found(tree: Tree, entry: Entry, crate: str, name: str, members: str) -> Found:
    """A type: that the crate exports it, with these fields or variants among its own."""
    given = tree.reader.type_of(crate, name)
    if given is None:
        return Found("", (f"{crate} has no public type {name}",))
    there = [" ".join(it.split()) for it in given.members]
    lost = [it for it in parts(members) if it not in there]
    if lost:
        return Found("", (f"{crate}::{name} has no {', '.join(lost)}, but {', '.join(there) or 'nothing public'}",))
    shown = f" {{ {', '.join(there)} }}" if members else ""
    return Found(f"| `{crate}` | `{cell(name + shown)}` | {said(entry, given.says)} |", ())


def surface_found(tree: Tree, entry: Entry) -> Found:
    """An entry of calls.txt."""
    call = CALL.fullmatch(entry.head)
    if call:
        return call_found(tree, entry, call[1], call[2], call[3], call[4])
    bound = IMPLEMENTS.fullmatch(entry.head)
    if bound:
        row = f"| `{bound[1]}` | `{bound[2]}: {bound[3]}` | {said(entry, f'A `{bound[3]}`')} |"
        there = tree.reader.implements(bound[1], bound[2], bound[3])
        return Found(row, () if there else (f"{bound[1]}::{bound[2]} is no {bound[3]}",))
    kind = TYPE.fullmatch(entry.head)
    if kind:
        return type_found(tree, entry, kind[1], kind[2], kind[3] or "")
    return Found("", (f"calls.txt can't be read: {entry.head}",))


# ---- wrong bodies

def edit_lacks(tree: Tree, edit: str) -> str | None:
    """What is missing of the edit `CRATE/NAME`: its file, or a change in that."""
    crate, _, name = edit.partition("/")
    path = f"crates/{crate}/must-fail/{name}.edit"
    text = tree.text(path)
    if text is None:
        return f"no {path}"
    changes = all(re.search(rf"^{it}: *\S", text, re.M) for it in ("file", "old", "new"))
    return None if changes else f"{path} changes nothing"


def edit_found(tree: Tree, entry: Entry) -> Found:
    """A wrong body `NAME: WORDS`, below which its edits stand as `CRATE/NAME`, or the places of rows that tell it."""
    name, _, words = entry.head.partition(": ")
    edits = [line.strip() for line in entry.below]
    missing = [lacks(tree, it, []) if " " in it else edit_lacks(tree, it) for it in edits]
    faults = [f"{name}: {it}" for it in missing if it] + ([] if edits else [f"{name} has no edit"])
    where = ", ".join(cell(shown(it)) if " " in it else f"`{it}`" for it in edits)
    return Found(f"| {name} | {cell(words)} | {where} |", tuple(faults))


def unlisted(tree: Tree, listed: list[Entry]) -> list[str]:
    """The edits of the crates that no entry has."""
    known = {line.strip() for entry in listed for line in entry.below}
    paths = sorted((tree.top / "crates").glob("*/must-fail/*.edit"))
    names = [f"{it.parent.parent.name}/{it.stem}" for it in paths]
    return [f"edits.txt lacks {it}" for it in names if it not in known]


# ---- worked rows

def rows_of(text: str) -> dict[str, list[str]]:
    """The rows of a file of rows by their names; some names stand twice."""
    found: dict[str, list[str]] = {}
    for name, body in ROW.findall(text):
        found.setdefault(name.strip(), []).append(body)
    return found


def bodies_of(text: str, kind: str, name: str) -> list[str]:
    """What a place names in the text of its file: the rows of that name, or the whole text where it has the name."""
    if kind == "row":
        return rows_of(text).get(name, [])
    mark = {"test": r"^#\[test\]\s+fn ", "law": r"^pub fn "}.get(kind)
    there = re.search(rf"{mark}{re.escape(name)}\b", text, re.M) if mark else name in text
    return [text] if there else []


def holds(kind: str, body: str, line: str) -> bool:
    """Whether a row has this line, or another file this text."""
    return f"\n{line}\n" in f"\n{body}\n" if kind == "row" else line in body


def lacks(tree: Tree, place: str, held: list[str]) -> str | None:
    """What is missing of a place: it, or one of the lines that it has to hold."""
    kind, _, rest = place.partition(" ")
    where, _, name = rest.partition(": ")
    folder = FOLDERS.get(kind)
    if folder is None or not name:
        return f"rows.txt can't be read: {place}"
    path = folder + where
    text = tree.text(path)
    bodies = bodies_of(text, kind, name) if text is not None else []
    if not bodies:
        return f"{path} has no {name}" if text is not None else f"no {path}"
    lost = [line for line in held if not any(holds(kind, body, line) for body in bodies)]
    return f"{path}, {name}: no {'; '.join(lost)}" if lost else None


def all_of(place: str) -> list[str]:
    """The places that `FIRST..LAST` in a place stands for, or the place itself."""
    span = re.search(r"(\d+)\.\.(\d+)$", place)
    if not span:
        return [place]
    return [place[: span.start()] + str(it) for it in range(int(span[1]), int(span[2]) + 1)]


def places(entry: Entry) -> list[tuple[str, list[str]]]:
    """The places of an entry, each with the lines that it has to hold, which are indented once more."""
    found: list[tuple[str, list[str]]] = []
    for line in entry.below:
        if line.startswith("   ") and found:
            found[-1][1].append(line.strip())
        else:
            found.append((line.strip(), []))
    return found


def shown(place: str) -> str:
    """A place for readers."""
    kind, _, rest = place.partition(" ")
    where, _, name = rest.partition(": ")
    if kind == "row":
        return f"`{where}`: {name}"
    return f"`{where}`" + (f": `{name}`" if name else "")


def row_found(tree: Tree, entry: Entry) -> Found:
    """A worked row `NAME: WORDS`, below which its places stand."""
    name, _, words = entry.head.partition(": ")
    missing = [lacks(tree, it, held) for place, held in places(entry) for it in all_of(place)]
    faults = [f"{name}: {it}" for it in missing if it] + ([] if entry.below else [f"{name} stands nowhere"])
    where = "; ".join(cell(shown(place)) for place, _ in places(entry))
    return Found(f"| {name} | {cell(words)} | {where} |", tuple(faults))


# ---- the page

INTRODUCTION = (
    "Written by `scripts/surface` from the lists in `docs/surface` and the crates; the gate compares it, and fails "
    "where a call, an edit or a row of the lists is missing. `Global` is where a value lies that a call makes. What "
    "is otherwise than a caller might expect, and why, stands in [EXPECTED.md](EXPECTED.md)."
)
SECTIONS = (
    ("calls.txt", "Calls", "Grouped as a caller meets them. `scripts/contracts CRATE` prints what each promises.",
     ("crate", "call or type", "what it is")),
    ("edits.txt", "Wrong bodies", "Each stands in an edit of `crates/CRATE/must-fail`, which the prover has to reject.",
     ("wrong body", "what it does", "edits")),
    ("rows.txt", "Worked rows",
     "Each was worked out by hand. Files `*.rows` stand in `tests/rows`, paths with `src/` in `crates`.",
     ("row", "what it shows", "where it stands")),
)
READERS = {"calls.txt": surface_found, "edits.txt": edit_found, "rows.txt": row_found}


@lru_cache(maxsize=None)
def read_list(tree: Tree, name: str) -> tuple[Entry, ...]:
    """The entries of this list."""
    return tuple(entries(tree.text(LISTS / name) or ""))


def repeated(name: str, listed: tuple[Entry, ...]) -> list[str]:
    """The entries that stand twice in a list; a call's name is all of its line."""
    heads = [it.head if name == "calls.txt" else it.head.partition(": ")[0] for it in listed]
    return [f"{name} has {it} twice" for it in dict.fromkeys(heads) if heads.count(it) > 1]


def section(tree: Tree, name: str, title: str, words: str, heads: tuple[str, str, str]) -> tuple[list[str], list[str]]:
    """The lines of a section, and what is missing of its list."""
    lines = ["", f"## {title}", "", words]
    faults: list[str] = []
    group = None
    for entry in read_list(tree, name):
        found = READERS[name](tree, entry)
        faults += found.faults
        if entry.group != group:
            group = entry.group
            lines += ["", f"### {group}", "", f"| {' | '.join(heads)} |", "|---|---|---|"]
        if found.row:
            lines.append(found.row)
    return lines, faults


def page(tree: Tree) -> tuple[str, list[str]]:
    """The page, and what of the lists is missing."""
    lines = ["# Surface", "", INTRODUCTION]
    faults: list[str] = []
    for name, title, words, heads in SECTIONS:
        more, lost = section(tree, name, title, words, heads)
        lines += more
        faults += lost + repeated(name, read_list(tree, name)) if read_list(tree, name) else [f"no {LISTS / name}"]
    faults += unlisted(tree, list(read_list(tree, "edits.txt")))
    return "\n".join([*lines, ""]), faults


def main(words: list[str], top: Path = TOP) -> int:
    """Writes the page, or compares it; the status is 1 where something is missing, or the page is stale."""
    tree = Tree(top, Reader(top))
    text, faults = page(tree)
    print(*(f"surface: {it}" for it in faults), sep="\n", end="\n" if faults else "")
    if words != ["--check"]:
        (top / PAGE).parent.mkdir(parents=True, exist_ok=True)
        (top / PAGE).write_text(text, encoding="utf-8")
    elif tree.text(PAGE) != text:
        print(f"{PAGE} is stale: scripts/surface writes it")
        return 1
    return 1 if faults else 0
