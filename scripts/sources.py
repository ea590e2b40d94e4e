"""Reads the sources of the crates: which crates there are, what each exports, and the signatures of its public calls.

A name is looked up as a caller writes it (`engine::Engine::step`): through `pub use`, also of another crate and under
another name, down to the crate that has it. Signatures are given in their essential form (`Reader.form`).
"""
from __future__ import annotations

import re
from dataclasses import dataclass, field
from functools import lru_cache
from pathlib import Path

TOP = Path(__file__).resolve().parent.parent
# What ends a signature: its body, or the first clause of its contract.
SIGNATURE_ENDS = re.compile(r"\{|;|\b(?:ensures|requires|decreases|where)\b")
WORD = re.compile(r"[A-Za-z_][A-Za-z_0-9]*")
HEAD = re.compile(r"^(?:pub )?(?:unsafe )?(impl|trait)\b(.*?)\{", re.M | re.S)
CALL = re.compile(r"^( *)(pub )?(?:pub\([a-z]+\) )?(?:const )?(?:unsafe )?fn (\w+)", re.M)
CLAUSE = re.compile(r"^\s*ensures\s+(\w+)?\s*\{", re.M)
TYPE = re.compile(r"^pub (struct|enum|trait|type) (\w+)", re.M)
USE = re.compile(r"^(pub )?use ([^;]+);", re.M)
MODULE = re.compile(r"^(pub )?mod (\w+);", re.M)


@dataclass(frozen=True)
class Call:
    """A public call: the type or trait that has it, its name, what it takes and answers, its first sentence, and the
    names of what it ensures (`result` for a clause without a name)."""

    owner: str | None
    name: str
    takes: tuple[str, ...]
    answer: str
    says: str
    clauses: tuple[str, ...]


@dataclass(frozen=True)
class Type:
    """A public type or trait: what kind of it, its name, its public fields or its variants, and its first sentence."""

    kind: str
    name: str
    members: tuple[str, ...]
    says: str


@dataclass(frozen=True)
class Source:
    """What a file declares: its calls and types, which traits it implements, and the names that it brings in."""

    calls: tuple[Call, ...]
    types: tuple[Type, ...]
    implemented: frozenset[tuple[str, str]]
    imports: dict[str, str] = field(default_factory=dict)
    exports: dict[str, str] = field(default_factory=dict)
    modules: dict[str, bool] = field(default_factory=dict)


@dataclass(frozen=True)
class Place:
    """Where an exported name is declared: the crate, the module (`None` for the crate's root) and the name there."""

    crate: str
    module: str | None
    name: str


@lru_cache(maxsize=None)
def crates() -> dict[str, list[str]]:
    """The crates of crates.txt, lowest first, each with what it stands on."""
    lines = (TOP / "crates.txt").read_text(encoding="utf-8").split("\n")
    rows = [line.strip().partition(":") for line in lines if re.match("[a-z]", line)]
    return {name.split()[0]: below.split() for name, _, below in rows}


def closing(text: str, start: int, opening: str = "(", closing_mark: str = ")") -> int:
    """The position behind the mark that closes the one at `start`; an arrow's `>` closes nothing."""
    depth = 0
    for at in range(start, len(text)):
        if text[at] == opening:
            depth += 1
        elif text[at] == closing_mark and not (closing_mark == ">" and text[at - 1] in "-="):
            depth -= 1
            if depth == 0:
                return at + 1
    raise ValueError(f"nothing closes {text[start:start + 60]!r}")


def parts(text: str) -> list[str]:
    """What stands between the commas that are in no brackets."""
    found, depth, last = [], 0, 0
    for at, mark in enumerate(text):
        if mark in "([{<":
            depth += 1
        elif mark in ")]}" or mark == ">" and text[at - 1] not in "-=":
            depth -= 1
        elif mark == "," and depth == 0:
            found.append(text[last:at])
            last = at + 1
    return [it for it in (part.strip() for part in [*found, text[last:]]) if it]


def without_lifetimes(text: str) -> str:
    """A type without its lifetimes and needless blanks."""
    text = re.sub(r"<'\w+>", "", text)
    text = re.sub(r"'\w+,? ?", "", text)
    return re.sub(r",? *([)>\]])", r"\1", " ".join(text.split())).replace("( ", "(").replace("< ", "<")


def parameter(text: str) -> str:
    """The type of a parameter; a receiver stays as it is."""
    text = without_lifetimes(text)
    if re.fullmatch(r"(?:&(?:mut )?|mut )?self", text):
        return text.removeprefix("mut ")
    return text.partition(":")[2].strip()


def imported(path: str) -> dict[str, str]:
    """The names that a `use` brings in, each with its path; a name that it gives itself is the one behind `as`."""
    path = " ".join(path.split())
    base, brace, inner = path.partition("{")
    found: dict[str, str] = {}
    if brace:
        for part in parts(inner.rstrip("} ")):
            found |= imported(base + part)
        return found
    whole, _, other = path.partition(" as ")
    name = whole.removesuffix("::self").rpartition("::")[2]
    return {other or name: whole.removesuffix("::self")}


def sentence_above(text: str, at: int) -> str:
    """The first sentence of the documentation above a declaration."""
    lines: list[str] = []
    for line in reversed(text[:at].rstrip("\n").split("\n")):
        stripped = line.strip()
        if stripped.startswith("///"):
            lines.insert(0, stripped[3:].strip())
        elif not stripped.startswith(("#[", ")]", "//")):
            break
    paragraph = " ".join(lines).split("  ")[0].strip()
    return re.split(r"(?<=[^.\s]\.)\s", paragraph)[0].removesuffix(".")


def signature(text: str, at: int) -> tuple[tuple[str, ...], str]:
    """What a call takes and what it answers, read from behind its name."""
    if text[at] == "<":
        at = closing(text, at, "<", ">")
    end = closing(text, at)
    takes = tuple(parameter(it) for it in parts(text[at + 1 : end - 1]))
    rest = text[end:]
    stop = SIGNATURE_ENDS.search(rest)
    answer = rest[: stop.start() if stop else len(rest)].partition("->")[2]
    return takes, without_lifetimes(answer) or "()"


def members_of(kind: str, text: str, at: int) -> tuple[str, ...]:
    """The public fields of a struct with their types, the variants of an enum, or what a `type` stands for."""
    stop = re.compile(r"[{;(=]").search(text, at)
    if not stop or stop.group() == ";":
        return ()
    if stop.group() == "=":
        return (without_lifetimes(text[stop.end() : text.index(";", stop.end())]).strip(),)
    pair = {"{": "}", "(": ")"}[stop.group()]
    body = text[stop.end() : closing(text, stop.start(), stop.group(), pair) - 1]
    found = [re.sub(r"#\[[^\]]*\]", "", it).strip() for it in parts(body)]
    if kind == "enum":
        return tuple(without_lifetimes(it) for it in found)
    return tuple(without_lifetimes(it.removeprefix("pub ")) for it in found if re.match(r"pub (?!ghost\b)", it))


def blocks(text: str) -> list[tuple[int, int, str, str | None]]:
    """The `impl` and `trait` blocks: begin, end, the type or trait, and for an `impl` of a trait that trait."""
    found = []
    for head in HEAD.finditer(text):
        rest = re.sub(r"<[^<>]*(?:<[^<>]*(?:<[^<>]*>[^<>]*)*>[^<>]*)*>", "", head.group(2)).strip()
        rest = re.split(r"\bwhere\b", rest)[0].strip()
        trait, _, of = rest.partition(" for ")
        owner = WORD.search(of or trait)
        end = text.find("\n}", head.end())
        if owner:
            name = WORD.search(trait) if of and head.group(1) == "impl" else None
            found.append((head.start(), end if end >= 0 else len(text), owner.group(), name.group() if name else None))
    return found


def is_public(bare: str, found: re.Match[str], block: tuple[int, int, str, str | None] | None) -> bool:
    """Whether a call is one of its own, of a type or of a public trait; an `impl` of a trait has that trait's calls."""
    if block is None:
        return bool(found.group(2)) and not found.group(1)
    return block[3] is None and (bool(found.group(2)) or bare.startswith("pub trait", block[0]))


def calls_in(text: str, bare: str) -> list[Call]:
    """The public calls of a file: of types, of traits, and those that stand alone."""
    within, calls = blocks(bare), []
    all_calls = list(CALL.finditer(bare))
    for found, behind in zip(all_calls, [*(it.start() for it in all_calls[1:]), len(bare)]):
        block = next((it for it in within if it[0] < found.start() < it[1]), None)
        if is_public(bare, found, block):
            takes, answer = signature(bare, found.end())
            clauses = tuple(it or "result" for it in CLAUSE.findall(bare[found.start():behind]))
            says = sentence_above(text, found.start())
            calls.append(Call(block[2] if block else None, found.group(3), takes, answer, says, clauses))
    return calls


def without_comments(text: str) -> str:
    """The text with blanks for its comments, so that positions stay."""
    return re.sub(r"//[^\n]*", lambda it: " " * len(it.group()), text)


def read(text: str) -> Source:
    """What the text of a file declares."""
    bare = without_comments(text)
    types = [Type(it.group(1), it.group(2), members_of(it.group(1), bare, it.end()), sentence_above(text, it.start()))
             for it in TYPE.finditer(bare)]
    imports: dict[str, str] = {}
    exports: dict[str, str] = {}
    for public, path in USE.findall(bare):
        imports |= imported(path)
        if public:
            exports |= imported(path)
    implemented = frozenset((trait, owner) for _, _, owner, trait in blocks(bare) if trait)
    modules = {name: bool(public) for public, name in MODULE.findall(bare)}
    return Source(tuple(calls_in(text, bare)), tuple(types), implemented, imports, exports, modules)


class Reader:
    """The sources of all crates below a folder, each file read once."""

    def __init__(self, top: Path = TOP) -> None:
        self.top = top
        self.known: dict[str, dict[str | None, Source]] = {}

    def sources(self, crate: str) -> dict[str | None, Source]:
        """The files of a crate by their modules, `None` for its root."""
        if crate not in self.known:
            found: dict[str | None, Source] = {}
            for path in sorted((self.top / "crates" / crate / "src").glob("*.rt")):
                name = None if path.stem in ("lib", "main") else path.stem
                found[name] = read(path.read_text(encoding="utf-8"))
            self.known[crate] = found
        return self.known[crate]

    def is_crate(self, name: str) -> bool:
        """Whether this is a crate of the repository, and none of the library's."""
        return (self.top / "crates" / name / "src").is_dir()

    def place(self, crate: str, name: str) -> Place | None:
        """Where what a crate exports under this name is declared."""
        sources = self.sources(crate)
        root = sources.get(None)
        if root is None:
            return None
        if self.declares(root, name):
            return Place(crate, None, name)
        path = root.exports.get(name)
        return None if path is None else self.followed(crate, path, root)

    def followed(self, crate: str, path: str, root: Source) -> Place | None:
        """Where the path of a `pub use` leads."""
        words = path.removeprefix("crate::").removeprefix("self::").split("::")
        if words[0] in root.modules and len(words) == 2:
            module = self.sources(crate).get(words[0])
            if module is None:
                return None
            if self.declares(module, words[1]):
                return Place(crate, words[0], words[1])
            behind = module.exports.get(words[1])
            return None if behind is None else self.followed(crate, behind, root)
        if len(words) == 2 and self.is_crate(words[0]):
            return self.place(words[0], words[1])
        return Place("std", None, words[-1])

    @staticmethod
    def declares(source: Source, name: str) -> bool:
        """Whether a file declares this type, trait or call of no type."""
        names = [it.name for it in source.types] + [it.name for it in source.calls if it.owner is None]
        return name in names

    def type_of(self, crate: str, name: str) -> Type | None:
        """The type or trait that a crate exports under this name; one of the standard library has no members here."""
        place = self.place(crate, name)
        if place is None:
            return None
        if place.crate == "std":
            return Type("type", place.name, (), "")
        return next((it for it in self.sources(place.crate)[place.module].types if it.name == place.name), None)

    def calls(self, crate: str, path: str) -> list[tuple[Call, Place, Source]]:
        """The calls that a crate exports under `NAME` or `TYPE::NAME`, each with its place and its file."""
        owner, _, name = path.rpartition("::")
        place = self.place(crate, owner or name)
        if place is None or place.crate == "std":
            return []
        if not owner:
            source = self.sources(place.crate)[place.module]
            return [(it, place, source) for it in source.calls if it.owner is None and it.name == place.name]
        return [
            (it, Place(place.crate, module, place.name), source)
            for module, source in self.sources(place.crate).items() for it in source.calls
            if it.owner == place.name and it.name == name
        ]

    def implements(self, crate: str, name: str, trait: str) -> bool:
        """Whether an exported type implements a trait, in the crate that has the type."""
        place, bound = self.place(crate, name), self.place(crate, trait)
        if place is None or place.crate == "std":
            return False
        wanted = (bound.name if bound else trait, place.name)
        return any(wanted in it.implemented for it in self.sources(place.crate).values())

    def meant(self, crate: str, source: Source | None, word: str) -> str:
        """What a word of a signature names in the end: its name where it is declared, or what it stands for there."""
        name = word
        if source is not None and word in source.imports:
            path = source.imports[word].split("::")
            name = path[-1]
            if len(path) == 2 and self.is_crate(path[0]):
                crate, source = path[0], None
        place = self.place(crate, name)
        if place is None:
            return name
        named = self.type_of(crate, name)
        if named is not None and named.kind == "type" and len(named.members) == 1 and WORD.fullmatch(named.members[0]):
            return self.meant(place.crate, self.sources(place.crate)[place.module], named.members[0])
        return place.name

    def form(self, crate: str, source: Source | None, owner: str | None, takes: tuple[str, ...], answer: str) -> str:
        """A signature as it is compared: types alone, each by the name that it has where it is declared.

        `Global` in front isn't written: what makes an allocating value takes it.
        """
        receiver = takes[:1] if takes[:1] and takes[0].endswith("self") else ()
        rest = [it for it in takes[len(receiver):] if it != "Global"]
        text = f"({', '.join([*receiver, *rest])}) -> {answer}"
        if owner:
            text = re.sub(r"\bSelf\b", owner, text)
        text = re.sub(r"\b(?:\w+::)+(?=\w)", "", text)
        return WORD.sub(lambda it: self.meant(crate, source, it.group()), text)


def written(call: Call) -> str:
    """A call's signature for readers."""
    answer = "" if call.answer == "()" else f" -> {call.answer}"
    title = f"{call.owner}::{call.name}" if call.owner else call.name
    return f"{title}({', '.join(call.takes)}){answer}"
