"""Reads a file as `nft -f` does: definitions, includes, commands and blocks, done one by one on an empty ruleset."""
from __future__ import annotations

import glob
import os
from typing import TYPE_CHECKING, Mapping, Sequence, TypeVar

import toolbox.commands
from toolbox.lexer import Kind, Source, Token

from .dynamic import BOUNDS
from .expressions import ExpressionReader, as_number
from .grades import Grade
from .scanner import END, Refused, moved, refuse, scan, shown, slice_of
from .tree import Bound, Chain, Head, NamedObject, NotFitted, Rule, Set, Table

if TYPE_CHECKING:
    from .changes import Changes

FAMILIES = ("ip", "ip6", "inet", "arp", "bridge", "netdev")
OBJECTS = ("counter", "quota", "limit", "ct", "flowtable", "secmark", "synproxy")
DEFINITIONS = ("define", "redefine", "undefine", "include")
INCLUDE_DEPTH = 16
ETC = "/etc"  # where nft(8) looks for what is included
Item = TypeVar("Item")
NOTHING_ELSE = "nothing else is loaded"


class Commands:
    """`tables` is what all commands together leave; `order` the base chains as they came to be."""

    def __init__(self, changes: Changes) -> None:
        self.changes = changes
        self.tables: dict[tuple[str, str], Table] = {}
        self.order: list[tuple[Table, Chain]] = []
        self.variables: dict[str, list[Token]] = {}
        self.including: list[str] = []
        self.tokens: list[Token] = []
        self.at = 0
        self.moment = 0  # the number of the command at hand
        self.taken: list[Token] = []

    def read(self, path: str) -> Source:
        source = Source(path, read_text(path))
        outer = self.tokens, self.at
        self.tokens, self.at = scan(source), 0
        self.including.append(os.path.realpath(path))
        while self.at < len(self.tokens):
            if not self.end():
                self.moment += 1
                self.command()
        self.including.pop()
        self.tokens, self.at = outer
        return source

    # tokens

    def peek(self, ahead: int = 0) -> Token:
        index = self.at + ahead
        return self.tokens[index] if index < len(self.tokens) else END

    def has(self, *texts: str) -> bool:
        return self.peek().kind in (Kind.WORD, Kind.MARK) and self.peek().text in texts

    def skip(self, *texts: str) -> bool:
        if self.has(*texts):
            self.at += 1
            return True
        return False

    def take(self, *texts: str) -> Token:
        token = self.peek()
        if token.kind is Kind.END:
            raise self.torn()
        if texts and token.text not in texts:
            raise refuse(token, f"`{spoken(token)}` where `{texts[0]}` is wanted")
        self.at += 1
        return token

    def torn(self) -> Refused:
        return refuse(self.tokens[-1] if self.tokens else END, "the text ends too early")

    def end(self) -> bool:
        if self.peek().kind is Kind.NEWLINE or self.has(";"):
            self.at += 1
            return True
        return False

    def name(self) -> str:
        token = self.take()
        if token.kind is Kind.VARIABLE:
            token = self.expanded([token])[0]
        if token.kind not in (Kind.WORD, Kind.STRING):
            raise refuse(token, f"`{spoken(token)}` is no name")
        return token.text.strip('"')

    def to_end(self) -> list[Token]:
        """The tokens up to the end of a rule or a line, with definitions put in."""
        taken, depth = [], 0
        while self.peek().kind is not Kind.END:
            token = self.peek()
            if depth == 0 and (token.kind is Kind.NEWLINE or token.kind is Kind.MARK and token.text in ";}"):
                break
            if token.kind is Kind.MARK:
                depth += (token.text in "{(") - (token.text in "})")
            taken.append(token)
            self.at += 1
        self.taken = taken
        return self.expanded(taken)

    def expanded(self, tokens: Sequence[Token]) -> list[Token]:
        out = []
        for token in tokens:
            if token.kind is not Kind.VARIABLE:
                out.append(token)
                continue
            if token.text[1:] not in self.variables:
                raise refuse(token, f"{token.text} isn't defined")
            self.changes.tell_once(token, Grade.SAME, token.text, "its value", "a definition")
            out += [moved(it, token) for it in self.variables[token.text[1:]]]
        return out

    # commands

    def command(self) -> None:
        token = self.peek()
        word = token.text if token.kind is Kind.WORD else ""
        if word in DEFINITIONS:
            self.definition()
        elif word in ("flush", "delete", "destroy", "rename"):
            {"flush": self.flush, "rename": self.rename}.get(word, self.delete)()
        elif word in ("add", "create", "insert"):
            self.take()
            self.changes.tell_once(token, Grade.SAME, f"command {word}", "a part of its table", NOTHING_ELSE)
            self.add(word)
        elif word in ("table", "chain", "rule", "set", "map", "element", *OBJECTS):
            self.add("add")
        elif word in ("list", "reset", "monitor", "describe"):
            self.changes.tell(token, Grade.SAME, word, "left out", "it changes nothing that is loaded")
            self.to_end()
        else:
            raise refuse(token, f"the command `{spoken(token)}` isn't understood")

    def definition(self) -> None:
        token = self.take()
        if token.text == "include":
            self.include(token)
            return
        name = self.take().text
        if token.text == "undefine":
            self.variables.pop(name, None)
            return
        self.take("=")
        self.changes.tell_once(token, Grade.SAME, token.text, "left out", "values stand where they are used")
        self.variables[name] = self.to_end()

    def include(self, token: Token) -> None:
        pattern = self.take().text.strip('"')
        paths, is_nfts = included(pattern, token.source.name)
        if not is_nfts and glob.has_magic(pattern):
            paths = [it for it in paths if os.path.realpath(it) not in self.including]
        if not paths and not glob.has_magic(pattern):
            raise refuse(token, f"{pattern} isn't there")
        if len(self.including) > INCLUDE_DEPTH or any(os.path.realpath(it) in self.including for it in paths):
            raise refuse(token, "files that include each other")
        if is_nfts or not paths:
            self.changes.tell(token, Grade.SAME, f"include {pattern}", f"{len(paths)} files", "put in")
        else:
            why = "assumed: nft(8) is told of their folder by -I; it doesn't look beside the file that includes them"
            self.changes.tell(token, Grade.GUESS, f"include {pattern}", ", ".join(paths), why)
        for path in paths:
            self.read(path)

    def family(self) -> str:
        if self.peek().text in FAMILIES and self.peek(1).kind in (Kind.WORD, Kind.STRING, Kind.VARIABLE):
            return self.take().text
        return "ip"

    def table_of(self) -> Table:
        token = self.peek()
        key = self.family(), self.name()
        if key not in self.tables:
            raise refuse(token, f"there is no table {' '.join(key)}")
        return self.tables[key]

    def one_of(self, named: Mapping[str, Item], what: str) -> Item:
        token = self.peek()
        name = self.name()
        if name not in named:
            raise refuse(token, f"there is no {what} {name}")
        return named[name]

    def flush(self) -> None:
        token = self.take()
        what = self.take().text
        if what == "ruleset":
            family = self.take().text if self.peek().text in FAMILIES else None
            self.tables = {key: it for key, it in self.tables.items() if family not in (None, key[0])}
            return
        self.changes.tell_once(token, Grade.SAME, f"flush {what}", "done", NOTHING_ELSE)
        if what == "table" and self.nothing_to_flush():
            return
        table = self.table_of()
        if what == "table":
            for chain in table.chains.values():
                chain.rules.clear()
        elif what == "chain":
            self.one_of(table.chains, "chain").rules.clear()
        elif what in ("set", "map", "meter"):
            found = self.one_of(table.sets, what)
            found.elements, found.slices = [], None
        else:
            raise refuse(token, f"`flush {what}` isn't understood")

    def nothing_to_flush(self) -> bool:
        """`flush table inet t` of a table that isn't there yet: nft(8) refuses it, unless it is loaded already."""
        at = self.at
        key = self.family(), self.name()
        if key in self.tables:
            self.at = at
            return False
        return True

    def delete(self) -> None:
        token = self.take()
        what = self.take().text
        self.changes.tell(token, Grade.SAME, f"{token.text} {what}", "done", NOTHING_ELSE)
        if what == "table":
            if not self.skip("handle"):
                self.tables.pop((self.family(), self.name()), None)
                return
            raise refuse(token, "a handle can't be known")
        table = self.table_of()
        if what == "chain":
            table.chains.pop(self.name(), None)
        elif what in ("set", "map"):
            table.sets.pop(self.name(), None)
        elif what == "element":
            self.delete_elements(self.one_of(table.sets, "set"))
        elif what in OBJECTS:
            self.skip("helper", "timeout", "expectation")
            table.objects.pop(self.name(), None)
        else:
            raise refuse(token, f"`{token.text} {what}` isn't understood")

    def delete_elements(self, found: Set) -> None:
        tokens = self.to_end()
        try:
            gone = {it.key for it in ExpressionReader(tokens).elements().items}
        except NotFitted as fault:
            raise refuse(tokens[0], str(fault)) from None
        found.elements, found.slices = [it for it in found.elements if it.key not in gone], None

    def rename(self) -> None:
        self.take()
        token = self.take("chain")
        table = self.table_of()
        chain = self.one_of(table.chains, "chain")
        name = self.name()
        if name in table.chains:
            raise refuse(token, f"there is a chain {name} already")
        table.chains = {name if it is chain else key: it for key, it in table.chains.items()}
        chain.name = name
        self.changes.tell(token, Grade.SAME, "rename chain", "done", NOTHING_ELSE)

    def add(self, verb: str) -> None:
        token = self.take()
        what = token.text
        if what == "table":
            self.table()
        elif what == "element":
            self.changes.tell_once(token, Grade.SAME, "add element", "an element of its set", NOTHING_ELSE)
            found = self.one_of(self.table_of().sets, "set")
            found.slices = None
            self.add_elements(found, self.to_end())
        elif what == "rule":
            self.add_rule(verb)
        elif what in ("chain", "set", "map", *OBJECTS):
            if what == "ct":
                what += " " + self.take("helper", "timeout", "expectation").text
            self.item(self.table_of(), what, token)
        else:
            raise refuse(token, f"`{verb} {spoken(token)}` isn't understood")

    def add_rule(self, verb: str) -> None:
        chain = self.one_of(self.table_of().chains, "chain")
        where = len(chain.rules) if verb != "insert" else 0
        if self.has("position", "handle"):
            raise refuse(self.peek(), "a handle can't be known")
        if self.skip("index"):
            token = self.take()
            index = int(token.text) if token.text.isdigit() and len(token.text) < 10 else -1
            if not 0 <= index < len(chain.rules):
                raise refuse(token, "there is no rule of that index")
            where = index + (verb != "insert")
        tokens = self.to_end()
        if tokens:
            chain.rules.insert(where, Rule(tokens, shown(self.taken), self.moment))

    def add_elements(self, found: Set, tokens: list[Token]) -> None:
        if not tokens:
            raise refuse(self.peek(), "a list of elements is wanted")
        try:
            elements = ExpressionReader(tokens).elements(found.is_map).items
        except NotFitted as fault:
            found.fault = tokens[0], str(fault)  # nftrun may take them as they are
            return
        known = {it.key for it in found.elements}
        found.elements += [it for it in elements if it.key not in known or found.is_map]

    # blocks

    def table(self) -> None:
        token = self.peek()
        key = self.family(), self.name()
        if key in self.tables and self.has("{"):
            self.changes.tell_once(
                token, Grade.SAME, f"table {' '.join(key)} again", "one block", "its blocks are joined"
            )
        table = self.tables.setdefault(key, Table(*key, token))
        if not self.skip("{"):
            return
        while not self.skip("}"):
            if not self.end():
                self.table_line(table)

    def table_line(self, table: Table) -> None:
        token = self.peek()
        if self.has(*DEFINITIONS):
            self.definition()
        elif self.skip("comment"):
            table.notes.append(self.take().text)
        elif self.skip("flags"):
            flags = [it.text for it in self.to_end() if it.kind is Kind.WORD]
            table.is_dormant |= "dormant" in flags
            self.changes.tell(
                token, Grade.SAME, f"flags {', '.join(flags)}", "left out", "they change no packet, but for `dormant`"
            )
        elif self.has("chain", "set", "map", *OBJECTS):
            what = self.take().text
            if what == "ct":
                what += " " + self.take("helper", "timeout", "expectation").text
            self.item(table, what, token)
        else:
            raise refuse(token, f"`{spoken(token)}` isn't understood in a table")

    def item(self, table: Table, what: str, token: Token) -> None:
        name = self.name()
        if what == "chain":
            chain = table.chains.setdefault(name, Chain(name, token))
            if self.skip("{"):
                self.chain(table, chain)
        elif what in ("set", "map"):
            is_new = name not in table.sets
            found = table.sets.setdefault(name, Set(name, token, what == "map"))
            if self.skip("{"):
                self.set(found, is_new)
        else:
            body = self.braced() if self.has("{") else self.to_end()
            table.objects[name] = NamedObject(what, token, tuple(body))

    def braced(self) -> list[Token]:
        self.take("{")
        body, depth = [], 1
        while depth:
            token = self.take()
            depth += (token.text == "{") - (token.text == "}")
            body.append(token)
        return body[:-1]

    def chain(self, table: Table, chain: Chain) -> None:
        while not self.skip("}"):
            if not self.end():
                self.chain_line(table, chain)

    def chain_line(self, table: Table, chain: Chain) -> None:
        if self.has("type") and self.peek(1).text in ("filter", "nat", "route"):
            self.take()
            if chain.head is None:
                self.order.append((table, chain))
                chain.moment = self.moment
            chain.head = self.head()
        elif self.skip("policy"):
            token = self.peek()
            words = self.to_end()
            chain.policy = words[0].text if words else ""
            if chain.policy not in ("accept", "drop"):
                raise refuse(token, "a policy is accept or drop")
        elif self.skip("comment"):
            chain.notes.append(self.take().text)
        elif self.has("flags", "devices", "device") and self.peek(1).text != "map":
            self.to_end()
        elif self.has(*DEFINITIONS):
            self.definition()
        else:
            tokens = self.to_end()
            if self.peek().kind is Kind.END:
                raise self.torn()
            if not tokens:
                raise refuse(self.peek(), f"`{spoken(self.peek())}` isn't understood in a chain")
            chain.rules.append(Rule(tokens, shown(self.taken), self.moment))

    def head(self) -> Head:
        first = self.peek()
        words = [it.text for it in self.to_end()]
        if len(words) < 3 or words[1] != "hook" or "priority" not in words:
            raise refuse(first, "the type, hook and priority of a chain are wanted")
        priority = words[words.index("priority") + 1 :]
        if len(priority) == 1 and "-" in priority[0].strip("-"):  # filter-5 is one word
            name, _, offset = priority[0].partition("-")
            priority = [name, "-", offset]
        return Head(words[0], words[2], tuple(priority))

    def set(self, found: Set, is_new: bool) -> None:
        while not self.skip("}"):
            if self.end():
                continue
            start = self.at
            self.set_line(found)
            line = slice_of(self.tokens[start : self.at])
            if found.slices is not None:
                if (
                    is_new
                    and line is not None
                    and not any(it.kind is Kind.VARIABLE for it in self.tokens[start : self.at])
                ):
                    found.slices.append(line)
                else:
                    found.slices = None

    def size(self) -> int:
        token = self.take()
        try:
            if token.kind is not Kind.NUMBER:
                raise NotFitted("a number is wanted")
            return as_number(token.text)
        except NotFitted as fault:
            raise refuse(token, f"size {spoken(token)[:20]}: {fault}") from None

    def set_line(self, found: Set) -> None:
        token = self.take()
        word = token.text
        if word == "type":
            found.types, found.data = types_of([it.text for it in self.to_end()])
        elif word == "typeof":
            found.typeof = self.to_end()
        elif word == "flags":
            found.flags = [it.text for it in self.to_end() if it.kind is Kind.WORD]
        elif word in ("timeout", "gc-interval"):
            found.timeout |= word == "timeout"
            found.words += [word, *(it.text for it in self.to_end())]
        elif word == "size":
            found.size = self.size()
        elif word == "comment":
            found.comment = self.take().text
        elif word == "auto-merge":
            found.merges = True
        elif word == "policy":
            self.to_end()
        elif word in ("counter", "limit", "quota", "ct", "last"):
            found.counts |= word not in BOUNDS
            words = [it.text for it in self.to_end()]
            if word in BOUNDS:
                found.bounds.append(Bound(BOUNDS[word], "over" in words, None))
                found.words += [word, *words]
        elif word == "elements":
            self.take("=")
            self.add_elements(found, self.to_end())
        else:
            raise refuse(token, f"`{spoken(token)}` isn't understood in a {found.word}")


def types_of(words: list[str]) -> tuple[list[str], list[str] | None]:
    """The names of types of a key, and of a map's data."""
    words = [it for it in words if it not in (".", "interval")]
    if ":" not in words:
        return words, None
    at = words.index(":")
    return words[:at], words[at + 1 :]


def included(pattern: str, from_file: str) -> tuple[list[str], bool]:
    """The files of an `include`, and whether nft(8) finds them: what begins with `/`, `./` or `../` it takes as it
    stands, seen from here, all else from /etc. What it hasn't may stand beside the file that includes it."""
    folders = [""] if pattern.startswith(("/", "./", "../")) else [ETC]
    if not pattern.startswith("/"):
        folders.append(os.path.dirname(from_file))
    for folder in folders:
        found = sorted(it for it in glob.glob(os.path.join(glob.escape(folder), pattern)) if os.path.isfile(it))
        if found:
            return found, folder is folders[0]
    return [], True


def read_text(path: str) -> str:
    try:
        return toolbox.commands.read_text(path)
    except toolbox.commands.Refused as refusal:
        raise Refused(str(refusal)) from None


def spoken(token: Token) -> str:
    """A token in a message: a newline is named."""
    return "the end of the line" if token.kind is Kind.NEWLINE else token.text
