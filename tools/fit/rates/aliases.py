"""Has a fitted ruleset that asks for an interface ask for those, too, that stand for it."""
from __future__ import annotations

from dataclasses import dataclass
from typing import Iterator, Mapping, Sequence

from toolbox.lexer import Kind, Source, Token

from ..facts import TYPES
from ..scanner import Refused, scan
from ..sets import colon, selector_types
from ..statements import RuleReader
from ..tree import (
    Joined,
    Lookup,
    Match,
    NotFitted,
    Selector,
    Setting,
    Statement,
    Translation,
    VerdictMap,
    What,
    inner_parts,
)

INTERFACES = ("ifname", "iface_index")


@dataclass(frozen=True)
class Edit:
    """Text in place of what stands from `start` to `end`."""

    start: int
    end: int
    text: str


class Aliases:
    """Finds the edits of a text; `names` are the interfaces that stand for real ones, `indices` the names of these."""

    def __init__(self, text: str, names: Mapping[str, Sequence[str]], indices: Mapping[int, str]) -> None:
        self.text, self.names, self.indices = text, names, indices
        self.tokens = scan(Source("the fitted ruleset", text))
        self.edits: list[Edit] = []

    def of(self, token: Token) -> list[str]:
        """The interfaces that stand for those which a value names."""
        name = token.text.strip('"')
        if token.kind is Kind.NUMBER:
            name = self.indices.get(int(token.text, 0), "")
        if token.text.rstrip('"').endswith("*"):
            return [one for real, found in self.names.items() if real.startswith(name.rstrip('"').rstrip("*"))
                    for one in found]
        return list(self.names.get(name, ()))

    # blocks: tables have chains, sets and maps

    def find(self) -> None:
        """All edits."""
        at = 0
        while at < len(self.tokens):
            if self.tokens[at].text != "{":
                at += 1
                continue
            end = closing(self.tokens, at)  # of a table
            self.find_in_table(self.tokens[at + 1:end])
            at = end + 1

    def find_in_table(self, tokens: Sequence[Token]) -> None:
        at = 0
        while at < len(tokens):
            if tokens[at].text not in ("chain", "set", "map"):
                at += 1
                continue
            begin = at + 2
            end = closing(tokens, begin)
            body = tokens[begin + 1:end]
            if tokens[at].text == "chain":
                for rule in lines_of(body):
                    self.find_in_rule(rule)
            else:
                self.find_in_set(body)
            at = end + 1

    def find_in_set(self, body: Sequence[Token]) -> None:
        lines = list(lines_of(body))
        columns: list[bool] = []
        for line in lines:
            if line[0].text == "type":
                columns = [it.text in INTERFACES for it in line[1:colon(list(line))] if it.text != "."]
            elif line[0].text == "typeof":
                columns = [it in INTERFACES for it in selector_types(list(line[1:colon(list(line))]))]
        for line in lines:
            if line[0].text == "elements" and any(columns):
                self.find_in_list(line, columns)

    def find_in_rule(self, rule: Sequence[Token]) -> None:
        if rule[0].text in ("type", "policy", "comment"):
            return
        try:
            statements, _ = RuleReader(rule).rule()
        except NotFitted as fault:
            raise Refused(f"what a rule became isn't understood: {fault}; this is a fault of fit") from None
        for it in statements:
            self.find_in_statement(it)

    def find_in_statement(self, it: Statement) -> None:
        columns = columns_of(it.what)
        if not any(columns):
            return
        if any(one.text == "{" for one in it.tokens):
            self.find_in_list(it.tokens, columns)
        elif not any(one.text == "@" for one in it.tokens):
            value = it.tokens[-1]
            found = self.of(value)
            if found:
                listed = ", ".join([self.slice(value, value), *(f'"{one}"' for one in found)])
                self.edits.append(Edit(value.start, value.end, f"{{ {listed} }}"))

    def find_in_list(self, tokens: Sequence[Token], columns: Sequence[bool]) -> None:
        """`{ .. }` within tokens: each element is followed by those with other interfaces."""
        begin = next(index for index, it in enumerate(tokens) if it.text == "{")
        for element in split(tokens[begin + 1:closing(tokens, begin)], ","):
            element = [it for it in element if it.kind is not Kind.NEWLINE]
            if not element:
                continue
            texts = [self.slice(element[0], element[-1])]
            for value in values_in(element, columns):
                place = value.start - element[0].start, value.end - element[0].start
                texts += [f'{texts[0][:place[0]]}"{one}"{texts[0][place[1]:]}' for one in self.of(value)]
            if len(texts) > 1:
                self.edits.append(Edit(element[0].start, element[-1].end, ", ".join(texts)))

    def slice(self, first: Token, last: Token) -> str:
        return self.text[first.start:last.end]


def values_in(element: Sequence[Token], columns: Sequence[bool]) -> Iterator[Token]:
    """The values of an element's key that are interfaces; a key has one such part."""
    column = 0
    for token in element:
        if token.text in (":", "comment") and token.kind in (Kind.MARK, Kind.WORD):
            return
        if token.text == ".":
            column += 1
        elif column < len(columns) and columns[column]:
            yield token


def columns_of(what: What) -> list[bool]:
    """Which parts of the key of a list in a statement are the interface by which a packet came."""
    key: object = None
    if isinstance(what, (Match, VerdictMap)):
        key = what.left
    elif isinstance(what, (Setting, Translation)):
        key = next((it.key for it in inner_parts(what) if isinstance(it, Lookup)), None)
    parts = key.parts if isinstance(key, Joined) else (key,)
    return [isinstance(it, Selector) and TYPES.get(it.name) in INTERFACES for it in parts]


def closing(tokens: Sequence[Token], begin: int) -> int:
    """Where the brace ends that stands at `begin`."""
    depth = 0
    for index in range(begin, len(tokens)):
        if tokens[index].kind is Kind.MARK:
            depth += (tokens[index].text == "{") - (tokens[index].text == "}")
        if not depth:
            return index
    raise Refused("a brace without its end in what the ruleset became; this is a fault of fit")


def split(tokens: Sequence[Token], mark: str) -> Iterator[list[Token]]:
    found: list[Token] = []
    for token in tokens:
        if token.kind is Kind.MARK and token.text == mark:
            yield found
            found = []
        else:
            found.append(token)
    yield found


def lines_of(body: Sequence[Token]) -> Iterator[list[Token]]:
    """What stands between newlines and semicolons outside of braces."""
    found: list[Token] = []
    depth = 0
    for token in body:
        if token.kind is Kind.MARK:
            depth += (token.text == "{") - (token.text == "}")
        if not depth and (token.kind is Kind.NEWLINE or token.kind is Kind.MARK and token.text == ";"):
            if found:
                yield found
            found = []
        else:
            found.append(token)
    if found:
        yield found


def with_aliases(text: str, names: Mapping[str, Sequence[str]], indices: Mapping[int, str]) -> str:
    """The text, where each list that names an interface of `names` has those, too, that stand for it."""
    if not names:
        return text
    found = Aliases(text, names, indices)
    found.find()
    for edit in sorted(found.edits, key=lambda it: it.start, reverse=True):
        text = text[:edit.start] + edit.text + text[edit.end:]
    return text
