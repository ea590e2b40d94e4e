"""Recognises the language that nftrun reads: its tokens and its grammar, as docs/SPEC.md spells them.

What is recognised here isn't refused with E01 to E06; what the check refuses (N01 to N15) it alone judges.
"""
from __future__ import annotations

import re
from dataclasses import dataclass

from .facts import BITS, CHAIN_HOOKS, PRIORITIES, SHORT, TYPES, WORDS

SIZE = 1 << 20


@dataclass(frozen=True)
class Piece:
    """A token; `kind` is the name of its group in CUT."""

    kind: str
    text: str


CUT = re.compile(
    r"""(?P<blank>[ \t\r]+|\\\n|\#[^\n]*)
      | (?P<newline>\n)
      | (?P<word>[A-Za-z_][A-Za-z0-9_./-]*)
      | (?P<address>[0-9]+\.[0-9]+\.[0-9]+\.[0-9]+)
      | (?P<number>0x[0-9A-Fa-f]+|[0-9]+)
      | (?P<string>"[^"\n]*")
      | (?P<mark>==|!=|>=|<=|[{}(),;:./\-+=@&|<>])""",
    re.VERBOSE,
)
FIRST_WORDS = {it.split()[0] for it in TYPES}
OPERATORS = ("==", "!=", "<", ">", "<=", ">=")


class NotTaken(Exception):
    """The language of nftrun hasn't got it."""


def cut(text: str) -> list[Piece]:
    """The tokens, or NotTaken where nftrun knows none (E01 to E04)."""
    pieces, at = [], 0
    if len(text.encode("utf-8", "surrogateescape")) > SIZE:
        raise NotTaken
    while at < len(text):
        found = CUT.match(text, at)
        if not found or not is_sound(found):
            raise NotTaken
        if found.lastgroup != "blank":
            pieces.append(Piece(found.lastgroup or "", found[0]))
        at = found.end()
    return pieces


def is_sound(found: re.Match[str]) -> bool:
    """Numbers below 2^64 without leading zeros, addresses of four such numbers to 255."""
    text = found[0]
    if found.lastgroup == "address":
        return all(len(it) <= 3 and int(it) <= 255 and (it == "0" or it[0] != "0") for it in text.split("."))
    if found.lastgroup == "number":
        return (
            text.startswith("0x")
            and len(text.lstrip("0x")) <= 16
            or (text == "0" or text[0] != "0")
            and len(text) < 21
            and int(text) < 1 << 64
        )
    return True


class Recognizer:
    """Each method reads one production from `at` on, or raises NotTaken."""

    def __init__(self, text: str) -> None:
        self.pieces, self.at = cut(text), 0

    def peek(self, ahead: int = 0) -> Piece:
        index = self.at + ahead
        return self.pieces[index] if index < len(self.pieces) else Piece("end", "")

    def has(self, *texts: str, ahead: int = 0) -> bool:
        piece = self.peek(ahead)
        return piece.kind in ("word", "mark") and piece.text in texts

    def skip(self, *texts: str) -> bool:
        if self.has(*texts):
            self.at += 1
            return True
        return False

    def want(self, *texts: str) -> None:
        if not self.skip(*texts):
            raise NotTaken

    def kind(self, *kinds: str) -> str:
        piece = self.peek()
        if piece.kind not in kinds:
            raise NotTaken
        self.at += 1
        return piece.text

    def is_end(self) -> bool:
        return self.peek().kind == "newline" or self.has(";")

    def ends(self) -> None:
        while self.is_end():
            self.at += 1

    def some_ends(self) -> None:
        if not self.is_end():
            raise NotTaken
        self.ends()

    def newlines(self) -> None:
        while self.peek().kind == "newline":
            self.at += 1

    # tables and what is in them

    def ruleset(self) -> None:
        self.ends()
        if self.skip("flush"):
            self.want("ruleset")
            self.some_ends()
        while self.skip("table"):
            if self.has("ip", "inet") and self.peek(1).kind == "word":
                self.at += 1
            self.kind("word")
            self.want("{")
            self.ends()
            while not self.skip("}"):
                self.item()
                self.ends()
            self.ends()
        self.done()

    def done(self) -> None:
        if self.peek().kind != "end":
            raise NotTaken

    def item(self) -> None:
        if self.skip("comment"):
            self.kind("string")
        elif self.skip("chain"):
            self.chain()
        elif self.has("set", "map"):
            self.set(self.kind("word") == "map")
        else:
            raise NotTaken

    def chain(self) -> None:
        self.kind("word")
        self.want("{")
        self.ends()
        self.notes()
        if self.has("type"):
            self.head()
            self.notes()
        while not self.skip("}"):
            self.rule()
            if not self.has("}"):
                self.some_ends()

    def notes(self) -> None:
        while self.skip("comment"):
            self.kind("string")
            self.some_ends()

    def head(self) -> None:
        self.want("type")
        self.want("filter", "nat")
        self.want("hook")
        self.want(*CHAIN_HOOKS)
        self.want("priority")
        if self.skip(*PRIORITIES):
            if self.skip("+", "-"):
                self.kind("number")
        else:
            self.skip("-")
            self.kind("number")
        self.some_ends()
        if self.skip("policy"):
            self.want("accept", "drop")
            self.some_ends()

    def set(self, is_map: bool) -> None:
        self.kind("word")
        self.want("{")
        self.ends()
        seen: set[str] = set()
        while not self.skip("}"):
            name = self.field(is_map)
            if name in seen or name in ("type", "typeof") and seen & {"type", "typeof"}:
                raise NotTaken
            seen.add(name)
            if not self.has("}"):
                self.some_ends()
        if not seen & {"type", "typeof"}:
            raise NotTaken

    def field(self, is_map: bool) -> str:
        name = self.kind("word")
        if name == "type":
            self.types(is_map)
        elif name == "typeof":
            self.selector()
            while not is_map and self.skip("."):
                self.selector()
            if is_map:
                self.want(":")
                if not self.skip("verdict"):
                    self.selector()
        elif name == "elements":
            self.want("=")
            self.elements(is_map)
        elif name == "flags":
            self.want("constant", "interval")
            while self.skip(","):
                self.want("constant", "interval")
        elif name == "size":
            self.kind("number")
        elif name == "comment":
            self.kind("string")
        elif name != "auto-merge":
            raise NotTaken
        return name

    def types(self, is_map: bool) -> None:
        self.want(*WORDS)
        while not is_map and self.skip("."):
            self.want(*WORDS)
        if is_map:
            self.want(":")
            self.want("verdict", *WORDS)

    def elements(self, is_map: bool) -> None:
        self.want("{")
        self.newlines()
        while True:
            self.element(is_map)
            self.newlines()
            if not self.skip(","):
                break
            self.newlines()
            if self.has("}"):
                break
        self.want("}")

    def element(self, is_map: bool) -> None:
        self.any_value()
        self.newlines()
        if not is_map and self.has("."):
            while self.skip("."):
                self.newlines()
                self.any_value()
                self.newlines()
        elif self.skip("-"):
            self.newlines()
            self.any_value()
        elif self.has("/") and self.peek(-1).kind == "address":
            self.at += 1
            self.kind("number")
        self.newlines()
        if self.skip("comment"):
            self.newlines()
            self.kind("string")
            self.newlines()
        if is_map:
            self.want(":")
            self.newlines()
            if not self.verdict():
                self.any_value()

    def any_value(self) -> str:
        return self.kind("number", "address", "word", "string")

    # rules

    def rule(self) -> None:
        self.statement()
        while not (self.is_end() or self.has("}") or self.peek().kind == "end"):
            if self.skip("comment"):
                self.kind("string")
                return
            self.statement()

    def statement(self) -> None:
        if self.skip("counter"):
            if self.skip("packets"):
                self.kind("number")
                self.want("bytes")
                self.kind("number")
        elif self.skip("log"):
            if self.skip("prefix"):
                self.kind("string")
        elif self.skip("notrack"):
            pass
        elif self.has("meta", "ct") and self.has("mark", ahead=1) and self.has("set", ahead=2):
            self.at += 3
            self.operand()
        elif not (self.verdict() or self.translation()):
            self.match()

    def verdict(self) -> bool | None:
        if self.skip("jump", "goto"):
            self.kind("word")
            return True
        return self.skip("accept", "drop", "continue", "return")

    def operand(self) -> None:
        if self.peek().kind == "number":
            self.at += 1
        elif self.has("meta", "ct") and self.has("mark", ahead=1) and not self.has("map", ahead=2):
            self.at += 2
        else:
            self.lookup()

    def lookup(self) -> None:
        self.selector()
        self.want("map")
        self.named_or_list(True)

    def named_or_list(self, is_map: bool) -> None:
        if self.skip("@"):
            self.kind("word")
        else:
            self.elements(is_map)

    def translation(self) -> bool | None:
        if self.has("snat", "dnat"):
            is_source = self.kind("word") == "snat"
            if self.has("ip") and self.has("to", ahead=1):
                self.at += 1
            self.want("to")
            if self.peek().kind != "address":
                self.lookup()
                return True
            self.at += 1
            if self.skip(":"):
                self.ports(is_source)
        elif self.has("masquerade", "redirect"):
            is_source = self.kind("word") == "masquerade"
            if self.skip("to"):
                self.want(":")
                self.ports(is_source)
        else:
            return False
        return True

    def ports(self, may_be_range: bool) -> None:
        self.kind("number")
        if may_be_range and self.skip("-"):
            self.kind("number")

    def selector(self) -> str:
        if self.skip(*SHORT):
            return "meta " + self.peek(-1).text
        name = f"{self.peek().text} {self.peek(1).text}"
        if self.peek().kind != "word" or self.peek(1).kind != "word" or name not in TYPES:
            raise NotTaken
        self.at += 2
        return name

    def match(self) -> None:
        name = self.selector()
        if self.has("vmap") and not self.is_value_of(name):
            self.at += 1
            self.named_or_list(True)
            return
        if self.has("."):
            while self.skip("."):
                self.selector()
            self.skip("==", "!=")
            self.named_or_list(False)
        elif self.has("@", "{") or self.has("==", "!=") and self.has("@", "{", ahead=1):
            self.skip("==", "!=")
            self.named_or_list(False)
        elif TYPES[name] in BITS:
            self.bits(name)
        else:
            self.skip(*OPERATORS)
            self.one(name)

    def is_value_of(self, name: str) -> bool:
        """`iifname vmap accept` asks for the interface `vmap`."""
        return TYPES[name] in ("ifname", "iface_index") and not self.has("@", "{", ahead=1)

    def one(self, name: str) -> None:
        self.value_of(name)
        if self.skip("-"):
            self.value_of(name)
        elif self.has("/") and self.peek(-1).kind == "address":
            self.at += 1
            self.kind("number")

    def value_of(self, name: str) -> None:
        kind = TYPES[name]
        if self.kind("number", "address", "word", "string") and self.peek(-1).kind == "word":
            if kind not in ("ifname", "iface_index") and self.peek(-1).text not in WORDS.get(kind, {}):
                raise NotTaken

    def bits(self, name: str) -> None:
        if name != "tcp flags":
            self.skip("==", "!=")
            self.want(*WORDS[TYPES[name]])
            while self.skip(","):
                self.want(*WORDS[TYPES[name]])
        elif self.skip("&"):
            self.group()
            self.want("==", "!=")
            self.group()
        else:
            is_not = self.has("!=")
            self.skip("==", "!=")
            self.flags()
            if self.skip("/"):
                self.flags()
            elif is_not:
                raise NotTaken

    def flags(self) -> None:
        self.flag()
        while self.skip(",", "|"):
            self.flag()

    def flag(self) -> None:
        if self.peek().kind != "number":
            self.want(*WORDS["tcp_flag"])
        else:
            self.at += 1

    def group(self) -> None:
        if self.skip("("):
            self.flags()
            self.want(")")
        else:
            self.flags()


def takes(text: str, production: str) -> bool:
    """Whether all of the text is of one production: `ruleset`, `rule`, `statement`, `chain`, `head` .."""
    try:
        recognizer = Recognizer(text)
        getattr(recognizer, production)()
        recognizer.done()
        return True
    except NotTaken:
        return False
