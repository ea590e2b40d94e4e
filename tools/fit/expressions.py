"""Reads expressions: selectors, values, lists of elements, and what joins them."""
from __future__ import annotations

from typing import Sequence

from toolbox.lexer import Kind, Token

from .facts import FIELDS, META, TCP_FLAGS, VERDICTS
from .scanner import END
from .tree import (
    Anything,
    Calculation,
    Drawn,
    Element,
    Elements,
    Expression,
    Joined,
    Listed,
    Lookup,
    Mapping,
    Masked,
    Named,
    NotFitted,
    One,
    Part,
    Prefix,
    Range,
    Selector,
    Value,
    Verdict,
)


# operators between expressions, the loosest first, in both spellings
CALCULATIONS = (
    {"|": "|", "or": "|"},
    {"^": "^", "xor": "^"},
    {"&": "&", "and": "&"},
    {"<<": "<<", ">>": ">>", "lshift": "<<", "rshift": ">>"},
)
COMPARISONS = {"eq": "==", "ne": "!=", "lt": "<", "gt": ">", "le": "<=", "ge": ">="}
OPTION_FIELDS = set("kind length size count left right tsval tsecr ptr type value addr".split())
LONGEST_NUMBER = 20  # of its digits, as many as 2^64 has
VALUES = (Kind.NUMBER, Kind.ADDRESS, Kind.SIX, Kind.MAC, Kind.TIME, Kind.WORD, Kind.STRING, Kind.WILD)


def as_number(text: str) -> int:
    """nft(8) reads a number with a leading zero as octal, nftrun not at all; neither one of more than 64 bits."""
    digits = text.removeprefix("0x").lstrip("0")
    if len(digits) > LONGEST_NUMBER:
        raise NotFitted(f"`{text[:LONGEST_NUMBER]}..` is a number of more than 64 bits")
    if len(text) > 1 and text[0] == "0" and text.isdigit():
        raise NotFitted(f"`{text}` is a number with a leading zero")
    return int(text, 0)


class ExpressionReader:
    """Reads from a list of tokens, from `at` on."""

    def __init__(self, tokens: Sequence[Token]) -> None:
        self.tokens = tokens
        self.at = 0

    # tokens

    def peek(self, ahead: int = 0) -> Token:
        index = self.at + ahead
        return self.tokens[index] if index < len(self.tokens) else END

    def has(self, *texts: str, ahead: int = 0) -> bool:
        token = self.peek(ahead)
        return token.kind in (Kind.WORD, Kind.MARK) and token.text in texts

    def skip(self, *texts: str) -> bool:
        if self.has(*texts):
            self.at += 1
            return True
        return False

    def take(self, kind: Kind | None = None, *texts: str) -> Token:
        token = self.peek()
        if token.kind is Kind.END:
            raise NotFitted("the rule ends too early")
        if (kind and token.kind is not kind) or (texts and token.text not in texts):
            raise NotFitted(f"`{token.text}` isn't understood here")
        self.at += 1
        return token

    def name(self) -> str:
        token = self.take()
        if token.kind not in (Kind.WORD, Kind.STRING):
            raise NotFitted(f"`{token.text}` is no name")
        return token.text.strip('"')

    def newlines(self) -> None:
        while self.peek().kind is Kind.NEWLINE:
            self.at += 1

    def number(self) -> int:
        return as_number(self.take(Kind.NUMBER).text)

    # values

    def value(self) -> Value:
        if self.skip("["):
            address = self.take(Kind.SIX)
            self.take(Kind.MARK, "]")
            return Value(Kind.SIX, address.text)
        token = self.peek()
        if token.kind not in VALUES:
            raise NotFitted(f"`{token.text or 'the end'}` isn't a value")
        self.at += 1
        return Value(token.kind, token.text)

    def part(self) -> Part:
        """One value, a range, a prefix or `*`."""
        if self.skip("*"):
            return Anything()
        value = self.value()
        if self.skip("-"):
            return Range(value, self.value())
        if self.has("/") and self.peek(1).kind is Kind.NUMBER and value.kind in (Kind.ADDRESS, Kind.SIX, Kind.NUMBER):
            self.at += 1
            return Prefix(value, self.number())
        return One(value)

    def elements(self, is_map: bool = False) -> Elements:
        """`{ .. }`; lists within lists, which definitions make, are one list."""
        self.take(Kind.MARK, "{")
        found: list[Element] = []
        self.newlines()
        while not self.has("}"):
            if self.has("{"):
                found += self.elements(is_map).items
            else:
                found.append(self.element(is_map))
            self.newlines()
            if not self.skip(","):
                break
            self.newlines()
        self.take(Kind.MARK, "}")
        return Elements(tuple(found))

    def element(self, is_map: bool) -> Element:
        key = [self.element_part()]
        while self.skip("."):
            self.newlines()
            key.append(self.element_part())
        extras = self.extras()
        data: Verdict | tuple[Part, ...] | None = None
        if is_map:
            self.newlines()
            self.take(Kind.MARK, ":")
            self.newlines()
            data = self.verdict() if self.has(*VERDICTS) else self.data()
            extras += self.extras()
        return Element(tuple(key), data, tuple(extras))

    def data(self) -> tuple[Part, ...]:
        parts = [self.part()]
        while self.skip("."):
            parts.append(self.part())
        return tuple(parts)

    def element_part(self) -> Part:
        """In sets of bits an element may be `syn | ack`."""
        part = self.part()
        if not self.has("|") or not isinstance(part, One):
            return part
        bits = flag_bits(part.value)
        while self.skip("|"):
            bits |= flag_bits(self.value())
        return One(Value(Kind.NUMBER, hex(bits)))

    def extras(self) -> list[str]:
        """What an element has beside its key: the words and numbers of it, without comments."""
        found = []
        while True:
            self.newlines()
            if self.skip("comment"):
                self.take(Kind.STRING)
            elif self.has("timeout", "expires"):
                found += [self.take().text, self.take().text]
            elif self.has("counter", "limit", "quota", "ct", "last"):
                found.append(self.take().text)
                while self.peek().kind in (Kind.NUMBER, Kind.TIME, Kind.WORD, Kind.MARK) and not self.has(
                    ",", "}", ":", "timeout", "expires", "comment"
                ):
                    found.append(self.take().text)
            else:
                return found

    def verdict(self) -> Verdict:
        word = self.take(Kind.WORD, *VERDICTS).text
        if word not in ("jump", "goto"):
            return Verdict(word, None)
        if self.has("{"):
            return Verdict(word, self.anonymous_chain())
        return Verdict(word, self.name())

    def anonymous_chain(self) -> tuple[tuple[Token, ...], ...]:
        """The rules of a chain without a name, each as its tokens."""
        self.take(Kind.MARK, "{")
        rules: list[tuple[Token, ...]] = []
        rule: list[Token] = []
        depth = 0
        while True:
            token = self.take()
            if depth == 0 and (token.kind is Kind.NEWLINE or token.kind is Kind.MARK and token.text in ";}"):
                if rule:
                    rules.append(tuple(rule))
                rule = []
                if token.text == "}":
                    return tuple(rules)
            else:
                depth += (token.text == "{") - (token.text == "}")
                rule.append(token)

    # selectors

    def selector(self) -> Selector | Drawn | None:
        """A selector, or None where none begins here. What nft(8) hasn't is refused: nothing may be assumed of it."""
        token, after = self.peek(), self.peek(1)
        word = token.text
        is_payload = token.kind is Kind.MARK and word == "@" and after.text in ("nh", "th", "ll", "ih")
        if is_payload and self.has(",", ahead=2):
            return Selector("payload " + "".join(self.take().text for _ in range(6)))
        if token.kind is not Kind.WORD:
            return None
        if word in ("numgen", "jhash", "symhash"):
            return self.drawn()
        if word == "fib":
            return self.fib()
        if word in META and not (word == "ipsec" and after.text in ("in", "out")):
            self.at += 1
            return Selector(f"meta {word}")
        if word not in FIELDS or after.kind is not Kind.WORD:
            return None
        if word in ("tcp", "ip", "sctp", "dccp") and after.text in ("option", "chunk"):
            return self.option()
        if word in ("rt", "socket", "osf", "ipsec"):
            return self.lookup_selector()
        if (
            word == "ct"
            and after.text in ("count", "helper", "timeout", "expectation")
            and (after.text == "count" or self.has("set", ahead=2))
        ):
            return None
        if after.text not in FIELDS[word]:
            raise NotFitted(f"nft(8) has no `{word} {after.text}`")
        self.at += 2
        name = f"{word} {after.text}"
        if word == "ct" and after.text in ("original", "reply"):
            name += " " + self.take().text if self.has("ip", "ip6") else ""
            name += " " + self.take(Kind.WORD).text
        return Selector(name)

    def fib(self) -> Selector:
        self.take()
        flags = [self.take(Kind.WORD, "saddr", "daddr", "mark", "iif", "oif").text]
        while self.skip("."):
            flags.append(self.take(Kind.WORD, "saddr", "daddr", "mark", "iif", "oif").text)
        return Selector(f"fib {' . '.join(flags)} {self.take(Kind.WORD, 'oif', 'oifname', 'type').text}")

    def option(self) -> Selector:
        name = f"{self.take().text} {self.take().text} {self.take().text}"
        if self.has(*OPTION_FIELDS):
            name += " " + self.take().text
        return Selector(name)

    def lookup_selector(self) -> Selector:
        """`rt nexthop`, `socket cgroupv2 level 1`, `osf name`, `ipsec in reqid`."""
        token, after = self.take(), self.take(Kind.WORD)
        if token.text == "rt" and after.text in ("type", "hdrlength", "nexthdr", "seg-left"):
            return Selector(f"rt0 {after.text}")  # the routing header of IPv6
        if token.text != "ipsec" and after.text not in FIELDS[token.text]:
            raise NotFitted(f"nft(8) has no `{token.text} {after.text}`")
        words = [token.text, after.text]
        more = set("nexthop saddr daddr reqid spi name version spnum level ip ip6 mtu".split())
        while self.has(*more) or (self.peek().kind is Kind.NUMBER and words[-1] in ("spnum", "level")):
            words.append(self.take().text)
        return Selector(" ".join(words))

    def drawn(self) -> Drawn:
        kind = self.take().text
        over = None
        if kind == "numgen":
            self.take(Kind.WORD, "inc", "random")
        elif kind == "jhash":
            over = self.operand()
        self.take(Kind.WORD, "mod")
        modulus, offset = self.number(), 0
        while self.has("seed", "offset"):
            which = self.take().text
            number = self.number()
            offset = number if which == "offset" else offset
        if not modulus:
            raise NotFitted("a modulus of 0")
        return Drawn(kind, modulus, offset, over)

    # what joins them

    def operand(self, level: int = 0) -> Expression:
        """Selectors and values, calculated with, joined by dots, or looked up in a map."""
        if level == len(CALCULATIONS):
            return self.primary()
        left = self.operand(level + 1)
        while self.peek().kind in (Kind.MARK, Kind.WORD) and self.peek().text in CALCULATIONS[level]:
            operator = CALCULATIONS[level][self.take().text]
            left = Calculation(operator, left, self.operand(level + 1))
        if level == 0 and self.has("."):
            parts = [left]
            while self.skip("."):
                parts.append(self.operand(1))
            left = Joined(tuple(parts))
        if level == 0 and self.skip("map"):
            left = Lookup(left, self.mapping())
        return left

    def primary(self) -> Expression:
        if self.skip("("):
            inner = self.operand()
            self.take(Kind.MARK, ")")
            return inner
        return self.selector() or self.part()

    def mapping(self) -> Mapping:
        if self.skip("@"):
            return Named(self.name())
        return self.elements(is_map=True)

    def compared(self, left: Expression) -> tuple[str, Expression]:
        """The operator and what a match compares with."""
        operator = ""
        if self.peek().kind is Kind.WORD and self.peek().text in COMPARISONS:
            operator = COMPARISONS[self.take().text]
        elif self.has("==", "!=", "<", ">", "<=", ">=", "!"):
            operator = self.take().text
        if self.has("{"):
            return operator, self.elements()
        if self.has("@") and not self.has(",", ahead=2):
            self.take()
            return operator, Named(self.name())
        if left == Selector("meta priority") and self.peek().kind is Kind.NUMBER and self.has(":", ahead=1):
            return operator, self.handle()
        right = self.listed()
        if self.skip("/"):
            right = Masked(right, self.listed())
        if isinstance(left, Joined) and self.has("."):
            parts = [as_part(right)]
            while self.skip("."):
                parts.append(self.part())
            right = Elements((Element(tuple(parts), None, ()),))
        return operator, right

    def handle(self) -> One:
        """The number of a class of traffic control, `1:1`."""
        major = self.number()
        self.take(Kind.MARK, ":")
        return One(Value(Kind.NUMBER, hex(major << 16 | self.number())))

    def listed(self) -> Expression:
        items = [self.constant()]
        while self.skip(","):
            items.append(self.constant())
        return items[0] if len(items) == 1 else Listed(tuple(items))

    def constant(self, level: int = 0) -> Expression:
        """A value to compare with, which may be calculated."""
        if level == 3:
            if not self.skip("("):
                return self.part()
            inner = self.constant()
            while self.skip(","):
                inner = Calculation("|", inner, self.constant())
            self.take(Kind.MARK, ")")
            return inner
        left = self.constant(level + 1)
        while self.peek().kind in (Kind.MARK, Kind.WORD) and self.peek().text in CALCULATIONS[level]:
            operator = CALCULATIONS[level][self.take().text]
            left = Calculation(operator, left, self.constant(level + 1))
        return left


def flag_bits(value: Value) -> int:
    if value.kind is Kind.NUMBER:
        return as_number(value.text)
    if value.text in TCP_FLAGS:
        return TCP_FLAGS[value.text]
    raise NotFitted(f"`{value.text}` is no flag of TCP")


def as_part(it: Expression) -> Part:
    """One part of joined keys, which isn't calculated."""
    if not isinstance(it, (One, Range, Prefix, Anything)):
        raise NotFitted("arithmetic within joined keys")
    return it
