"""Rulesets drawn by chance, the same for the same seed. They have what indexes on rules could get wrong: long runs of
rules that begin with matches of one selector or few, rules of one match and a verdict that are merged, and marks that
rules write and later rules match. Values are drawn from few, so that many rules match. Some rulesets translate.
"""
from __future__ import annotations

import random
from dataclasses import dataclass
from typing import Callable, Iterator, Sequence, Tuple, TypeVar, Union

from reading import (
    PRIORITIES, SELECTORS, Box, Chain, Counter, Element, HasBits, HasOfMask, Head, Interface, IsIn, IsPart, Log, Lookup,
    Match, Name, Notrack, Pair, Part, Route, Rule, SetMark, Span, Statement, Table, Translate, Verdict, VerdictMap,
    Word, shares,
)
from translating import Ports
from words import GREATEST, KINDS, ORDERED, RANGED, want_each
from words import WORDS as ALL_WORDS

T = TypeVar("T")
Kinds = Tuple[str, ...]  # types of the values of an element, or selectors

LAN, LAN0, WAN, W = Interface(2, "lan"), Interface(3, "lan0"), Interface(5, "wan"), Interface(17, "w")
FIRST = 0x0A000000
BOX_TEXT = """interface 2 lan 10.0.0.1/29
interface 3 lan0 10.0.0.9/29
interface 3 lan0 10.0.0.10/29
interface 5 wan 10.0.0.17/28
interface 17 w 10.0.0.41/30
route 10.0.0.32/29 lan0
route 10.0.0.16/29 w
default lan
"""
BOX = Box(
    [LAN, LAN0, WAN, W],
    {FIRST + 1: LAN, FIRST + 9: LAN0, FIRST + 10: LAN0, FIRST + 17: WAN, FIRST + 41: W},
    [Route(FIRST, 29, LAN), Route(FIRST + 8, 29, LAN0), Route(FIRST + 8, 29, LAN0), Route(FIRST + 16, 28, WAN),
     Route(FIRST + 40, 30, W), Route(FIRST + 32, 29, LAN0), Route(FIRST + 16, 29, W)],
)

want_each("SELECTORS of tests/random/reading.py", SELECTORS)
# Words that aren't drawn, so that each seed gives the same ruleset as before they were known.
UNDRAWN = ("esp", "ah", "ipv6-icmp", "sctp", "domain", "http", "ntp", "https", "router-solicitation", "timestamp-reply",
           "info-request", "address-mask-request", "address-mask-reply")
WORDS: dict[str, dict[str, int]] = {
    **{kind: {word: number for word, number in known.items() if word not in UNDRAWN}
       for kind, known in ALL_WORDS.items()},
    "iface_index": {one.name: one.index for one in (LAN, LAN0, WAN, W)},
}
NAMES = ("lan", "lan0", "wan", "w", "la", "eth0")
# Before the lookup and behind it, before the nat chains and behind them, and at each border.
PREROUTING = (
    "raw", "raw - 1", "-250", "-200", "-199", "mangle", "-101", "dstnat", "-99", "filter", "-5", "filter + 5")
HOOKS = ["prerouting"] * 5 + ["input"] * 5 + ["forward"] * 8 + ["postrouting"] * 5 + ["output"]
PRIORITIES_DRAWN: dict[str, Kinds] = {
    "prerouting": PREROUTING, "postrouting": ("mangle", "filter", "security", "99", "srcnat", "101")}
OTHERS = ("filter", "-5", "filter + 5", "security", "mangle", "raw")

# The types of bits, which are matched by lists of them.
BITS = ("ct_state", "ct_status", "tcp_flag")
# Of these types a value is often met.
FEW_VALUES = ("ct_state", "ct_status", "iface_index")

# Where addresses and ports are drawn from few: the last numbers of the addresses of hosts and of those that NAT gives
# to sources, of which the last is nobody's; and ports of both classes and parities.
HOSTS = (2, 3, 11, 26, 34)
EXTERNAL = (17, 17, 9, 41, 30)
PORTS = (0, 2, 3, 4, 22, 1023, 1024, 65_535)
# The NAT statements that chains of a hook may have.
NAT_WORDS: dict[str, Kinds] = {
    "prerouting": ("dnat", "dnat", "dnat", "redirect"),
    "postrouting": ("snat", "snat", "masquerade"),
    "output": ("dnat", "redirect"),
}

# How many consecutive rules are drawn alike, and how many chains a table has without a hook.
MOST_RULES = 60
CHAINS = 4
# What a chain may cost, so that all base chains together cost less than a ruleset may.
MOST_COST = 8_000
ZERO = Span(0, 0)


@dataclass(frozen=True)
class WrittenPart:
    """A value, a range or a name, as it is written."""

    part: Part
    text: str


@dataclass(frozen=True)
class Set:
    """The elements of a set, and how it is written where it is asked for."""

    elements: Sequence[Element]
    text: str


@dataclass(frozen=True)
class Map:
    """The pairs of a map, and how it is written where it is asked for."""

    pairs: Sequence[Pair]
    text: str


@dataclass(frozen=True)
class WrittenData:
    """What an element of a map leads to, as it is written."""

    data: Union[int, Verdict]
    text: str


@dataclass(frozen=True)
class Bits:
    """A list of bits: their sum, and its members as they are written."""

    bits: int
    members: list[str]


@dataclass(frozen=True)
class Base:
    """The hook and the type of a base chain."""

    hook: str
    kind: str


@dataclass(frozen=True)
class WrittenChain:
    """A chain with the line that makes it a base chain, if it is one."""

    chain: Chain
    head: str = ""


@dataclass(frozen=True)
class Declared:
    """A set or a map that a table declares: what its line begins with, its lines, and the texts of its elements."""

    head: str
    lines: Sequence[str]
    texts: Sequence[str]

    @property
    def text(self) -> str:
        return block(self.head, self.lines)

    def with_texts(self, texts: Sequence[str]) -> Declared:
        """With other elements."""
        lines = [line for line in self.lines if not line.startswith("elements ")]
        return Declared(self.head, [*lines, *([elements_line(texts)] if texts else [])], texts)


@dataclass(frozen=True)
class WrittenTable:
    """A table: its chains and what it declares, in the order of its text."""

    family: str
    name: str
    chains: Sequence[WrittenChain]
    declared: Sequence[Declared]

    @property
    def table(self) -> Table:
        return Table(self.family, self.name, [one.chain for one in self.chains])

    @property
    def text(self) -> str:
        texts = [*map(chain_text, self.chains), *(one.text for one in self.declared)]
        return "\n".join([f"table {self.family} {self.name} {{", *texts, "}\n"])


def dotted(address: int) -> str:
    return ".".join(str(address >> shift & 255) for shift in (24, 16, 8, 0))


def priority_of(text: str) -> int:
    """The number of a priority."""
    name, *rest = text.split(" ")
    base = PRIORITIES[name] if name in PRIORITIES else int(name)
    return base + int("".join(rest) or "0")


class Drawing:
    """Draws by chance."""

    def __init__(self, dice: random.Random, has_few: bool) -> None:
        self.dice = dice
        # Whether addresses and ports are drawn from few, so that those that are translated come together.
        self.has_few = has_few
        # Whether matches are drawn of which few hold, so that packets come to the end of long chains.
        self.is_sparse = False

    def below(self, number: int) -> int:
        # (randrange() takes three times as long.)
        return int(self.dice.random() * number)

    def chance(self, percent: int) -> bool:
        return self.below(100) < percent

    def one(self, *choices: T) -> T:
        return choices[self.below(len(choices))]

    # ---- values

    def address(self) -> int:
        """An address of a host, or of the box."""
        return FIRST + (self.one(*HOSTS) if self.has_few and self.chance(90) else self.below(48))

    def port(self) -> int:
        return self.one(*PORTS) if self.has_few else self.below(48) if self.chance(95) else 65_535

    def number(self, kind: str) -> int:
        """A number of a type without words alone, from few or, seldom, at the greatest."""
        most = GREATEST[kind]
        if self.chance(5):
            return most - (self.below(3) if most > 65_535 else 0)
        if kind == "ipv4_addr":
            return self.address()
        if kind == "inet_service" and self.has_few:
            return self.port()
        if kind in ("ip length", "meta length"):
            return 20 + self.below(48)
        if kind == "tcp_flag":
            return self.below(256) if self.is_sparse else self.flags()
        words = list(WORDS.get(kind, {}).values())
        return self.below(48) if not words or self.chance(80 if self.is_sparse else 40) else self.one(*words)

    def flags(self) -> int:
        return self.one(2, 2, 16, 18, 17, 4, 4, 24, self.below(64), self.below(256))

    def text(self, kind: str, number: int) -> str:
        """How the number may be written."""
        words = [word for word, value in WORDS.get(kind, {}).items() if value == number]
        if kind == "ipv4_addr":
            return dotted(number)
        if words and (kind in ("ct_state", "ct_status") or self.chance(60)):
            return words[0]
        return hex(number) if self.chance(10) else str(number)

    def value(self, kind: str) -> WrittenPart:
        """A value."""
        if kind == "ifname":
            return self.interface_name()
        if kind in ("ct_state", "ct_status", "iface_index"):
            number = self.one(*WORDS[kind].values())
        else:
            number = self.number(kind)
        return WrittenPart(Span(number, number), self.text(kind, number))

    def interface_name(self) -> WrittenPart:
        name = f"x{self.below(30)}" if self.chance(80 if self.is_sparse else 0) else self.one(*NAMES)
        if self.chance(25):
            beginning = name[:1 + self.below(len(name))]
            return WrittenPart(Name(beginning, True), f'"{beginning}*"')
        return WrittenPart(Name(name, False), f'"{name}"' if self.chance(70) else name)

    def part(self, kind: str) -> WrittenPart:
        """A value, a range or a prefix."""
        if kind not in RANGED or self.chance(85 if self.is_sparse else 45):
            return self.value(kind)
        low = self.number(kind)
        if kind == "ipv4_addr" and self.chance(30):
            length = self.one(24, 27, 28, 29, 30, 31, 32, 0 if self.chance(5) else 29)
            first = low >> 32 - length << 32 - length
            return WrittenPart(Span(first, first + 2 ** (32 - length) - 1), f"{dotted(low)}/{length}")
        high = min(GREATEST[kind], low + (self.below(2**32) if self.chance(3) else self.below(9)))
        texts = [dotted(it) if kind == "ipv4_addr" else str(it) for it in (low, high)]
        return WrittenPart(Span(low, high), "-".join(texts))

    def element(self, kinds: Kinds) -> list[WrittenPart]:
        """An element of a set: a part for each type, of a concatenation a value each."""
        if len(kinds) == 1:
            return [self.part(kinds[0])]
        # A packet's mark is 0 at first.
        zero = WrittenPart(ZERO, "0")
        return [zero if kind == "mark" and self.chance(60) else self.value(kind) for kind in kinds]

    def elements(self, kinds: Kinds, least: int = 1) -> list[list[WrittenPart]]:
        """The elements of a set."""
        return [self.element(kinds) for _ in range(least + self.below(5))]


def parts(element: Sequence[WrittenPart]) -> Element:
    return tuple(one.part for one in element)


def written(element: Sequence[WrittenPart]) -> str:
    """The text of an element."""
    return " . ".join(one.text for one in element)


class Style:
    """How consecutive rules are drawn: the selectors that they begin with, what most of them are, the mask of those
    that ask for flags, and the percentage of rules of one match and a verdict, which are merged."""

    def __init__(self, drawing: TableDrawing) -> None:
        drawing.is_sparse = drawing.chance(65)
        self.selectors = [drawing.selector() for _ in range(1 if drawing.chance(40) else 2 + drawing.below(6))]
        self.kind = drawing.one("plain", "plain", "plain", "plain", "wide", "masked", "maps")
        self.mask = drawing.one(3, 0x17, 0x3F, 0xFF)
        self.plain = drawing.one(0, 60, 99)


class TableDrawing(Drawing):
    """Draws a table."""

    def __init__(self, dice: random.Random, name: str, is_translating: bool) -> None:
        super().__init__(dice, is_translating)
        self.name, self.is_translating = name, is_translating
        self.most_rules = self.one(8, 16, MOST_RULES) if is_translating else MOST_RULES
        # Of chains that may translate, the words for that.
        self.words: dict[str, Kinds] = {}
        self.sets: dict[Kinds, list[Set]] = {}
        self.maps: dict[tuple[str, Kinds], list[Map]] = {}
        self.declared: list[Declared] = []
        # What the chains without a hook cost, by their names: the last is drawn first, and jumps lead to later ones.
        self.costs: dict[str, int] = {}

    # ---- sets and maps

    def declare(self, name: str, kinds: Kinds, data: str | None, texts: Sequence[str]) -> None:
        """Declares a set, or a map where it has data, by the names of types or by selectors."""
        is_named = all(kind not in KINDS for kind in kinds)
        if is_named and self.chance(70):
            head = "type " + " . ".join(kinds) + (f" : {data}" if data else "")
        else:
            selectors = [self.one(*(it for it, of in KINDS.items() if of == kind)) for kind in kinds]
            data = {"mark": "meta mark", "ipv4_addr": "ip saddr"}.get(data, data) if data else None
            head = "typeof " + " . ".join(selectors) + (f" : {data}" if data else "")
        lines = [head]
        if any("-" in text or "/" in text for text in texts) and self.chance(50):
            lines.append("flags interval")
        if texts:
            lines.append(elements_line(texts, self.one("", ",")))
        self.dice.shuffle(lines)
        self.declared.append(Declared(f"{'map' if data else 'set'} {name}", lines, texts))

    def named_set(self, kinds: Kinds) -> Set:
        """A set of these types, which other rules may ask for."""
        known = self.sets.setdefault(kinds, [])
        if len(known) < 4:
            name = f"s{sum(map(len, self.sets.values()))}"
            elements = self.elements(kinds, least=0)
            self.declare(name, kinds, None, [written(one) for one in elements])
            known.append(Set([parts(one) for one in elements], f"@{name}"))
        return self.one(*known)

    def pairs(self, kind: str, data: Callable[[], WrittenData]) -> list[Pair]:
        """Elements of a map of which no two share a number, each with what `data` draws."""
        pairs: list[Pair] = []
        for (key,) in self.elements((kind,), least=8):
            if not any(shares(key.part, other.element[0]) for other in pairs):
                value = data()
                pairs.append(Pair((key.part,), value.data, f"{key.text} : {value.text}"))
        return pairs

    def lookup(self, word: str, data: Callable[[], WrittenData], key: Kinds) -> tuple[Lookup, str]:
        """A selector looked up in a map of such data, and the map's text. Rules whose data have one key share maps."""
        selector = self.one(*KINDS)
        kind = KINDS[selector]
        if self.chance(50):
            pairs = self.pairs(kind, data)
            return Lookup(selector, pairs), "{ " + ", ".join(one.text for one in pairs) + " }"
        known = self.maps.setdefault((kind, key), [])
        if len(known) < 2:
            name = f"m{sum(map(len, self.maps.values()))}"
            pairs = self.pairs(kind, data)
            self.declare(name, (kind,), word, [one.text for one in pairs])
            known.append(Map(pairs, f"@{name}"))
        found = self.one(*known)
        return Lookup(selector, found.pairs), found.text

    # ---- matches

    def selector(self) -> str:
        """A selector. Marks are frequent, since rules write what later rules match, and so is what translations do."""
        if self.chance(30):
            return self.one("meta mark", "ct mark")
        if self.is_translating and self.chance(16):
            return "ct status"
        selector = self.one(*KINDS)
        # Few matches hold.
        return self.selector() if self.is_sparse and KINDS[selector] in FEW_VALUES and self.chance(70) else selector

    def bits(self, kind: str, operator: str = "") -> Bits:
        """A list of words or numbers of bits, of which `==` mostly has one."""
        words = list(WORDS[kind])
        members = self.dice.sample(words, self.one(1, 1, 1, 2) if operator == "==" else self.one(1, 1, 2, 2, 3))
        bits = sum(WORDS[kind][word] for word in members)
        if kind == "tcp_flag" and self.chance(20):
            number = self.flags()
            members, bits = [*members, str(number)], bits | number
        return Bits(bits, members)

    def plain(self, selector: str, operator: str | None = None) -> Match:
        """A match of one selector with a value, a range or a list of bits."""
        kind = KINDS[selector]
        if kind in BITS:
            operator = self.one("", "", "==") if kind == "tcp_flag" else self.one("", "", "==", "!=")
            drawn = self.bits(kind, operator)
            text = f"{selector} {operator} {','.join(drawn.members)}".replace("  ", " ")
            return Match((selector,), operator, HasBits(operator, drawn.bits), text)
        if operator is None:
            is_ordered = kind in ORDERED and self.chance(4 if self.is_sparse else 25)
            operator = self.one("<", "<=", ">", ">=") if is_ordered else self.one("", "", "", "==")
        value = self.value(kind) if operator and operator[0] in "<>" else self.part(kind)
        shown = f"meta {selector}" if kind in ("ifname", "iface_index") and self.chance(20) else selector
        text = f"{shown} {operator} {value.text}".replace("  ", " ")
        return Match((selector,), operator, IsPart(operator, value.part), text)

    def in_set(self, selectors: Kinds, operator: str, is_named: bool) -> Match:
        """A match in a set."""
        kinds = tuple(KINDS[selector] for selector in selectors)
        found = self.named_set(kinds) if is_named else self.anonymous_set(kinds)
        kind = ("named" if is_named else "anonymous") + (" concatenation" if len(selectors) > 1 else "")
        shown = f"{' . '.join(selectors)} {operator} {found.text}".replace("  ", " ")
        return Match(selectors, operator, IsIn(operator, found.elements, kind), shown)

    def anonymous_set(self, kinds: Kinds) -> Set:
        elements = self.elements(kinds)
        return Set([parts(one) for one in elements], "{ " + ", ".join(map(written, elements)) + " }")

    def masked(self, mask: int | None = None) -> Match:
        """A match of flags under a mask, in one of its two forms."""
        mask_text = hex(mask) if mask else ""
        if mask is None:
            drawn = self.bits("tcp_flag")
            mask, mask_text = drawn.bits, "|".join(drawn.members)
        bits = self.number("tcp_flag") & mask
        words = [word for word, bit in WORDS["tcp_flag"].items() if bits & bit]
        text = "|".join(words) if words and self.chance(60) else str(bits)
        operator = "!=" if self.chance(1 if self.is_sparse else 25) else "=="
        if self.chance(30):
            shown = "" if operator == "==" and self.chance(50) else f" {operator}"
            whole = f"tcp flags{shown} {text} / {mask_text}".replace("|", ",")
        else:
            mask_text, text = (f"({it})" if "|" in it or self.chance(20) else it for it in (mask_text, text))
            whole = f"tcp flags & {mask_text} {operator} {text}"
        return Match(("tcp flags",), operator, HasOfMask(operator, mask, bits), whole)

    def joined(self, selector: str) -> Kinds:
        """The selector and others with it, in a concatenation of at most 128 bits."""
        if KINDS[selector] == "ifname":
            selector = "iif"
        return (selector, "meta mark", "ip protocol") if self.chance(20) else (selector, "meta mark")

    def first(self, selector: str) -> Match:
        """The match that a rule begins with: mostly one of its own values, else one that other rules share."""
        drawn = self.below(92 if self.is_sparse else 100)
        if drawn < 58:
            return self.plain(selector)
        if drawn < 72:
            return self.in_set((selector,), "", is_named=True)
        if drawn < 80:
            return self.in_set((selector,), self.one("", "=="), is_named=False)
        if drawn < 90:
            return self.in_set(self.joined(selector), "" if self.is_sparse else self.one("", "", "!="), self.chance(50))
        if drawn < 93:
            return self.in_set((selector,), "!=", self.chance(60))
        if drawn < 97 and KINDS[selector] not in BITS:
            return self.plain(selector, "!=")
        return self.masked()

    def wide(self, selector: str) -> Match:
        """A match on more than 32 bits: an interface's name, or a concatenation in a set of its own."""
        drawn = self.below(10)
        if drawn < 5:
            return self.plain(self.one("iifname", "iifname", "oifname"), "")
        if drawn < 6:
            return self.in_set(("iifname",), "", self.chance(50))
        return self.in_set(self.joined(selector), "" if drawn < 9 or self.is_sparse else "!=", is_named=False)

    # ---- statements

    def verdict(self, later: Sequence[str], most: int) -> Verdict:
        """A verdict. Jumps lead to one of those later chains, and not to one that costs more."""
        word = self.one(Word.ACCEPT, Word.DROP, Word.RETURN, Word.JUMP, Word.JUMP, Word.GOTO, Word.CONTINUE,
                        Word.CONTINUE)
        if word in (Word.JUMP, Word.GOTO):
            reachable = [name for name in later if self.costs[name] <= most]
            return Verdict(word, self.one(*reachable)) if reachable else Verdict(Word.CONTINUE)
        return Verdict(word)

    def last_verdict(self, later: Sequence[str]) -> Verdict:
        """A verdict of a rule that may be merged with its neighbours."""
        word = self.one(Word.ACCEPT, Word.ACCEPT, Word.DROP, Word.GOTO, Word.RETURN, Word.RETURN)
        if word is Word.GOTO:
            return Verdict(word, later[0]) if later else Verdict(Word.RETURN)
        return Verdict(word)

    def set_mark(self) -> SetMark:
        field = self.one("meta mark", "ct mark")
        drawn = self.below(10)
        if drawn < 5:
            number = self.number("mark")
            return SetMark(field, number, f"{field} set {self.text('mark', number)}")
        if drawn < 7:
            operand = self.one("meta mark", "ct mark")
            return SetMark(field, operand, f"{field} set {operand}")
        lookup, text = self.lookup("mark", self.marked, ("mark",))
        return SetMark(field, lookup, f"{field} set {lookup.selector} map {text}")

    def marked(self) -> WrittenData:
        """A mark."""
        number = self.number("mark")
        return WrittenData(number, str(number))

    def counter(self) -> Counter:
        if self.chance(80):
            return Counter(0, 0, "counter")
        packets, octets = self.below(1000), self.below(2**40)
        return Counter(packets, octets, f"counter packets {packets} bytes {octets}")

    def log(self) -> Log:
        prefix = self.one(None, "a", "", "two words: ")
        return Log(prefix, "log" if prefix is None else f'log prefix "{prefix}"')

    def rest(self, chain: str, later: Sequence[str]) -> list[Statement]:
        """The statements behind a rule's first match, up to a verdict."""
        statements: list[Statement] = []
        for _ in range(3):
            drawn = self.below(20)
            if drawn < 2:
                statements.append(self.counter())
            elif drawn < 4:
                statements.append(self.log())
            elif drawn < 8:
                statements.append(self.set_mark())
            elif drawn < 10:
                statements.append(self.plain(self.selector()))
            elif drawn < 11:
                statements.append(Notrack())
            elif drawn < 13:
                return [*statements, self.verdict(later, MOST_COST - self.costs[chain])]
            elif drawn < 16:
                return [*statements, self.verdict_map(chain, later)]
        return statements

    def verdict_map(self, chain: str, later: Sequence[str]) -> VerdictMap:
        """A map of verdicts. One that rules share leads to the last chain at most."""
        most = MOST_COST - self.costs[chain]
        reachable = [name for name in later[-1:] if self.costs[name] <= most]

        def data() -> WrittenData:
            verdict = self.verdict(reachable, most)
            return WrittenData(verdict, verdict.text)

        lookup, text = self.lookup("verdict", data, ("verdict", *reachable))
        return VerdictMap(lookup, f"{lookup.selector} vmap {text}")

    # ---- NAT statements

    def translating(self, first: Match, words: Kinds) -> list[Statement]:
        """The statements of a rule that ends with one of these NAT statements. Often the first is a match that holds
        for some packets, in place of that one."""
        is_source = "snat" in words
        if self.chance(70):
            interface = "oif" if is_source else "iif"
            fields = ("ip saddr", "ip daddr", "th sport", "th dport", "ip protocol")
            first = self.plain(self.one(*fields, *[interface] * 3))
        statements: list[Statement] = [first] if self.chance(94 if is_source else 99) else []
        if self.chance(30):
            draws: tuple[Callable[[], Statement], ...] = (self.counter, self.log, self.set_mark)
            statements.append(self.one(*draws)())
        return [*statements, self.translate(words)]

    def translate(self, words: Kinds) -> Translate:
        """One of these NAT statements."""
        word = self.one(*words)
        ports = self.ports(word) if self.chance(50) else None
        # One port is written alone.
        port_text = ""
        if ports:
            port_text = f":{ports.low}" if ports.low == ports.high else f":{ports.low}-{ports.high}"
        if word in ("redirect", "masquerade"):
            return Translate(word, None, ports, f"{word} to {port_text}" if ports else word)
        head = word + self.one(" to", " ip to")
        if self.chance(25):
            lookup, text = self.lookup("ipv4_addr", lambda: self.end(word), (word,))
            return Translate(word, lookup, None, f"{head} {lookup.selector} map {text}")
        address = self.end_address(word)
        return Translate(word, address, ports, f"{head} {dotted(address)}{port_text}")

    def ports(self, word: str) -> Ports:
        """A port, or a range of few for a source."""
        low = self.port() or 1
        return Ports(low, min(65_535, low + self.below(4)) if word in ("snat", "masquerade") else low)

    def end_address(self, word: str) -> int:
        """An address that `snat` or `dnat` may lead to."""
        return FIRST + self.one(*(EXTERNAL if word == "snat" else HOSTS * 2 + EXTERNAL))

    def end(self, word: str) -> WrittenData:
        """The same, in a map."""
        address = self.end_address(word)
        return WrittenData(address, dotted(address))

    # ---- chains

    def cost(self, statement: Statement) -> int:
        """What a statement adds to its chain's cost (docs/CHECK.md, N06)."""
        verdicts: list[object] = [statement]
        if isinstance(statement, VerdictMap):
            verdicts = [pair.data for pair in statement.lookup.pairs]
        chains = [one.chain for one in verdicts if isinstance(one, Verdict) and one.chain]
        return 1 + max((self.costs[chain] for chain in chains), default=0)

    def stretch(self, chain: str, later: Sequence[str]) -> Iterator[Rule]:
        """Consecutive rules of a chain, as long as it may cost more."""
        style = Style(self)
        for _ in range(self.below(self.most_rules)):
            statements = self.statements(style, chain, later)
            cost = self.costs[chain] + sum(map(self.cost, statements))
            if cost <= MOST_COST:
                self.costs[chain] = cost
                yield Rule(statements)

    def statements(self, style: Style, chain: str, later: Sequence[str]) -> list[Statement]:
        """The statements of a rule."""
        first = self.styled(style)
        if chain in self.words and self.chance(20 if "dnat" in self.words[chain] else 40):
            return self.translating(first, self.words[chain])
        rest: list[Statement]
        if style.kind == "maps" and self.chance(40):
            rest = [self.verdict_map(chain, later)]
        elif self.chance(style.plain):
            rest = [self.last_verdict(later)]
        else:
            rest = self.rest(chain, later)
        is_matching = self.chance(50 if style.kind == "maps" else 99)
        return [first, *rest] if is_matching or not rest else rest

    def styled(self, style: Style) -> Match:
        """The match that a rule begins with."""
        selector = self.one(*style.selectors) if self.chance(99) else self.selector()
        if style.kind == "wide" and self.chance(98):
            return self.wide(selector)
        if style.kind == "masked" and self.chance(90):
            return self.masked(style.mask)
        return self.first(selector)

    def rules(self, chain: str, later: Sequence[str]) -> list[Rule]:
        self.costs[chain] = 0
        return [rule for _ in range(self.one(1, 2, 2, 3)) for rule in self.stretch(chain, later)]

    def base(self) -> Base:
        """The hook and the type of a base chain."""
        hook = self.one(*HOOKS)
        return Base(hook, "nat" if hook in NAT_WORDS and self.chance(20) else "filter")

    def base_chain(self, number: int, later: Sequence[str], base: Base) -> WrittenChain:
        """A base chain."""
        self.is_sparse = False
        name, hook, kind = f"b{number}", base.hook, base.kind
        fitting = [it for it in PRIORITIES_DRAWN.get(hook, OTHERS) if kind == "filter" or priority_of(it) > -200]
        priority = self.one(*fitting)
        policy = self.one(None, Word.ACCEPT, Word.ACCEPT, Word.ACCEPT, Word.DROP)
        policy = None if self.is_translating and self.chance(90) else policy
        if self.is_translating and kind == "nat":
            self.words[name] = NAT_WORDS[hook]
            later = [f"{hook}-nat", *later] if f"{hook}-nat" in self.words else later
        chain = Chain(name, self.rules(name, later), Head(hook, kind, priority_of(priority), policy))
        text = f"type {kind} hook {hook} priority {priority};" + (f" policy {policy.value};" if policy else "")
        return WrittenChain(chain, text)

    def called(self, hook: str, later: Sequence[str]) -> WrittenChain:
        """A chain that chains of type nat on a hook may call, which translates."""
        name = f"{hook}-nat"
        self.words[name] = NAT_WORDS[hook]
        return WrittenChain(Chain(name, self.rules(name, later)))

    def drawn(self) -> WrittenTable:
        """The table."""
        later: list[str] = []
        drawn: list[WrittenChain] = []
        for number in range(self.one(2, CHAINS), 0, -1):
            drawn.append(WrittenChain(Chain(f"c{number}", self.rules(f"c{number}", later))))
            later.insert(0, f"c{number}")
        bases: list[Base | None] = []
        if self.is_translating:
            drawn += [self.called(hook, later) for hook in NAT_WORDS if hook != "output"]
            bases += [Base(hook, "nat") for hook, percent in zip(NAT_WORDS, (40, 90, 5)) if self.chance(percent)]
        bases += [None] * (2 + self.below(3) - len(bases))
        drawn += [self.base_chain(number, later, base or self.base()) for number, base in enumerate(bases, 1)]
        self.dice.shuffle(drawn)
        return WrittenTable(self.one("ip", "inet"), self.name, drawn, self.declared)


def chain_text(one: WrittenChain) -> str:
    lines = [one.head] if one.head else []
    lines += [" ".join(statement.text for statement in rule.statements) for rule in one.chain.rules]
    return block(f"chain {one.chain.name}", lines)


def elements_line(texts: Sequence[str], end: str = "") -> str:
    return "elements = { " + ", ".join(texts) + end + " }"


def block(head: str, lines: Sequence[str]) -> str:
    """A chain, a set or a map of these lines."""
    return "\n".join([f" {head} {{", *(f"  {line}" for line in lines), " }"])
