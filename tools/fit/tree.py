"""What a ruleset is made of, once it is read: values, expressions, statements, rules, chains, sets and tables."""
from __future__ import annotations

from dataclasses import dataclass, fields, is_dataclass
from typing import TYPE_CHECKING, Iterator, Sequence, Union

from toolbox.lexer import Kind, Token

if TYPE_CHECKING:
    from .grades import Grade

# Values


@dataclass(frozen=True)
class Value:
    """A value as it is spelled; `kind` is that of its token."""

    kind: Kind
    text: str


@dataclass(frozen=True)
class One:
    """A value alone."""

    value: Value


@dataclass(frozen=True)
class Range:
    """All values from one to another."""

    low: Value
    high: Value


@dataclass(frozen=True)
class Prefix:
    """All values whose first bits, `length` of them, are those of one."""

    value: Value
    length: int


@dataclass(frozen=True)
class Anything:
    """The catch-all element `*`."""


# Expressions


@dataclass(frozen=True)
class Selector:
    """What a match reads of a packet, as `ip saddr`."""

    name: str


@dataclass(frozen=True)
class Joined:
    """`a . b`"""

    parts: tuple[Expression, ...]


@dataclass(frozen=True)
class Calculation:
    """`a & b`"""

    operator: str
    left: Expression
    right: Expression


@dataclass(frozen=True)
class Drawn:
    """numgen, jhash and symhash: a number from `offset` on, below it and `modulus`; `over` is what is hashed."""

    kind: str
    modulus: int
    offset: int
    over: Expression | None


@dataclass(frozen=True)
class Listed:
    """`a,b`"""

    items: tuple[Expression, ...]


@dataclass(frozen=True)
class Masked:
    """`a / b`"""

    value: Expression
    mask: Expression


@dataclass(frozen=True)
class Named:
    """`@name`"""

    name: str


@dataclass(frozen=True)
class Lookup:
    """`key map ..`"""

    key: Expression
    map: Mapping


@dataclass(frozen=True)
class Verdict:
    """`target` is a chain's name, or the rules of a chain in braces, each as its tokens."""

    word: str
    target: str | tuple[tuple[Token, ...], ...] | None


@dataclass(frozen=True)
class Element:
    """An element of a set or a map; `data` is None in a set, and `extras` are the words behind it."""

    key: tuple[Part, ...]
    data: Verdict | tuple[Part, ...] | None
    extras: tuple[str, ...]

    @property
    def verdict(self) -> Verdict:
        """What a map of verdicts gives."""
        if not isinstance(self.data, Verdict):
            raise NotFitted("a verdict where a value is wanted, or the reverse")
        return self.data

    @property
    def values(self) -> tuple[Part, ...]:
        """What another map gives."""
        if not isinstance(self.data, tuple):
            raise NotFitted("a verdict where a value is wanted, or the reverse")
        return self.data


@dataclass(frozen=True)
class Elements:
    """`{ .. }`"""

    items: tuple[Element, ...]


Part = Union[One, Range, Prefix, Anything]
Mapping = Union[Named, Elements]
Expression = Union[Part, Selector, Joined, Calculation, Drawn, Listed, Masked, Named, Lookup, Elements]


# Statements


@dataclass(frozen=True)
class Match:
    left: Expression
    operator: str
    right: Expression


@dataclass(frozen=True)
class VerdictMap:
    """`left vmap ..`"""

    left: Expression
    map: Mapping


@dataclass(frozen=True)
class Setting:
    """`left set operand`"""

    left: Selector
    operand: Expression


@dataclass(frozen=True)
class Counter:
    """A counter of the rule's own, with where it starts."""

    packets: int
    size: int


@dataclass(frozen=True)
class ObjectUse:
    """A named object of the kind `what`, or a map that gives one."""

    what: str
    named: str | Expression


@dataclass(frozen=True)
class Log:
    """The options of `log` by their names, each as its words."""

    options: tuple[tuple[str, tuple[str, ...]], ...]


@dataclass(frozen=True)
class Bound:
    """What a limit, a quota or a number of connections bounds; `over` is None where a named object tells."""

    kind: str
    over: bool | None
    name: str | None


@dataclass(frozen=True)
class ChangeOfSet:
    """`add @name { key limit .. : data }`, and `meter name size .. { key limit .. }`"""

    word: str
    name: str
    key: Expression
    data: Expression | None
    bounds: tuple[Bound, ...]
    size: int | None = None  # of the set that a meter makes


@dataclass(frozen=True)
class Reject:
    words: tuple[str, ...]


@dataclass(frozen=True)
class Queue:
    pass


@dataclass(frozen=True)
class Untracked:
    """`notrack`"""


@dataclass(frozen=True)
class Offload:
    pass


@dataclass(frozen=True)
class LeftOut:
    """A statement that isn't needed: how much that matters, and why; its operands are tested all the same."""

    grade: Grade
    why: str
    operands: tuple[Expression, ...] = ()


@dataclass(frozen=True)
class Translation:
    """snat, dnat, masquerade or redirect."""

    kind: str
    family: str
    address: Expression | None
    ports: Expression | None
    flags: tuple[str, ...]
    prefix: bool


What = Union[Match, VerdictMap, Setting, Verdict, Counter, ObjectUse, Log, Bound, ChangeOfSet, Reject, Queue, Untracked,
             Offload, LeftOut, Translation]


@dataclass(frozen=True)
class Statement:
    """What a statement says, and its tokens."""

    tokens: tuple[Token, ...]
    what: What


@dataclass(frozen=True)
class Piece:
    """A part of a fitted rule. `kind` is match, effect (it counts or tells), mark (it writes one) or end; `reads` the
    selectors that it depends on; `counter` which counter of the old rule it is, from 1."""

    text: str
    kind: str = "match"
    reads: tuple[str, ...] = ()
    counter: int = 0


@dataclass(frozen=True)
class Head:
    """What makes a chain a base chain; the priority as its words."""

    type: str
    hook: str
    priority: tuple[str, ...]


class NotFitted(Exception):
    """A part that isn't understood, or that the language of nftrun can't say; the text says why."""


class Missing(NotFitted):
    """A name that stands for nothing."""


class Rule:
    """A rule's tokens, and what they say once it was read. `text` is as the operator wrote it, `moment` the number of
    the command that made it."""

    def __init__(self, tokens: Sequence[Token], text: str, moment: int = 0) -> None:
        self.tokens, self.text, self.moment = tokens, text, moment
        self.statements: list[Statement] = []
        self.comment: str | None = None
        self.fault: str | None = None
        self.counters_before = 0  # of the operator's rule, where this was in braces within it

    @property
    def token(self) -> Token:
        return self.tokens[0]


class Chain:
    """A chain: `head` is None where others alone lead to it."""

    def __init__(self, name: str, token: Token) -> None:
        self.name, self.token = name, token
        self.head: Head | None = None
        self.policy: str | None = None
        self.notes: list[str] = []
        self.rules: list[Rule] = []
        self.hooks: set[str] = set()  # from which hooks packets come here
        self.is_early = False  # whether some come before connections are looked for
        self.is_late = False  # whether some come behind that
        self.moment = 0  # the number of the command that made it a base chain
        self.made_for: tuple[Chain, int] | None = None  # chain and number of the rule whose part it was

    @property
    def base(self) -> Head:
        """The head of a base chain, which has one."""
        if self.head is None:
            raise ValueError(f"{self.name} is no base chain")
        return self.head


class Set:
    """A set or a map; `types` and `data` are names of types, `typeof` tokens in place of them."""

    def __init__(self, name: str, token: Token, is_map: bool) -> None:
        self.name, self.token, self.is_map = name, token, is_map
        self.types: list[str] = []
        self.data: list[str] | None = None
        self.typeof: list[Token] | None = None
        self.flags: list[str] = []
        self.elements: list[Element] = []
        self.comment: str | None = None
        self.size: int | None = None
        self.timeout, self.merges, self.counts = False, False, False
        self.bounds: list[Bound] = []  # what each element is bounded by
        self.words: list[str] = []  # of its timeout and its bounds, as they stand
        self.slices: list[str] | None = []  # its fields as they stand, or None where these changed
        self.fault: tuple[Token, str] | None = None  # where its elements aren't understood, and why
        self.word = "map" if is_map else "set"


@dataclass(frozen=True)
class NamedObject:
    """A counter, limit, quota or the like that has a name; `body` is what its block says."""

    what: str
    token: Token
    body: tuple[Token, ...]


class Table:
    """A table with its chains, sets and named objects, each by its name."""

    def __init__(self, family: str, name: str, token: Token) -> None:
        self.family, self.name, self.token = family, name, token
        self.chains: dict[str, Chain] = {}
        self.sets: dict[str, Set] = {}
        self.objects: dict[str, NamedObject] = {}
        self.notes: list[str] = []
        self.is_dormant = False


def inner_parts(it: object) -> Iterator[object]:
    """What an expression or a statement is made of."""
    if isinstance(it, (tuple, list)):
        yield from it
    elif is_dataclass(it):
        for field in fields(it):
            yield getattr(it, field.name)


def selectors_in(it: object) -> Iterator[Selector]:
    """All selectors within an expression or its parts."""
    if isinstance(it, Selector):
        yield it
    else:
        for part in inner_parts(it):
            yield from selectors_in(part)


def names_in(it: object) -> Iterator[str]:
    """The names of all sets and maps within."""
    if isinstance(it, Named):
        yield it.name
    else:
        for part in inner_parts(it):
            yield from names_in(part)


def counters_in(tokens: Sequence[Token]) -> int:
    """How many counters a rule has, by its tokens."""
    return sum(it.kind is Kind.WORD and it.text == "counter" for it in tokens)
