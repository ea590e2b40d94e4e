"""The statements of a ruleset that ask rates or sets that rules add to: while it is fitted, each that can be replayed
becomes a match of marked records, `iifname @rate_N` or `iifname != @rate_N`."""
from __future__ import annotations

from dataclasses import dataclass
from typing import TYPE_CHECKING, Iterator, Mapping, Sequence, Union

from toolbox.lexer import Kind

from ..expressions import as_number
from ..grades import Grade
from ..scanner import place
from ..tree import (
    Bound,
    Chain,
    ChangeOfSet,
    Match,
    Named,
    NotFitted,
    Rule,
    Set,
    Statement,
    Table,
    Translation,
    names_in,
)
from .elements import USUAL_SIZE, Listed, SetTerms
from .keys import DESTINATIONS, SOURCES, KeyPart, key_parts, listed_key
from .terms import Asked, Count, Terms, asked_of, terms_of

if TYPE_CHECKING:
    from ..draft import Draft
    from ..fitter import Fitter

TIMED = {"timeout", "expires", "limit", "quota", "ct"}
REPLAYED = "replayed by the capture's clock, as told below"
OPERATORS = {"": False, "==": False, "!=": True, "!": True}  # whether they want what isn't in the set


@dataclass(frozen=True)
class SetName:
    """A set among those of all tables."""

    family: str
    table: str
    name: str


@dataclass(frozen=True)
class AskedBound:
    """A bound of a rule; `name` is that of the object which others share, or None."""

    terms: Terms
    name: SetName | None


@dataclass(frozen=True)
class Change:
    """`add`, `update` or `delete` of a set; `refreshes` is whether it sets the time of what is there anew."""

    found: SetName
    word: str
    refreshes: bool
    key: tuple[KeyPart, ...]
    timeout: int | None
    bounds: tuple[Terms, ...]


@dataclass(frozen=True)
class LookUp:
    """`KEY @set`, or with `is_not` `KEY != @set`."""

    found: SetName
    key: tuple[KeyPart, ...]
    is_not: bool


Ask = Union[AskedBound, Change, LookUp]
Subject = Union[SetName, "Spot"]


@dataclass(frozen=True)
class Spot:
    """Where a statement stands, to know it again: its file, line, and place in the text."""

    file: str
    line: int
    start: int


@dataclass(frozen=True)
class Probe:
    """A statement that is replayed. `usual` is whether the rule goes on for records that aren't marked; `match` is what
    stands for it in the fitted ruleset, and `family` and `table` where."""

    number: int
    place: str
    text: str
    ask: Ask
    usual: bool
    family: str
    table: str
    set_name: str
    subject: Subject

    @property
    def match(self) -> str:
        return f"iifname {'!= ' if self.usual else ''}@{self.set_name}"


class Again(Exception):
    """What can't be replayed after all: the ruleset is to be fitted again without it."""

    def __init__(self, subject: Subject) -> None:
        super().__init__()
        self.subject = subject


class Subjects:
    """Finds them, but for those of `without`: `probes`, and `sets` that are replayed. `indices` has the box's
    interfaces."""

    def __init__(self, indices: Mapping[str, int], without: frozenset[Subject] = frozenset()) -> None:
        self.indices, self.without = indices, without
        self.probes: list[Probe] = []
        self.sets: dict[SetName, SetTerms] = {}
        self.has_translation = self.has_untracked = False
        self.prefix = "rate_"

    def begin(self, fitter: Fitter) -> None:
        """Finds the sets that can be replayed; the fitter has read all rules."""
        names = {name for table in fitter.tables.values() for name in table.sets}
        while any(name.startswith(self.prefix) for name in names):
            self.prefix += "_"
        self.has_untracked = fitter.has_untracked
        self.has_translation = any(
            isinstance(it.what, Translation) for _, _, rule in fitter.rules() for it in rule.statements)
        for table in fitter.tables.values():
            added = {name for family, of, name in fitter.added_to if (family, of) == (table.family, table.name)}
            for it in sorted(added | {it.name for it in table.sets.values() if changes_by_itself(it)}):
                name = SetName(table.family, table.name, it)
                try:
                    if name not in self.without:
                        self.sets[name] = self.set_terms(fitter, table, name)
                except NotFitted:
                    continue  # it is guessed, and told so

    def set_terms(self, fitter: Fitter, table: Table, name: SetName) -> SetTerms:
        """What is known of a set; NotFitted where it, or a rule that names it, can't be replayed."""
        naming = [(chain, it) for other, chain, rule in fitter.rules() if other is table
                  for it in self.naming(rule, name)]
        keys = [self.key_asked(chain, it, name) for chain, it in naming]
        if not keys:
            raise NotFitted("a set that no rule names")
        found = table.sets.get(name.name)
        if found is None:
            return SetTerms(meter_size(naming[0][1]), None, ())
        if found.is_map or found.fault:
            raise NotFitted("a map")
        head = head_of(found)
        if self.has_untracked and any(isinstance(it, Count) for it in head.bounds):
            raise NotFitted("connections beside packets that pass untracked")
        return SetTerms(
            found.size or USUAL_SIZE, head.timeout, head.bounds,
            tuple(self.listed(found, head, keys[0], index) for index in range(len(found.elements))))

    def listed(self, found: Set, head: Asked, key: tuple[KeyPart, ...], index: int) -> Listed:
        element = found.elements[index]
        asked = asked_of(element.extras)
        expires = asked.timeout or head.timeout if asked.expires is None else asked.expires
        return Listed(listed_key(key, element, self.indices), expires, asked.bounds)

    @staticmethod
    def naming(rule: Rule, name: SetName) -> Iterator[Statement]:
        """The statements of a rule that name a set."""
        for it in rule.statements:
            if isinstance(it.what, ChangeOfSet) and it.what.name == name.name or name.name in names_in(it.what):
                yield it

    def key_asked(self, chain: Chain, it: Statement, name: SetName) -> tuple[KeyPart, ...]:
        """The key by which a statement asks a set."""
        what = it.what
        if isinstance(what, ChangeOfSet) and what.name == name.name and what.data is None:
            key = self.key_read(chain, key_parts(what.key))
            if any(isinstance(one, Count) for one in change_asked(it).bounds):
                self.check_tracked(chain)
            return key
        if isinstance(what, Match) and what.right == Named(name.name) and what.operator in OPERATORS:
            return self.key_read(chain, key_parts(what.left))
        raise NotFitted("another use of a set that rules add to")

    def key_read(self, chain: Chain, key: tuple[KeyPart, ...]) -> tuple[KeyPart, ...]:
        """A key of which the packet as it came tells the value here, whatever translation makes of it."""
        is_before = chain.hooks == {"prerouting"} and chain.is_early and not chain.is_late
        for part in key if self.has_translation and not is_before else ():
            if part.name in DESTINATIONS or part.name in SOURCES and "postrouting" in chain.hooks:
                raise NotFitted("what translation may have changed")
        return key

    def check_tracked(self, chain: Chain) -> None:
        if self.has_untracked or chain.is_early:
            raise NotFitted("connections where packets pass untracked")

    # while rules are fitted

    def fits(self, draft: Draft, it: Statement) -> bool:
        """Whether the statement was put as a match of marked records."""
        if draft.never_runs:
            return False
        try:
            ask = self.ask_of(draft, it)
        except NotFitted:
            return False
        if ask is None:
            return False
        if isinstance(it.what, ChangeOfSet):
            draft.keep_tests(it.what.key)
        elif isinstance(it.what, Match):
            draft.keep_tests(it.what.left)
        number = len(self.probes) + 1
        probe = Probe(
            number, place(draft.rule.token), draft.statement_line(), ask, usual_answer(ask), draft.table.family,
            draft.table.name, f"{self.prefix}{number}", spot_of(it) if isinstance(ask, AskedBound) else ask.found)
        self.probes.append(probe)
        draft.put(probe.match)
        draft.tell(Grade.OUTCOME, probe.match, REPLAYED)
        return True

    def ask_of(self, draft: Draft, it: Statement) -> Ask | None:
        """What a statement asks, or None where that isn't replayed."""
        what = it.what
        if isinstance(what, Bound):
            return self.bound(draft, it, what)
        if isinstance(what, ChangeOfSet):
            name = SetName(draft.table.family, draft.table.name, what.name)
            asked = change_asked(it)
            refreshes = what.word == "update" or it.tokens[0].text == "meter" and asked.timeout is not None
            key = key_parts(what.key)
            return Change(name, what.word, refreshes, key, asked.timeout, asked.bounds) if name in self.sets else None
        if isinstance(what, Match) and isinstance(what.right, Named):
            name = SetName(draft.table.family, draft.table.name, what.right.name)
            return LookUp(name, key_parts(what.left), OPERATORS[what.operator]) if name in self.sets else None
        return None

    def bound(self, draft: Draft, it: Statement, what: Bound) -> AskedBound | None:
        if spot_of(it) in self.without:
            return None
        name, terms = None, None
        if what.name is None:
            terms = terms_of([one.text for one in it.tokens])
        else:
            found = draft.table.objects.get(what.name)
            if found is None or found.what != what.kind:
                return None
            name = SetName(draft.table.family, draft.table.name, f"{what.kind} {what.name}")
            terms = terms_of([what.kind, *(one.text for one in found.body if one.kind is not Kind.NEWLINE)])
        if isinstance(terms, Count):
            self.check_tracked(draft.chain)
        return AskedBound(terms, name)

    def check_once(self, lines: Sequence[str]) -> None:
        """A statement that stands in several lines of its rule would be met by a packet more than once. The last
        probes are those of the rule at hand."""
        for it in reversed(self.probes):
            times = sum(f"{it.match} " in f"{line} " for line in lines)
            if not times:
                return
            if times > 1:
                raise Again(it.subject)

    # what stands in the fitted ruleset

    def replays(self, table: Table, name: str) -> bool:
        return SetName(table.family, table.name, name) in self.sets

    def lines(self, table: Table) -> list[str]:
        """The sets of marked records, empty so far."""
        return [line for it in self.probes if (it.family, it.table) == (table.family, table.name)
                for line in (f"\tset {it.set_name} {{", "\t\ttype ifname", "\t}", "")]


def usual_answer(ask: Ask) -> bool:
    """Whether a rule goes on where nothing is over, and nothing added."""
    if isinstance(ask, AskedBound):
        return not ask.terms.over
    return ask.is_not if isinstance(ask, LookUp) else not any(it.over for it in ask.bounds)


def spot_of(it: Statement) -> Spot:
    token = it.tokens[0]
    return Spot(token.source.name, token.line, token.start)


def change_asked(it: Statement) -> Asked:
    """What stands behind the key in what is added: within the braces, or in the older spelling before the name."""
    words = [one.text for one in it.tokens]
    return asked_of(words[words.index("{"):] if "{" in words else words[2:words.index("@")])


def changes_by_itself(found: Set) -> bool:
    """Whether what a set lists runs out, or is bounded."""
    return bool(found.elements and (found.words or any(set(it.extras) & TIMED for it in found.elements)))


def meter_size(it: Statement) -> int:
    """`meter NAME size SIZE { .. }`"""
    words = [one.text for one in it.tokens[:4]]
    return as_number(words[3]) if words[2:3] == ["size"] else USUAL_SIZE


def head_of(found: Set) -> Asked:
    """What the head of a set asks; its elements aside."""
    return asked_of(found.words)
