"""How packets come to a base chain: back from the facts that are wanted there, through the base chains before it that
have to let them pass, to the facts with which they come to the box.

What a chain lets pass is told by `nftrun reach --sets`: the facts that come to its end where its policy accepts, and
those that meet a rule that accepts. Marks that rules set and addresses that they translate are guessed at: a run shows
what became of them.
"""
from __future__ import annotations

import enum
from dataclasses import dataclass, replace
from functools import lru_cache
from itertools import product
from typing import Callable, Iterator, Protocol, Sequence, Tuple

from toolbox.boxes import NO_ROUTE_FROM, Box
from toolbox.lexer import Kind
from toolbox.number_sets import Numbers
from toolbox.rulesets import Chain, Rule, Ruleset
from toolbox.told_sets import (
    ANYTHING, CT_MARK, DESTINATION, DESTINATION_PORT, DIRECTION, DNAT, MARK, NEW, OUTPUT, SNAT, SOURCE, SOURCE_PORT,
    STATE, STATUS, TTL, Facts, Told, ToldSet)

DSTNAT, SRCNAT = -100, 100
MOST_STEPS = 20_000  # that one search back takes
MOST_OPTIONS = 60  # ways through one base chain that are tried


class Stage(enum.IntEnum):
    """Where base chains run, in the order in which a packet comes there (docs/SPEC.md, 5)."""

    RAW = 0
    BEFORE_NAT = 1
    DESTINATION_NAT = 2
    AFTER_NAT = 3
    INPUT = 4
    FORWARD = 5
    BEFORE_SOURCE_NAT = 6
    SOURCE_NAT = 7
    AFTER_SOURCE_NAT = 8


NAT_STAGES = (Stage.DESTINATION_NAT, Stage.SOURCE_NAT)
Order = Tuple[int, int, int]  # stage, priority, place in the text


class Effect(enum.Enum):
    """What rules do with packets, beside their verdicts."""

    SETS_MARK = "meta mark set"
    SETS_CT_MARK = "ct mark set"
    TRANSLATES_DESTINATION = "dnat"
    TRANSLATES_SOURCE = "snat"
    UNTRACKS = "notrack"


@dataclass(frozen=True)
class Ends:
    """The addresses and ports of a packet, as far as they are known, at one side of translation."""

    source: Facts = ANYTHING
    destination: Facts = ANYTHING


@dataclass(frozen=True)
class Known:
    """The ends with which a packet of a connection comes, and leaves."""

    came: Ends
    leaves: Ends

    def at(self, stage: int) -> Facts | None:
        """What rules of a stage read."""
        source = self.leaves.source if stage > Stage.SOURCE_NAT else self.came.source
        destination = self.leaves.destination if stage > Stage.DESTINATION_NAT else self.came.destination
        return source & destination


@dataclass(frozen=True)
class Wish:
    """The facts that are wanted at one place of a packet's path; what rules before have to do, and mustn't do."""

    facts: Facts
    state: int
    needs: frozenset[Effect] = frozenset()
    forbids: frozenset[Effect] = frozenset()
    known: Known | None = None


@dataclass(frozen=True)
class Option:
    """Facts that a base chain lets pass, and what it does with them."""

    facts: Facts
    effects: frozenset[Effect] = frozenset()
    aim: Numbers | None = None  # where a translation leads, if that is known


def stage_of(chain: Chain) -> Stage | None:
    """None of a chain that packets don't run through."""
    if chain.hook == "prerouting":
        if chain.type == "nat":
            return Stage.DESTINATION_NAT
        if chain.is_early:
            return Stage.RAW
        return Stage.BEFORE_NAT if chain.priority < DSTNAT else Stage.AFTER_NAT
    if chain.hook == "postrouting":
        if chain.type == "nat":
            return Stage.SOURCE_NAT
        return Stage.BEFORE_SOURCE_NAT if chain.priority < SRCNAT else Stage.AFTER_SOURCE_NAT
    if chain.type == "nat":
        return None
    return {"input": Stage.INPUT, "forward": Stage.FORWARD}.get(chain.hook or "")


def effects_of(rule: Rule) -> frozenset[Effect]:
    """What the rule may do."""
    words = rule.words
    found = {effect for effect in (Effect.SETS_MARK, Effect.SETS_CT_MARK)
             if effect.value in " ".join(token.text for token in rule.tokens)}
    found |= {Effect.UNTRACKS} if "notrack" in words else set()
    found |= {Effect.TRANSLATES_DESTINATION} if {"dnat", "redirect"} & set(words) else set()
    found |= {Effect.TRANSLATES_SOURCE} if {"snat", "masquerade"} & set(words) else set()
    return frozenset(found)


TRANSLATING = frozenset((Effect.TRANSLATES_DESTINATION, Effect.TRANSLATES_SOURCE))


def accepts(ruleset: Ruleset, rule: Rule) -> bool:
    """Whether the rule may accept, or translate."""
    tokens = [*rule.tokens, *(token for one in ruleset.sets_of(rule) for token in one.tokens)]
    return any(token.text == "accept" for token in tokens) or bool(effects_of(rule) & TRANSLATING)


def written_marks(ruleset: Ruleset, rule: Rule) -> Iterator[int]:
    """Numbers among which those are that the rule may write to marks; copies of marks are none of their own."""
    if effects_of(rule) & {Effect.SETS_MARK, Effect.SETS_CT_MARK}:
        for token in (*rule.tokens, *(token for one in ruleset.sets_of(rule) for token in one.tokens)):
            if token.kind is Kind.NUMBER:
                yield int(token.text, 0)


def aim_of(rule: Rule, box: Box) -> Numbers | None:
    """The address to which a rule translates destinations, or None where a map tells it."""
    words = [token.text for token in rule.tokens]
    if "redirect" in words:
        return Numbers.listed(int.from_bytes(address, "big") for address in box.addresses)
    for place, word in enumerate(words):
        if word == "to" and words[place + 1:place + 2] and words[place + 1].count(".") == 3:
            parts = [int(part) for part in words[place + 1].split(".")]
            return Numbers.listed([sum(part << shift for part, shift in zip(parts, (24, 16, 8, 0)))])
    return None


def some(told: ToldSet, base: str) -> Sequence[Facts]:
    """The lines of a set about packets that came to this base chain."""
    return told.lines.get(base, ())


def routed(box: Box) -> dict[int, Numbers]:
    """By the index of an interface the addresses that packets leave by it for; those of the box are among them."""
    left = Numbers.between(0, NO_ROUTE_FROM - 1)
    found: dict[int, Numbers] = {}
    for prefix, bits, name in sorted(box.routes, key=lambda route: -route[1]):
        covered = Numbers.between(prefix << 32 - bits, (prefix + 1 << 32 - bits) - 1) & left
        left = left - covered
        if name in box.indices:
            index = box.indices[name]
            found[index] = found.get(index, Numbers(())) | covered
    return found


class Network:
    """The ruleset with what is told of it, and the box."""

    def __init__(self, ruleset: Ruleset, told: Told, box: Box) -> None:
        self.ruleset, self.told, self.box = ruleset, told, box
        self.interfaces = Numbers.listed(box.names)
        self.own = Numbers.listed(int.from_bytes(address, "big") for address in box.addresses)
        self.routed = routed(box)
        chains = [(stage_of(chain), place, chain) for place, chain in enumerate(ruleset.chains)]
        self.bases: list[tuple[Order, Chain]] = sorted(
            (((int(stage), chain.priority, place), chain) for stage, place, chain in chains if stage is not None),
            key=lambda one: one[0])
        self.order = {chain.name: order for order, chain in self.bases}
        self.options = lru_cache(maxsize=None)(self.options_through)
        self.setting = lru_cache(maxsize=None)(self.options_setting)
        self.effects = frozenset(effect for rule in ruleset.rules for effect in effects_of(rule))
        self.marks = Numbers.listed({0, *(mark for rule in ruleset.rules for mark in written_marks(ruleset, rule))})

    def rules_behind(self, base: Chain) -> list[Rule]:
        """The rules that packets of a base chain may come to."""
        return [rule for chain in self.ruleset.behind(base).values() for rule in chain.rules]

    def options_through(self, base: Chain) -> tuple[Option, ...]:
        """The facts that the base chain lets pass."""
        found = [Option(facts) for facts in some(self.told.ends.get(base.name, ToldSet()), base.name)]
        found = found if base.policy != "drop" else []
        for rule in self.rules_behind(base):
            if accepts(self.ruleset, rule) and rule.place in self.told.rules:
                effects = effects_of(rule) & TRANSLATING
                found += [Option(facts, effects, aim_of(rule, self.box) if effects else None)
                          for facts in some(self.told.rules[rule.place].met, base.name)]
        return tuple(found)

    def options_setting(self, base: Chain, effect: Effect) -> tuple[Option, ...]:
        """The facts with which a rule of the base chain does this, and that it lets pass then."""
        through = self.options(base)
        found: list[Option] = []
        for rule in self.rules_behind(base):
            if effect not in effects_of(rule) or rule.place not in self.told.rules:
                continue
            for facts, option in product(some(self.told.rules[rule.place].met, base.name), through):
                common = facts & option.facts
                if common:
                    found.append(replace(option, facts=common, effects=option.effects | {effect}))
                if len(found) >= MOST_OPTIONS:
                    return tuple(found)
        return tuple(found)

    def is_closed(self, target: Order) -> bool:
        """Whether packets that come to a base chain come through another one before it that lets none pass."""
        skipped = Stage.INPUT if target[0] != Stage.INPUT else Stage.FORWARD
        return any(not self.options(chain) for order, chain in self.bases
                   if order < target and order[0] not in (skipped, *NAT_STAGES))

    def leaving_by(self, outputs: Numbers) -> Numbers:
        """The addresses that packets are forwarded to by these interfaces."""
        found = Numbers(())
        for index, addresses in self.routed.items():
            if index in outputs:
                found = found | addresses
        return found - self.own


# Steps back


class Step(Protocol):
    """A place of a packet's path."""

    def before(self, wish: Wish) -> Iterator[Wish]:
        """With which facts a packet comes there, so that it leaves as is wished."""


@dataclass(frozen=True)
class Routing:
    """Where it is decided whether a packet is forwarded."""

    network: Network
    forwards: bool

    def before(self, wish: Wish) -> Iterator[Wish]:
        facts: Facts | None = wish.facts
        network = self.network
        if self.forwards:
            targets = network.leaving_by(wish.facts.of(OUTPUT))
            times = (wish.facts.of(TTL) & Numbers.between(1, 254)).raised(1)
            facts = wish.facts.without(TTL).within(TTL, times) if times else None
        else:
            targets = network.own
        facts = facts and facts.without(OUTPUT).within(DESTINATION, targets)
        if facts:
            yield replace(wish, facts=facts)


@dataclass(frozen=True)
class Wanting:
    """Where facts are wanted."""

    facts: Facts

    def before(self, wish: Wish) -> Iterator[Wish]:
        both = wish.facts & self.facts
        if both:
            yield replace(wish, facts=both)


@dataclass(frozen=True)
class Passing:
    """A base chain that has to let a packet pass."""

    network: Network
    base: Chain
    stage: int

    def before(self, wish: Wish) -> Iterator[Wish]:
        if self.stage in NAT_STAGES and wish.state != NEW:
            yield from self.untranslated(wish)
            return
        if self.stage == Stage.RAW:
            wish = replace(wish, facts=wish.facts.without(STATE, DIRECTION))
        for effect in sorted(wish.needs - TRANSLATING, key=lambda one: one.value):
            for option in self.network.setting(self.base, effect):
                yield from self.by(option, wish)
        for option in self.network.options(self.base)[:MOST_OPTIONS * 5]:
            yield from self.by(option, wish)

    def untranslated(self, wish: Wish) -> Iterator[Wish]:
        """Chains of type nat see the first packet of a connection alone; others are translated as that was."""
        if wish.known:
            there = wish.known.at(self.stage)
            both = there and wish.facts.without(*there.fields) & there
            if both:
                yield replace(wish, facts=both)
        else:
            yield wish

    def by(self, option: Option, wish: Wish) -> Iterator[Wish]:
        """The wish before one of the ways through the chain."""
        facts = wish.facts
        if option.effects & wish.forbids:
            return
        if Effect.TRANSLATES_DESTINATION in option.effects:
            if option.aim and not option.aim & facts.of(DESTINATION):
                return
            facts = untranslated_by(facts.without(DESTINATION, DESTINATION_PORT), DNAT)
        if Effect.TRANSLATES_SOURCE in option.effects:
            facts = untranslated_by(facts.without(SOURCE, SOURCE_PORT), SNAT)
        if Effect.SETS_MARK in option.effects:
            facts = facts.without(MARK)
        if Effect.SETS_CT_MARK in option.effects:
            facts = facts.without(CT_MARK)
        both = facts & option.facts
        if both:
            yield replace(wish, facts=both, needs=wish.needs - option.effects)


def untranslated_by(facts: Facts, bit: int) -> Facts:
    """The facts before a translation gave the status its bit; none where it mustn't have that."""
    return Facts({**facts.fields, STATUS: Numbers.listed(one - bit for one in facts.of(STATUS) if one & bit)})


@dataclass
class Budget:
    """How many steps a search may still take."""

    left: int = MOST_STEPS


def back(steps: Sequence[Step], wish: Wish, is_done: Callable[[Wish], bool], budget: Budget) -> Iterator[Wish]:
    """The wishes before all of these steps, the last one first."""
    if not steps:
        if is_done(wish):
            yield wish
        return
    for earlier in steps[-1].before(wish):
        budget.left -= 1
        if budget.left < 0:
            return
        yield from back(steps[:-1], earlier, is_done, budget)


@dataclass(frozen=True)
class Target:
    """Where facts are wanted, by the order of base chains; whether the packet is forwarded, to the box, or may be any
    that comes to prerouting; and whether it has to come through to the end."""

    order: Order
    facts: Facts
    forwards: bool | None
    passes: bool = False


def steps_to(network: Network, target: Target) -> list[Step]:
    """The steps of a packet that comes there, in order."""
    last = Stage.AFTER_SOURCE_NAT if target.forwards else Stage.INPUT if target.forwards is False else Stage.AFTER_NAT
    skipped = Stage.INPUT if target.forwards else Stage.FORWARD
    placed: list[tuple[tuple[Order, int], Step]] = [((target.order, 0), Wanting(target.facts))]
    for order, chain in network.bases:
        if order[0] <= last and order[0] != skipped and (target.passes or order < target.order):
            placed.append(((order, 1), Passing(network, chain, order[0])))
    if target.forwards is not None and (target.passes or target.order[0] > Stage.AFTER_NAT):
        placed.append((((Stage.INPUT, -(1 << 40), 0), -1), Routing(network, target.forwards)))
    return [step for _, step in sorted(placed, key=lambda one: one[0])]


def ways_to(network: Network, target: Target, wish: Wish) -> Iterator[Facts]:
    """With which facts packets may come to the box, so that they come there as is wished. `wish` says what is wanted at
    the end of all."""
    can_have = frozenset(network.effects)
    if not wish.needs <= can_have:
        return

    def is_done(last: Wish) -> bool:
        is_fresh = all(0 in last.facts.of(name) for name in (CT_MARK, STATUS))
        is_first = last.state == NEW and last.known is None
        return not last.needs and 0 in last.facts.of(MARK) and (is_fresh or not is_first)

    for found in back(steps_to(network, target), wish, is_done, Budget()):
        facts = found.facts.without(STATE, DIRECTION, STATUS, CT_MARK, MARK, OUTPUT)
        there = found.known.at(Stage.RAW) if found.known else ANYTHING
        both = there and facts.without(*there.fields) & there if there else None
        if both:
            yield both
