"""What of a comparison a guard of rulesets fails on, and what was accepted before."""
from __future__ import annotations

import enum
import json
from dataclasses import dataclass
from typing import TYPE_CHECKING, Iterable, Mapping, Sequence

from toolbox.commands import DIFFERS, DONE, REFUSED, TORN, Refused, plural, read_text
from toolbox.differences import BLOCKED, OPENED, OTHERWISE, REWRITTEN
from toolbox.router import Uncompared

if TYPE_CHECKING:
    from toolbox.differences import Group, Told
    from toolbox.every_packet import EveryPacket
    from toolbox.evidence import Evidence


class Kind(enum.Enum):
    """What a guard may fail on, as `--fail-on` names it."""

    OPENED = "opened"
    BLOCKED = "blocked"
    REWRITTEN = "rewritten"
    OTHERWISE = "otherwise"
    PORTS = "ports"  # other ports behind the same rules
    UNMET = "unmet"  # a change that no packet met
    CLASS = "class"  # packets with which the rulesets differ, whatever is captured


LISTS = {OPENED: Kind.OPENED, BLOCKED: Kind.BLOCKED, REWRITTEN: Kind.REWRITTEN, OTHERWISE: Kind.OTHERWISE}
USUAL = frozenset((Kind.OPENED, Kind.BLOCKED, Kind.REWRITTEN, Kind.OTHERWISE))
ASKED = ("chain", "verdict", "text")  # what an entry of an allow-list may say of a decision


def kinds_of(words: str | None) -> frozenset[Kind]:
    """The kinds of `opened,blocked`; without words the usual ones."""
    if words is None:
        return USUAL
    try:
        return frozenset(Kind(word) for word in words.split(","))
    except ValueError:
        known = ", ".join(kind.value for kind in Kind)
        raise Refused(f"--fail-on {words}: some of {known} are wanted, with commas between") from None


def kind_of(group: Group) -> Kind:
    return Kind.PORTS if group.has_other_ports_alone else LISTS[group.kind]


# What was accepted before


@dataclass(frozen=True)
class Accepted:
    """An entry of an allow-list: the list that a group has to be in, what it has to have of its decisions, and where
    `ports` is given, those that all of its flows have to go to."""

    file: str
    line: int
    list: str
    old: Mapping[str, str | None]
    new: Mapping[str, str | None]
    ports: frozenset[str] | None

    @property
    def place(self) -> str:
        return f"{self.file}:{self.line}"

    def covers(self, group: Group) -> bool:
        return (self.list == group.kind and agrees(self.old, group.old) and agrees(self.new, group.new)
                and (self.ports is None or self.ports.issuperset(port for port, _ in group.ports_text())))


def agrees(wanted: Mapping[str, str | None], told: Told) -> bool:
    found = {"chain": told.chain, "verdict": told.verdict, "text": told.text}
    return all(found[name] == value for name, value in wanted.items())


def entry_of(file: str, line: int, text: str) -> Accepted:
    """An entry, which is a group as `--format json` prints it, or as much of it as is to be alike."""
    try:
        entry = json.loads(text)
    except (ValueError, RecursionError):
        raise Refused(f"{file}:{line}: no line of JSON") from None
    if not isinstance(entry, dict) or entry.get("list") not in LISTS:
        known = ", ".join(f'"{name}"' for name in LISTS)
        raise Refused(f'{file}:{line}: "list" is wanted, one of {known}')
    old, new = (decision_of(file, line, entry.get(name)) for name in ("old", "new"))
    if not old and not new:
        raise Refused(f'{file}:{line}: "old" or "new" is wanted, with some of {", ".join(ASKED)}')
    ports = entry.get("ports")
    if ports is not None and not isinstance(ports, (dict, list)):
        raise Refused(f'{file}:{line}: "ports" has to be an array or an object')
    return Accepted(file, line, entry["list"], old, new, None if ports is None else frozenset(map(str, ports)))


def decision_of(file: str, line: int, told: object) -> dict[str, str | None]:
    found = told if isinstance(told, dict) else {}
    decision = {name: found[name] for name in ASKED if name in found}
    if told is not None and not isinstance(told, dict) or not all(
            value is None or isinstance(value, str) for value in decision.values()):
        raise Refused(f"{file}:{line}: a decision is an object, and {', '.join(ASKED)} are texts")
    return decision


class AllowList:
    """The entries of a file of JSON lines; empty lines and those that begin with `#` are none."""

    def __init__(self, entries: Iterable[Accepted] = ()) -> None:
        self.entries = list(entries)
        self.used_places: set[str] = set()

    def covering(self, group: Group) -> Accepted | None:
        """The first entry that covers a group; others may, and count as used, too."""
        found = [entry for entry in self.entries if entry.covers(group)]
        self.used_places.update(entry.place for entry in found)
        return found[0] if found else None

    def unused(self) -> list[Accepted]:
        return [entry for entry in self.entries if entry.place not in self.used_places]


def allow_list(path: str | None) -> AllowList:
    if path is None:
        return AllowList()
    lines = enumerate(read_text(path).split("\n"), 1)
    return AllowList(entry_of(path, number, line) for number, line in lines
                     if line.strip() and not line.lstrip().startswith("#"))


# What is judged


@dataclass(frozen=True)
class Judged:
    """A group with what a guard makes of it: it fails where its kind is asked for and no entry accepts it."""

    group: Group
    kind: Kind
    accepted: Accepted | None
    fails: bool


@dataclass(frozen=True)
class Unmet:
    """A change that no packet met, with where it is written."""

    text: str
    file: str
    line: int


@dataclass(frozen=True)
class Seen:
    """What is kept of the comparison over one capture: what differs, what no packet met, of what it can't be told, and
    why nothing was compared; `is_blind` is whether no record came to any rule. `router` are lines of what the router
    did otherwise than the run of OLD, `not_compared` how much that is."""

    capture: str
    judged: tuple[Judged, ...]
    unmet: tuple[Unmet, ...]
    untold: tuple[str, ...]
    nothing: str | None
    is_blind: bool
    is_torn: bool
    records: int
    differ: int
    router: tuple[str, ...] = ()
    not_compared: Uncompared = Uncompared()


class Guard:
    """Judges one comparison after another; `every` is what is known of all packets, if that was asked."""

    def __init__(self, kinds: frozenset[Kind], allowed: AllowList, every: EveryPacket | None = None) -> None:
        self.kinds, self.allowed, self.every = kinds, allowed, every
        self.seen: list[Seen] = []

    def judged(self, groups: Sequence[Group]) -> tuple[Judged, ...]:
        found = []
        for group in groups:
            kind, accepted = kind_of(group), self.allowed.covering(group)
            found.append(Judged(group, kind, accepted, kind in self.kinds and accepted is None))
        return tuple(found)

    def failing(self) -> list[tuple[Seen, Judged]]:
        return [(seen, one) for seen in self.seen for one in seen.judged if one.fails]

    @property
    def is_same(self) -> bool:
        """Whether the rulesets are known to do the same with every packet."""
        return self.every is not None and self.every.is_same

    def unmet(self) -> list[Unmet]:
        """The changes that no packet of any capture met, where they may matter."""
        if self.is_same:
            return []
        others = [{one.text for one in seen.unmet} for seen in self.seen]
        return [one for one in self.seen[0].unmet if all(one.text in texts for texts in others)]

    def untold(self) -> list[str]:
        """The changes of which no capture tells whether a packet met them."""
        if self.is_same:
            return []
        unmet = {one.text for one in self.unmet()}
        open_ones = [{*seen.untold, *(one.text for one in seen.unmet)} for seen in self.seen]
        told = dict.fromkeys(text for seen in self.seen for text in seen.untold)
        return [text for text in told if text not in unmet and all(text in texts for texts in open_ones)]

    def nothing(self) -> list[str]:
        """Why nothing was compared, a line each: a capture of which no record came to a rule, or all captures where
        none came to a stage on which the rulesets differ."""
        several = len(self.seen) > 1
        every = all(seen.nothing for seen in self.seen)
        return [f"{seen.capture}: {seen.nothing}" if several else seen.nothing
                for seen in self.seen if seen.nothing and (every or seen.is_blind)]

    def otherwise(self) -> list[str]:
        """What isn't compared, a line for each capture: flows that the router sent on otherwise than the run of OLD."""
        several = len(self.seen) > 1
        return [f"{seen.capture}: {seen.not_compared.text()}" if several else seen.not_compared.text()
                for seen in self.seen if seen.not_compared]

    def not_compared(self) -> Uncompared:
        """How much isn't compared of all captures."""
        each = [seen.not_compared for seen in self.seen]
        return Uncompared(sum(one.flows for one in each), sum(one.records for one in each))

    def fails_on(self) -> dict[Kind, int]:
        """By kind how many groups, or changes, are failed on."""
        counts: dict[Kind, int] = {}
        for _, one in self.failing():
            counts[one.kind] = counts.get(one.kind, 0) + 1
        unmet = len(self.unmet())
        if unmet and Kind.UNMET in self.kinds:
            counts[Kind.UNMET] = unmet
        if self.every and self.every.classes and Kind.CLASS in self.kinds:
            counts[Kind.CLASS] = len(self.every.classes)
        return {kind: counts[kind] for kind in Kind if kind in counts}

    def lacks_classes(self) -> bool:
        """Whether classes are failed on, and nothing is known of them."""
        return Kind.CLASS in self.kinds and (self.every is None or self.every.unknown is not None)

    def status(self) -> int:
        if self.fails_on():
            return DIFFERS
        if self.lacks_classes() or not self.is_same and (self.nothing() or any(seen.router for seen in self.seen)):
            return REFUSED
        return TORN if any(seen.is_torn for seen in self.seen) else DONE

    def verdict(self) -> str:
        """What is failed on and what was accepted, in a line."""
        counts = self.fails_on()
        failed = ", ".join(f"{number} {kind.value}" for kind, number in counts.items())
        accepted = sum(one.accepted is not None for seen in self.seen for one in seen.judged)
        asked = ",".join(kind.value for kind in Kind if kind in self.kinds)
        parts = [f"fails: {failed}" if failed else f"nothing to fail on ({asked})"]
        nothing = len(self.nothing())
        if nothing:
            parts.append(f"nothing was compared in {nothing} of {plural(len(self.seen), 'capture')}")
        parts += self.otherwise()
        if self.every and self.lacks_classes():
            parts.append(self.every.text())
        return ", ".join(parts + ([f"{plural(accepted, 'group')} accepted"] if accepted else []))


def unmet_of(evidence: Evidence) -> tuple[Unmet, ...]:
    """The changes that no packet met, each where it is written."""
    places: dict[str, Unmet] = {}
    for side in evidence.sides:
        for change in side.changes:
            rule = change.rule
            origin = side.sight.origins and rule and side.sight.origins.origin(change.chain.name, rule.number)
            line = rule.line if rule else change.chain.policy_line
            file, line = (origin.file, origin.line) if origin else (side.sight.name, line)
            places.setdefault(side.text(change), Unmet(side.text(change), file, line))
    return tuple(places[text] for text in evidence.unmet)
