"""What an answer about a capture rests on: whether it is whole, and whether a packet came to what is asked about."""
from __future__ import annotations

from dataclasses import dataclass
from difflib import SequenceMatcher
from typing import TYPE_CHECKING, Iterator

from toolbox.captures import called
from toolbox.commands import plural
from toolbox.hits import Hits
from toolbox.reports import Summary

if TYPE_CHECKING:
    from toolbox.differences import Sight
    from toolbox.flows import Flows
    from toolbox.rulesets import Chain, Rule, Ruleset

# what a packet is dropped for before any rule sees it
UNSEEN = {
    "notip": "notip: not IPv4", "interface": "interface: entered by one that the box file lacks",
    "fragment": "fragment", "truncated": "truncated: cut by the snap length", "short": "short", "version": "version",
    "hlen": "hlen", "length": "length", "checksum": "checksum: of the IP header", "transport": "transport"}


def torn_text(path: str, records: int) -> str:
    """That a capture is torn behind so many whole records."""
    return (f"{called(path)}: torn: it ends within record {records + 1}, and what is told is of the whole records "
            "before that")


def torn_flows(flows: Flows) -> str | None:
    """That the capture of the flows is torn, if it is."""
    return torn_text(flows.path, flows.count) if flows.torn else None


@dataclass(frozen=True)
class Change:
    """A rule that one of two rulesets alone has; `rule` is None where it is the head of the chain that differs."""

    chain: Chain
    rule: Rule | None


def rule_content(ruleset: Ruleset, rule: Rule) -> tuple[str, ...]:
    """What a rule does: its words, without where counters start and without a comment, and the sets that it asks."""
    texts, words, place = [token.text for token in rule.tokens], [], 0
    while place < len(texts):
        words.append(texts[place])
        place += 5 if texts[place:place + 2] == ["counter", "packets"] else 1
    if words[-2:-1] == ["comment"]:
        words = words[:-2]
    return " ".join(words), *(one.text for one in ruleset.sets_of(rule))


def head_of(chain: Chain | None) -> tuple[object, ...]:
    return () if chain is None else (chain.type, chain.hook, chain.priority, chain.policy)


def changes_of(mine: Ruleset, other: Ruleset) -> Iterator[Change]:
    """What this ruleset has and the other hasn't at its place, chain by chain."""
    for chain in mine.chains:
        there = other.by_name.get(chain.name)
        if chain.hook and head_of(chain) != head_of(there):
            yield Change(chain, None)
        texts = [rule_content(mine, rule) for rule in chain.rules]
        others = [rule_content(other, rule) for rule in there.rules] if there else []
        for kind, _, _, begin, end in SequenceMatcher(None, others, texts).get_opcodes():
            if kind != "equal":
                yield from (Change(chain, rule) for rule in chain.rules[begin:end])


class Side:
    """One ruleset of a comparison after its run: what the other hasn't, and how far packets came."""

    def __init__(self, name: str, sight: Sight, other: Sight) -> None:
        self.name, self.sight, self.ruleset = name, sight, sight.ruleset
        self.summary = Summary(sight.replay.files.report, f"the report on {sight.replay.rules}")
        self.hits = Hits(self.summary)
        self.reached = {one.chain for one in self.summary.events}
        self.changes = list(changes_of(sight.ruleset, other.ruleset))

    def touched(self, names: set[str]) -> list[Chain]:
        """The base chains that are among these chains, or lead to one of them."""
        bases = (chain for chain in self.ruleset.chains if chain.hook)
        return [base for base in bases if not names.isdisjoint(self.ruleset.behind(base))]

    def is_met(self, change: Change) -> bool | None:
        """Whether a packet met what differs, or None where a run doesn't tell."""
        if change.chain.name not in self.reached:
            return False
        if change.rule is None:
            return True
        return None if self.hits.number(change.rule) is None else not self.hits.is_unmet(change.rule)

    def text(self, change: Change) -> str:
        """A change in a line, as the operator's ruleset has it."""
        chain, rule = change.chain, change.rule
        if rule is not None:
            origin = self.sight.origins and self.sight.origins.origin(chain.name, rule.number)
            place = f"{origin.chain} {origin.rule}  # {origin.text}" if origin else ""
            return f"{self.name}: {place or f'{chain.name} {rule.number}  # {rule.text}'}"
        return (f"{self.name}: {chain.name}  # type {chain.type} hook {chain.hook} priority {chain.priority}; "
                f"policy {chain.policy}")


class Evidence:
    """How far the packets of both replays came towards what differs in the rulesets. `unmet` are the changes that no
    packet met, `untold` those of which a run doesn't tell, each in a line."""

    def __init__(self, old: Sight, new: Sight) -> None:
        self.sides = Side("old", old, new), Side("new", new, old)
        lines: dict[bool | None, dict[str, None]] = {False: {}, None: {}, True: {}}
        for side in self.sides:
            for change in side.changes:
                lines[side.is_met(change)][side.text(change)] = None
        self.unmet, self.untold = list(lines[False]), list(lines[None])
        self.are_all_unmet = bool(lines[False]) and not lines[None] and not lines[True]
        names = {change.chain.name for side in self.sides for change in side.changes}
        self.touched = [(side, base) for side in self.sides for base in side.touched(names)]

    def nothing_compared(self) -> str | None:
        """Why nothing was compared, or None: no record came to any rule, or to none of a stage where rules differ; or
        there is one side alone of connections, so that none begins, and no packet met what differs."""
        if not any(side.reached for side in self.sides):
            return f"no record reached a rule ({self.outcomes_text()})"
        if not self.touched or any(base.name in side.reached for side, base in self.touched):
            return self.no_beginning()
        hooks = dict.fromkeys(base.hook or "" for _, base in self.touched)
        return f"the rulesets differ on {', '.join(hooks)}, and no record reached a rule there"

    def no_beginning(self) -> str | None:
        """That of all connections the beginning is missing, where no change was met: who could meet it may be there."""
        flows = self.sides[0].sight.replay.flows
        midway = flows.without_beginning()
        if not self.are_all_unmet or not midway or midway < len(flows.some()):
            return None
        return (f"no connection begins in it ({plural(midway, 'TCP flow')} without a SYN, as where one side alone is "
                "captured), and no packet met what differs")

    def outcomes_text(self) -> str:
        """How the records ended in the run of the old ruleset."""
        told = sorted(self.sides[0].summary.outcomes.items(), key=lambda one: (-one[1], one[0]))
        words = [f"{plural(number, 'record')} {UNSEEN.get(name, name)}" for name, number in told]
        return ", ".join(words) or "none is in it"
