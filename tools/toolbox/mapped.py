"""What a report tells of the operator's own rules, through the map of a fitted ruleset (rulemap)."""
from __future__ import annotations

from dataclasses import dataclass
from typing import TYPE_CHECKING, Sequence

from toolbox.commands import Refused, plural, read_bytes, say
from toolbox.could_meet import COULD, NEVER
from toolbox.rulemap import map_of

if TYPE_CHECKING:
    from toolbox.could_meet import CouldMeet
    from toolbox.hits import Hits
    from toolbox.rulemap import RuleMap
    from toolbox.rulesets import Rule, Ruleset


@dataclass(frozen=True)
class OldRule:
    """A rule of the operator's text; `rules` are the fitted ones that come from it."""

    chain: str
    number: int
    file: str
    line: int
    text: str
    rules: list[Rule]


def maps_of(paths: Sequence[str], *rulesets: str) -> list[RuleMap | None]:
    """Of each ruleset (a path) its map among those given, or None; refused where one given is of none of them."""
    texts = [read_bytes(it) for it in rulesets] if paths else []
    for path in paths:
        if all(map_of([path], text) is None for text in texts):
            raise Refused(f"{path}: it is the map of another ruleset")
    return [map_of(paths, text) for text in texts] or [None] * len(rulesets)


class MappedRules:
    """The operator's rules in the order of his text, with what became of them."""

    def __init__(self, origins: RuleMap, ruleset: Ruleset, hits: Hits, known: CouldMeet) -> None:
        self.origins, self.hits, self.known = origins, hits, known
        found: dict[tuple[str, int, str, int], OldRule] = {}
        for rule in ruleset.rules:
            origin = origins.origin(*rule.place)
            if origin is not None:
                key = origin.file, origin.line, origin.chain, origin.rule
                if key not in found:
                    found[key] = OldRule(origin.chain, origin.rule, origin.file, origin.line, origin.text, [])
                found[key].rules.append(rule)
        files = list(dict.fromkeys(key[0] for key in found))
        self.rules = [found[key] for key in sorted(found, key=lambda it: (files.index(it[0]), *it[1:]))]

    def number(self, old: OldRule) -> int | None:
        """How often the rule was hit: of several that it became a packet meets one, but for their counters, which are
        added as the rule had them."""
        if all(self.hits.number(rule) is None for rule in old.rules):
            return None
        decided = sum(self.hits.decided.get(rule.place, 0) for rule in old.rules)
        logged = sum(self.hits.logged.get(rule.place, 0) for rule in old.rules)
        counted: dict[int, int] = {}
        for rule in old.rules:
            origin = self.origins.origin(*rule.place)
            for counter, packets in zip(origin.counters if origin else (), self.hits.counted.get(rule.place, [])):
                counted[counter] = counted.get(counter, 0) + packets
        return max([decided, logged, *counted.values()])

    def mark(self, old: OldRule) -> str:
        number = self.number(old)
        if not number and self.is_never(old):
            return "-"
        return "?" if number is None else str(number)

    def is_never(self, old: OldRule) -> bool:
        return all(rule.place in self.known.never for rule in old.rules)

    def reason(self, old: OldRule) -> str:
        """Why no packet can meet the rule: of each rule that it became, where they differ."""
        reasons = dict.fromkeys(self.known.never[rule.place] for rule in old.rules)
        return "; ".join(f"as fitted, {reason}" if reason.startswith(NEVER) else reason for reason in reasons)

    def could(self, old: OldRule) -> str:
        """That a packet could meet the rule, if one of those that it became could be met."""
        return f"  (as fitted, {COULD})" if any(rule.place in self.known.could for rule in old.rules) else ""

    def is_unmet(self, old: OldRule) -> bool:
        seen = [rule for rule in old.rules if self.hits.number(rule) is not None]
        return bool(seen) and not self.is_never(old) and all(self.hits.is_unmet(rule) for rule in seen)

    def print_rules(self) -> None:
        """Each rule with its hits, below the chain that it stands in."""
        chain = None
        for old in self.rules:
            if old.chain != chain:
                chain = old.chain
                say(f"          {chain}")
            say(f"{self.mark(old):>8}  {old.file}:{old.line}: {old.number}: {old.text}")

    def print_unmet(self) -> None:
        unmet = [old for old in self.rules if self.is_unmet(old)]
        say()
        say(f"{len(unmet)} of {plural(len(self.rules), 'rule')} met no packet")
        for old in unmet:
            say(f"  {old.file}:{old.line}: {old.chain} {old.number}: {old.text}{self.could(old)}")
        if unmet:
            self.known.print_unknown()
        never = [old for old in self.rules if not self.number(old) and self.is_never(old)]
        if never:
            say()
            say(f"{plural(len(never), 'rule')} that no packet of a run can meet")
            for old in never:
                say(f"  {old.file}:{old.line}: {old.chain} {old.number}: {old.text}  ({self.reason(old)})")
