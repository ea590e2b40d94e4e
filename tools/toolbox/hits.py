"""How often each rule was hit, by what a report tells."""
from __future__ import annotations

from typing import TYPE_CHECKING

from toolbox.commands import Refused

if TYPE_CHECKING:
    from toolbox.reports import Summary
    from toolbox.rulesets import Rule, Ruleset


class Hits:
    """What a report tells of rules; a rule's place is its chain and its number there."""

    def __init__(self, summary: Summary) -> None:
        self.decided: dict[tuple[str, int], int] = {}
        self.logged: dict[tuple[str, int], int] = {}
        self.counted: dict[tuple[str, int], list[int]] = {}
        for decision, number in summary.decisions().items():
            if decision.rule is not None:
                place = decision.chain, decision.rule
                self.decided[place] = self.decided.get(place, 0) + number
        # each log statement for itself, as far as their prefixes tell them apart
        for log, number in summary.logs().items():
            place = log.chain, log.rule
            self.logged[place] = max(number, self.logged.get(place, 0))
        for counter in summary.counters:
            self.counted.setdefault((counter.chain, counter.rule), []).append(counter.packets)

    def number(self, rule: Rule) -> int | None:
        """How often the rule was hit, or None where a report can't tell."""
        if not (rule.decides or rule.logs or rule.counter_starts):
            return None
        place = rule.place
        return max([self.decided.get(place, 0), self.logged.get(place, 0), *self.counted.get(place, [])])

    def is_unmet(self, rule: Rule) -> bool:
        """Whether nothing of the rule happened: each counter is where it started."""
        place = rule.place
        return (self.number(rule) is not None and place not in self.decided and place not in self.logged
                and self.counted.get(place, []) == rule.counter_starts)

    def check_places(self, ruleset: Ruleset, rules_name: str, report_name: str) -> None:
        """Refuses a report that isn't of these rules, as far as it can be seen."""
        for chain, number in sorted({*self.decided, *self.logged, *self.counted} - ruleset.by_place.keys()):
            raise Refused(f"{report_name} tells of {chain} {number}, a rule that {rules_name} hasn't")
        for rule in ruleset.rules:
            if len(self.counted.get(rule.place, [])) != len(rule.counter_starts):
                raise Refused(f"{report_name} has other counters of {rule.chain} {rule.number} than {rules_name}")
