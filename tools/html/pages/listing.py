"""The ruleset as written, each rule with its hits."""
from __future__ import annotations

from dataclasses import dataclass
from typing import TYPE_CHECKING, Sequence

from pages.texts import number, plural, shown

if TYPE_CHECKING:
    from pages.model import Model
    from toolbox.could_meet import CouldMeet
    from toolbox.reports import RuleCounter
    from toolbox.rulemap import Origin, RuleMap
    from toolbox.rulesets import Chain, Rule

MOST_LINES = 6000
BAR_STEPS = 20
COULD_BE_MET = "could be met"


@dataclass(frozen=True)
class Counted:
    """What a counter of a rule counted in the run alone, and with where it started."""

    met: int
    packets: int
    bytes: int


@dataclass(frozen=True)
class Met:
    """A rule with how many packets it held for, or None where a report can't tell; of one without hits `never` is why
    no packet of a run can meet it, and `could` that one can."""

    index: int
    rule: Rule
    hits: int | None
    counters: Sequence[Counted]
    never: str | None
    could: str | None
    origin: Origin | None

    @property
    def is_unmet(self) -> bool:
        return self.hits == 0 and not self.never and not any(one.met for one in self.counters)


class Listing:
    """Rules by the lines that they begin on, and policies by those of their chains."""

    def __init__(self, model: Model, known: CouldMeet, origins: RuleMap | None) -> None:
        ruleset = model.ruleset
        self.model, self.known, self.hits = model, known, model.rule_hits()
        self.counters: dict[tuple[str, int], list[RuleCounter]] = {}
        for counter in model.summary.counters:
            self.counters.setdefault((counter.chain, counter.rule), []).append(counter)
        self.rules = [self.met(index, rule, origins) for index, rule in enumerate(ruleset.rules)]
        self.by_line: dict[int, list[Met]] = {}
        for met in self.rules:
            self.by_line.setdefault(met.rule.line, []).append(met)
        self.chains_by_line: dict[int, list[tuple[int, Chain]]] = {}
        for index, chain in enumerate(ruleset.chains):
            if chain.hook:
                self.chains_by_line.setdefault(chain.line, []).append((index, chain))
        self.most = max((met.hits or 0 for met in self.rules), default=0)

    def met(self, index: int, rule: Rule, origins: RuleMap | None) -> Met:
        counters = [Counted(counter.packets - start, counter.packets, counter.bytes)
                    for counter, start in zip(self.counters.get(rule.place, []), rule.counter_starts)]
        hits, place = self.hits.of(rule, [one.met for one in counters]), rule.place
        is_met = bool(hits) or any(one.met for one in counters)
        return Met(index, rule, hits, counters, None if is_met else self.known.never.get(place),
                   COULD_BE_MET if place in self.known.could and not is_met else None,
                   origins.origin(*place) if origins else None)

    def unmet(self) -> list[Met]:
        return [met for met in self.rules if met.is_unmet]

    def never_count(self) -> int:
        return sum(met.never is not None for met in self.rules)

    def html(self) -> str:
        """The rows of the listing."""
        lines = lines_of(self.model.ruleset.text)
        rows = [self.row(place, line) for place, line in enumerate(lines[:MOST_LINES], 1)]
        if len(lines) > MOST_LINES:
            rows.append(
                f'<p class="bound">The first {number(MOST_LINES)} of {plural(len(lines), "line")} are shown.</p>')
        return "\n".join(rows)

    def row(self, place: int, line: str) -> str:
        mets = self.by_line.get(place, [])
        chips = [self.policy_chip(index, chain) for index, chain in self.chains_by_line.get(place, [])]
        chips += [self.chip(met) for met in mets]
        kind = "line"
        if mets and all(met.never for met in mets):
            kind += " never"
        elif mets and all(met.hits == 0 for met in mets):
            kind += " unmet"
        reason = "; ".join(dict.fromkeys(met.never for met in mets if met.never))
        notes = [f'<span class="note">{shown(reason)}</span>'] if reason else []
        notes += [origin_note(met, met.origin) for met in mets if met.origin]
        return (f'<div class="{kind}" id="L{place}"><span class="no">{place}</span>'
                f'<span class="hits">{"".join(chips)}</span>'
                f'<span class="text i{indent_of(line)}"><code>{coloured(line.strip())}</code>'
                f'{"".join(notes)}</span></div>')

    def chip(self, met: Met) -> str:
        label = f"rule {met.rule.number} of {met.rule.chain}"
        if met.never:
            return f'<span class="chip never" title="{shown(label)}: {shown(met.never)}">no run</span>'
        if met.hits is None:
            return f'<span class="chip" title="{shown(label)}: a report can\'t tell">?</span>'
        steps = max(1, round(BAR_STEPS * met.hits / self.most)) if met.hits else 0
        title = "; ".join([f"{label}: {plural(met.hits, 'packet')}"] + [
            f"counter {place}: {plural(one.packets, 'packet')}, {plural(one.bytes, 'byte')}"
            for place, one in enumerate(met.counters, 1)])
        could = "" if met.hits or not met.could else f"{met.could} "
        return (f'<a class="chip{"" if met.hits else " zero"}" href="#rule={met.index}" title="{shown(title)}">'
                f'<i class="bar b{steps}"></i>{could}<b>{number(met.hits)}</b></a>')

    def policy_chip(self, index: int, chain: Chain) -> str:
        if chain.hook == "output":
            return ""
        hits, word = self.model.hits[chain.name, 0], f"policy {chain.policy}"
        return (f'<a class="chip policy {shown(chain.policy)}{"" if hits else " zero"}" href="#policy={index}" '
                f'title="{shown(word)} of {shown(chain.name)}: {plural(hits, "packet")}">{shown(word)} '
                f"<b>{number(hits)}</b></a>")


def lines_of(text: str) -> list[str]:
    """The lines of a text; what stands behind its last newline is one if it isn't empty."""
    lines = text.split("\n")
    return lines[:-1] if lines and not lines[-1] else lines


def origin_note(met: Met, origin: Origin) -> str:
    """Where a fitted rule stood, and as what, where it is another text."""
    text = "" if origin.text.split() == met.rule.text.split() else f": <code>{shown(origin.text)}</code>"
    return (f'<span class="note">was {shown(origin.file)}:{origin.line}, {shown(origin.chain)} {origin.rule}'
            f"{text}</span>")


def indent_of(line: str) -> int:
    """How many steps of four columns a line is indented, nine at most."""
    text = line.expandtabs(4)
    return min(9, (len(text) - len(text.lstrip())) // 4)


def coloured(line: str) -> str:
    """A line as HTML, with its comment and its strings told apart."""
    parts, place, text = [], 0, line.replace("\t", "    ")
    while place < len(text):
        if text[place] == "#":
            parts.append(f'<span class="comment">{shown(text[place:])}</span>')
            break
        end = text.find('"', place + 1) + 1 if text[place] == '"' else 0
        if end:
            parts.append(f'<span class="string">{shown(text[place:end])}</span>')
        else:
            end = min((found for found in (text.find('"', place + 1), text.find("#", place + 1)) if found > 0),
                      default=len(text))
            parts.append(shown(text[place:end]))
        place = end
    return "".join(parts)
