"""Both rulesets side by side as HTML, with the hits of each rule in its own run."""
from __future__ import annotations

from dataclasses import dataclass
from itertools import groupby
from typing import TYPE_CHECKING, Iterator, Sequence

from pages.aligned import Alignment, Line, Mark, Pair, version
from pages.listing import coloured, indent_of
from pages.texts import number, plural, shown

if TYPE_CHECKING:
    from pages.model import RuleHits
    from toolbox.could_meet import CouldMeet
    from toolbox.evidence import Change, Side
    from toolbox.rulesets import Chain, Rule

MOST_ROWS, CONTEXT, FEWEST_FOLDED = 6000, 3, 8
ROOMS = (6, 8, 10, 12, 16, 20, 30)  # characters beside a line, as classes of the style sheet
SIGNS = {Mark.SAME: "", Mark.REMOVED: "−", Mark.ADDED: "+", Mark.MOVED: "↕", Mark.REWORDED: "≈"}
MEANS = {Mark.REMOVED: "removed", Mark.ADDED: "added", Mark.MOVED: "moved",
         Mark.REWORDED: "written otherwise: the rules are the same"}
UNMET, UNTOLD = "met by no packet", "a run doesn't tell whether a packet met it"


@dataclass(frozen=True)
class Noted:
    """A change that no packet met: its text as compare has it, the id of its line on the page, and whether a packet
    could meet it, where that is known."""

    text: str
    line: str
    remark: str | None


class Text:
    """One of the rulesets, with the hits of its own run. `letter` begins the ids of its lines."""

    def __init__(self, side: Side, known: CouldMeet, hits: RuleHits, letter: str) -> None:
        self.side, self.known, self.hits, self.letter = side, known, hits, letter
        self.rules: dict[int, list[tuple[int, Rule]]] = {}
        for index, rule in enumerate(side.ruleset.rules):
            self.rules.setdefault(rule.line, []).append((index, rule))
        self.policies: dict[int, list[tuple[int, Chain]]] = {}
        for index, chain in enumerate(side.ruleset.chains):
            if chain.hook and chain.hook != "output":
                self.policies.setdefault(chain.policy_line, []).append((index, chain))
        self.doubts: dict[int, str] = {}
        for change in side.changes:
            doubt = {False: UNMET, None: UNTOLD}.get(self.is_met(change))
            if doubt:
                self.doubts[self.line_of(change)] = self.with_remark(doubt, change)

    def is_met(self, change: Change) -> bool | None:
        """Whether a packet met what differs; the second run tells it of rules that decide nothing, too."""
        met = self.side.is_met(change)
        if met is not None or change.rule is None:
            return met
        held = self.hits.of(change.rule)
        return None if held is None else held > 0

    def remark(self, change: Change) -> str | None:
        """Whether a packet could meet a rule that differs, if that is known."""
        return self.known.remark(change.rule.place) if change.rule else None

    def with_remark(self, doubt: str, change: Change) -> str:
        """That nothing is known of a change that no packet met, with whether one could."""
        remark = self.remark(change)
        if doubt is UNMET and remark and change.rule and change.rule.place in self.known.never:
            return remark
        return f"{doubt}; {remark}" if remark else doubt

    @staticmethod
    def line_of(change: Change) -> int:
        return change.rule.line if change.rule else change.chain.policy_line

    def noted(self, met: bool | None) -> Iterator[Noted]:
        """The changes that no packet met, or of which a run doesn't tell."""
        known: set[str] = set()
        for change in self.side.changes:
            text = self.side.text(change)
            if self.side.is_met(change) is met and text not in known:
                known.add(text)
                yield Noted(text, f"{self.letter}{self.line_of(change)}", self.remark(change))

    def hits_at(self, line: int) -> list[int | None]:
        """What the policies and rules on a line were met by, in their order."""
        return [*(self.hits.held[chain.name, 0] for _, chain in self.policies.get(line, [])),
                *(self.hits.of(rule) for _, rule in self.rules.get(line, []))]

    def counts_html(self, line: int) -> str:
        """How many packets met the rules that begin on a line, or the policy on it."""
        parts = [self.policy_html(index, chain) for index, chain in self.policies.get(line, [])]
        return " ".join(parts + [self.rule_html(index, rule) for index, rule in self.rules.get(line, [])])

    def policy_html(self, index: int, chain: Chain) -> str:
        hits = self.hits.held[chain.name, 0]
        title = f"policy {chain.policy} of {chain.name}: {plural(hits, 'packet')}"
        return self.count_html(hits, title, f"#policy={index}")

    def rule_html(self, index: int, rule: Rule) -> str:
        label = f"rule {rule.number} of {rule.chain}"
        hits, remark = self.hits.of(rule), self.known.remark(rule.place)
        if not hits and rule.place in self.known.never:
            return f'<span class="unmet" title="{shown(label)}: {shown(remark)}">no run</span>'
        if hits is None:
            return f'<span title="{shown(label)}: a report can\'t tell">?</span>'
        words = [plural(hits, "packet")] + ([remark] if remark and not hits else [])
        return self.count_html(hits, f"{label}: {'; '.join(words)}", f"#rule={index}")

    def count_html(self, hits: int, title: str, link: str) -> str:
        kind = "" if hits else ' class="unmet"'
        # the page has the records of the new ruleset's run alone
        if self.letter == "N":
            return f'<a href="{link}"{kind} title="{shown(title)}">{number(hits)}</a>'
        return f'<span{kind} title="{shown(title)}">{number(hits)}</span>'


class Both:
    """Both texts; `old_name` and `new_name` are what their files are called."""

    def __init__(self, old: Text, new: Text, old_name: str, new_name: str) -> None:
        self.old, self.new, self.names = old, new, (old_name, new_name)
        self.alignment = Alignment(
            *(version(text.side.ruleset, text.side.changes) for text in (old, new)))

    def html(self) -> str:
        pairs = self.alignment.pairs
        legend = ", ".join(f'<b class="sign {mark.value}">{SIGNS[mark]}</b> {words}' for mark, words in MEANS.items())
        head = "".join(f'<div class="half {side}"><b>{shown(name)}</b></div>'
                       for side, name in zip(("old", "new"), self.names))
        bound = (f'<p class="bound">The first {number(MOST_ROWS)} of {plural(len(pairs), "line")} are shown.</p>'
                 if len(pairs) > MOST_ROWS else "")
        differ = sum(not pair.is_same for pair in pairs)
        button = (' <button type="button" class="link" id="next-change">next change</button>' if differ else "")
        return (f'<p class="lead">The number beside a rule tells for how many packets it held, on the left '
                f"in the run of the old ruleset, on the right in that of the new one; coloured where they differ. "
                f"{legend}.{button}</p>"
                f'<div class="both d{self.digits()}"><div class="pair head">{head}</div>'
                f'{"".join(self.rows(pairs[:MOST_ROWS]))}</div>{bound}')

    def digits(self) -> int:
        """For how many characters there has to be room beside each line."""
        most = max((*self.old.hits.held.values(), *self.new.hits.held.values()), default=0)
        return next(room for room in ROOMS if len(number(most)) <= room)

    def rows(self, pairs: Sequence[Pair]) -> Iterator[str]:
        """The lines; long passages without a change are folded."""
        runs = [(is_same, list(run)) for is_same, run in groupby(pairs, key=lambda pair: pair.is_same)]
        for place, (is_same, run) in enumerate(runs):
            first = CONTEXT if place else 0
            last = CONTEXT if place + 1 < len(runs) else 0
            if not is_same or len(runs) == 1 or len(run) < first + last + FEWEST_FOLDED:
                yield from map(self.pair_html, run)
                continue
            middle = run[first:len(run) - last]
            yield from map(self.pair_html, run[:first])
            yield f'<details><summary>{plural(len(middle), "line")} alike</summary>'
            yield from map(self.pair_html, middle)
            yield "</details>"
            yield from map(self.pair_html, run[len(run) - last:])

    def pair_html(self, pair: Pair) -> str:
        kind = "same" if pair.is_same else "differs"
        if pair.old and pair.new and self.old.hits_at(pair.old.number) != self.new.hits_at(pair.new.number):
            kind += " otherwise"
        return (f'<div class="pair {kind}">{half_html(self.old, pair.old, "old")}'
                f'{half_html(self.new, pair.new, "new")}</div>\n')


def half_html(text: Text, line: Line | None, side: str) -> str:
    if line is None:
        return f'<div class="half {side} empty"></div>'
    title = f' title="{shown(MEANS[line.mark])}"' if line.mark in MEANS else ""
    notes = "".join(f'<span class="note">{note}</span>' for note in notes_of(text, line, side))
    code = coloured(line.text.strip())
    return (f'<div class="half {side} {line.mark.value}" id="{text.letter}{line.number}">'
            f'<span class="no">{line.number}</span> <span class="count">{text.counts_html(line.number)}</span> '
            f'<span class="sign"{title}>{SIGNS[line.mark]}</span>'
            f'<span class="text i{indent_of(line.text)}"><code>{code}</code>{notes}</span></div>')


def notes_of(text: Text, line: Line, side: str) -> Iterator[str]:
    if line.elsewhere is not None:
        other, word = ("N", "to") if side == "old" else ("O", "from")
        yield f'moved {word} <a href="#{other}{line.elsewhere}">line {line.elsewhere}</a>'
    if line.mark is not Mark.SAME and line.number in text.doubts:
        yield text.doubts[line.number]
