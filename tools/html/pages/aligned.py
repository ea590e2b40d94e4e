"""Two rulesets line by line: what was removed, added, moved, or only written otherwise.

Rules count by what they do: by their words and the sets that they ask, without comments and where counters start. What
toolbox.evidence takes for a change is one here, too.
"""
from __future__ import annotations

import enum
from dataclasses import dataclass, field
from difflib import SequenceMatcher
from typing import TYPE_CHECKING, Hashable, Iterable, Iterator, Sequence, Tuple

from pages.listing import lines_of
from toolbox.evidence import rule_content
from toolbox.lexer import Kind, tokens_of

if TYPE_CHECKING:
    from toolbox.evidence import Change
    from toolbox.rulesets import Rule, Ruleset

MOST_PAIRED = 60  # lines of a passage that are paired by what they have in common
ALIKE = 0.6

RulePlace = Tuple[str, int]


class Mark(enum.Enum):
    """What became of a line; the values are classes of the style sheet."""

    SAME = "same"
    REMOVED = "removed"
    ADDED = "added"
    MOVED = "moved"
    REWORDED = "reworded"  # a comment, blanks, or where a counter starts


@dataclass(frozen=True)
class Line:
    """A line of one text; `elsewhere` is the number of the same one in the other text, where it was moved."""

    number: int
    text: str
    mark: Mark
    elsewhere: int | None = None


@dataclass(frozen=True)
class Pair:
    """Lines that stand side by side; one of them may be missing."""

    old: Line | None
    new: Line | None

    @property
    def is_same(self) -> bool:
        return all(one is not None and one.mark is Mark.SAME for one in (self.old, self.new))


@dataclass
class Keys:
    """What the lines of a text are compared by: equal keys are one line. `meant` are the lines that mean something."""

    lines: list[str]
    keys: list[Hashable] = field(default_factory=list)
    meant: set[int] = field(default_factory=set)


@dataclass(frozen=True)
class Version:
    """One of two rulesets, with the places of its rules that the other hasn't."""

    ruleset: Ruleset
    changed: frozenset[RulePlace]


def version(ruleset: Ruleset, changes: Iterable[Change]) -> Version:
    return Version(ruleset, frozenset(change.rule.place for change in changes if change.rule is not None))


def matched(old: Version, new: Version) -> dict[RulePlace, RulePlace]:
    """The rules that stayed, by their old places."""
    pairs: dict[RulePlace, RulePlace] = {}
    for chain in old.ruleset.chains:
        there = new.ruleset.by_name.get(chain.name)
        if there is None:
            continue
        kept = [rule for rule in chain.rules if rule.place not in old.changed]
        others = [rule for rule in there.rules if rule.place not in new.changed]
        texts = [rule_content(old.ruleset, rule) for rule in kept], [rule_content(new.ruleset, rule) for rule in others]
        for block in SequenceMatcher(None, *texts, autojunk=False).get_matching_blocks():
            for place in range(block.size):
                pairs[kept[block.a + place].place] = others[block.b + place].place
    return pairs


def moved(old: Version, new: Version, kept: dict[RulePlace, RulePlace]) -> dict[RulePlace, RulePlace]:
    """The rules that stand elsewhere now, by their old places: in their chain first, then in another."""
    waiting: dict[tuple[str, ...], list[Rule]] = {}
    stayed = set(kept.values())
    for rule in new.ruleset.rules:
        if rule.place not in stayed:
            waiting.setdefault(rule_content(new.ruleset, rule), []).append(rule)
    found: dict[RulePlace, RulePlace] = {}
    for is_own_chain in (True, False):
        for rule in old.ruleset.rules:
            if rule.place in kept or rule.place in found:
                continue
            others = waiting.get(rule_content(old.ruleset, rule), [])
            other = next((one for one in others if not is_own_chain or one.chain == rule.chain), None)
            if other is not None:
                others.remove(other)
                found[rule.place] = other.place
    return found


def keys_of(version: Version, name_of: dict[RulePlace, Hashable]) -> Keys:
    """The keys of a text whose rules have names; other lines are compared by block and words."""
    ruleset = version.ruleset
    keys, rules = Keys(lines_of(ruleset.text)), dict[int, Tuple[Hashable, ...]]()
    keys.meant = {token.line for token in tokens_of(ruleset.text) if token.kind is not Kind.NEWLINE}
    blocks = blocks_of(ruleset)
    for rule in ruleset.rules:
        for step, line in enumerate(range(rule.line, rule.tokens[-1].line + 1)):
            rules[line] = (*rules.get(line, ()), (name_of[rule.place], step))
    for place, text in enumerate(keys.lines, 1):
        keys.keys.append(rules.get(place) or (blocks.get(place, ""), " ".join(text.split())))
    return keys


def blocks_of(ruleset: Ruleset) -> dict[int, str]:
    """By line the chain, set or map within whose braces it stands; these are of it."""
    begins: dict[int, str] = {chain.line: chain.name for chain in ruleset.chains}
    begins.update((one.tokens[0].line, one.name) for one in ruleset.sets.values() if one.tokens)
    blocks: dict[int, str] = {}
    depth, block = 0, ""
    for token in tokens_of(ruleset.text):
        block = begins.get(token.line, block)
        if depth > 1 or token.line in begins:
            blocks.setdefault(token.line, block)
        depth += {"{": 1, "}": -1}.get(token.text, 0)
    return blocks


class Alignment:
    """Both texts, line by line."""

    def __init__(self, old: Version, new: Version) -> None:
        kept = matched(old, new)
        self.moved = moved(old, new, kept)
        back = {new_place: old_place for old_place, new_place in kept.items()}
        self.old = keys_of(old, {rule.place: self.name("old", rule.place, kept) for rule in old.ruleset.rules})
        self.new = keys_of(new, {rule.place: ("kept", back[rule.place]) if rule.place in back else ("new", rule.place)
                                 for rule in new.ruleset.rules})
        self.elsewhere_old, self.elsewhere_new = self.moved_lines(old, new)
        self.pairs = list(self.rows())

    @staticmethod
    def name(whose: str, place: RulePlace, kept: dict[RulePlace, RulePlace]) -> Hashable:
        return ("kept", place) if place in kept else (whose, place)

    def moved_lines(self, old: Version, new: Version) -> tuple[dict[int, int], dict[int, int]]:
        """The first lines of rules that were moved, from the old text to the new one and back."""
        there: dict[int, int] = {}
        for old_place, new_place in self.moved.items():
            before, after = old.ruleset.by_place[old_place], new.ruleset.by_place[new_place]
            lengths = [rule.tokens[-1].line - rule.line for rule in (before, after)]
            for step in range(min(lengths) + 1):
                there[before.line + step] = after.line + step
        return there, {new_line: old_line for old_line, new_line in there.items()}

    def rows(self) -> Iterator[Pair]:
        opcodes = SequenceMatcher(None, self.old.keys, self.new.keys, autojunk=False).get_opcodes()
        self.find_blocks_elsewhere([(a, b) for kind, a, end, b, _ in opcodes if kind == "equal"
                                    for a, b in zip(range(a, end), range(b, b + end - a))])
        for kind, a, a_end, b, b_end in opcodes:
            if kind == "equal":
                for old_place, new_place in zip(range(a, a_end), range(b, b_end)):
                    yield self.alike(old_place + 1, new_place + 1)
            else:
                yield from self.passage(range(a + 1, a_end + 1), range(b + 1, b_end + 1))

    def find_blocks_elsewhere(self, aligned: Sequence[tuple[int, int]]) -> None:
        """Has lines with a meaning that stand in both texts, and not side by side, be moved: those of whole chains."""
        olds, news = ({pair[side] for pair in aligned} for side in (0, 1))
        waiting: dict[Hashable, list[int]] = {}
        for place, key in enumerate(self.new.keys):
            if place not in news and place + 1 in self.new.meant:
                waiting.setdefault(key, []).append(place + 1)
        for place, key in enumerate(self.old.keys):
            if place not in olds and place + 1 in self.old.meant and waiting.get(key):
                other = waiting[key].pop(0)
                self.elsewhere_old.setdefault(place + 1, other)
                self.elsewhere_new.setdefault(other, place + 1)

    def alike(self, old: int, new: int) -> Pair:
        texts = self.old.lines[old - 1], self.new.lines[new - 1]
        mark = Mark.SAME if texts[0].split() == texts[1].split() else Mark.REWORDED
        return Pair(Line(old, texts[0], mark), Line(new, texts[1], mark))

    def old_line(self, number: int) -> Line:
        return self.line(number, self.old, self.elsewhere_old, Mark.REMOVED)

    def new_line(self, number: int) -> Line:
        return self.line(number, self.new, self.elsewhere_new, Mark.ADDED)

    @staticmethod
    def line(number: int, keys: Keys, elsewhere: dict[int, int], mark: Mark) -> Line:
        other = elsewhere.get(number)
        if other is not None:
            mark = Mark.MOVED
        elif number not in keys.meant:
            mark = Mark.REWORDED
        return Line(number, keys.lines[number - 1], mark, other)

    def passage(self, olds: Sequence[int], news: Sequence[int]) -> Iterator[Pair]:
        """Lines that differ: those that have much in common stand side by side."""
        rest = list(map(self.new_line, news))
        for line in map(self.old_line, olds):
            place = partner(line, rest) if max(len(olds), len(news)) <= MOST_PAIRED else None
            if place is None:
                yield Pair(line, None)
                continue
            for one in rest[:place]:
                yield Pair(None, one)
            yield Pair(line, rest[place])
            rest = rest[place + 1:]
        for one in rest:
            yield Pair(None, one)


def partner(line: Line, others: Sequence[Line]) -> int | None:
    """Which of the others stands beside a line that was removed, or is a comment."""
    wanted = {Mark.REMOVED: Mark.ADDED, Mark.REWORDED: Mark.REWORDED}.get(line.mark)
    for place, other in enumerate(others):
        if other.mark is wanted and SequenceMatcher(
                None, line.text.split(), other.text.split(), autojunk=False).ratio() >= ALIKE:
            return place
    return None
