"""What `nftrun diff` says of two rulesets beside what many facts come to by either: by vectors (columns.py,
walking.py), where judging.py goes fact by fact. For some facts of each stage both are compared, and have to agree."""
from __future__ import annotations

from dataclasses import dataclass
from functools import cached_property
from typing import Iterator, Mapping, Sequence, TypeVar

from columns import Columns, Values, Vector, count, first, multiplied, note
from facts import Facts
from judging import FOR_EACH_LINE, Judged, Judging, has
from reading import Table, Word
from stages import BY_NAME, CONNECTION, PACKET, Pair, Result, Two
from told_diff import AsCame, Class, Mark
from walking import Done, Standing, Walk, done

K = TypeVar("K")
MOST_LINES = 600  # facts that are drawn from lines


@dataclass(frozen=True)
class Effort:
    """How many of all facts a stage has beside others; how many are drawn of each kind, to be multiplied; and of them
    how many are taken by the plain reading too, and how many of those that differ."""

    weight: int
    rows: int
    plainly: int


MUCH, LITTLE = Effort(20, 300, 15), Effort(1, 48, 3)


def is_equal(old: Mapping[K, Vector], new: Mapping[K, Vector]) -> Vector:
    """Facts that have the same by both."""
    found = 0
    for value, some in old.items():
        found |= some & new.get(value, 0)
    return found


@dataclass(frozen=True)
class Both:
    """What either ruleset does with facts that came to a stage."""

    columns: Columns
    old: Done
    new: Done

    @cached_property
    def same_verdict(self) -> Vector:
        return is_equal(by_word(self.old), by_word(self.new))

    @cached_property
    def same_untracked(self) -> Vector:
        return self.columns.all & ~(self.old.untracked ^ self.new.untracked)

    @cached_property
    def like(self) -> Vector:
        """Facts with which they do the same: of what is dropped nothing is read any more."""
        same = is_equal(self.old.mark, self.new.mark) & is_equal(self.old.ct_mark, self.new.ct_mark)
        dropped = self.old.verdict(Word.DROP.value)
        return self.same_verdict & (dropped | same & self.same_untracked)

    @cached_property
    def tells_marks(self) -> Vector:
        return self.same_verdict & ~self.old.verdict(Word.DROP.value)

    # ---- beside what is told, as stages.Pair has it of one fact

    def agreeing(self, told: Class) -> Vector:
        """Facts with which both do what a class tells."""
        found = self.old.verdicts.get((told.old.verdict, told.old.by), 0)
        found &= self.new.verdicts.get((told.new.verdict, told.new.by), 0)
        found &= self.with_marks(Two(told.old.meta_mark, told.new.meta_mark), Two(self.old.mark, self.new.mark), PACKET)
        marks = Two(self.old.ct_mark, self.new.ct_mark)
        found &= self.with_marks(Two(told.old.ct_mark, told.new.ct_mark), marks, CONNECTION)
        return found & self.with_notrack(told)

    def with_marks(self, said: Two[Mark], are: Two[Values], came: AsCame) -> Vector:
        if said == Two(None, None):
            return self.columns.all & ~self.tells_marks | is_equal(are.old, are.new)
        found = self.columns.all
        for told, marks in ((said.old, are.old), (said.new, are.new)):
            fits = marks.get(None, 0) | self.with_mark(came if told is None else told, marks)
            found &= fits if told is not None else fits | ~self.tells_marks
        return found

    def with_mark(self, mark: int | AsCame, marks: Values) -> Vector:
        """Facts with this mark."""
        if not isinstance(mark, AsCame):
            return marks.get(mark, 0)
        return is_equal(self.columns.values("meta mark" if mark == PACKET else "ct mark"), marks)

    def with_notrack(self, told: Class) -> Vector:
        said, are = (told.old.has_notrack, told.new.has_notrack), (self.old.untracked, self.new.untracked)
        if said == (False, False):
            return self.columns.all & ~self.tells_marks | self.same_untracked
        found = self.columns.all
        for it, untracked in zip(said, are):
            found &= untracked if it else ~(untracked & self.tells_marks)
        return found

    # ---- one of the facts

    def pair(self, number: int) -> Pair:
        return Pair(self.columns.row(number), result(self.old, number), result(self.new, number))


def by_word(of: Done) -> dict[str, Vector]:
    found: dict[str, Vector] = {}
    for (word, _), some in of.verdicts.items():
        note(found, word, some)
    return found


def value_at(number: int, values: Values) -> object:
    return next(value for value, some in values.items() if some >> number & 1)


def result(of: Done, number: int) -> Result:
    """What a ruleset does with one of the facts."""
    verdict, by = next(key for key, some in of.verdicts.items() if some >> number & 1)
    mark, ct_mark = value_at(number, of.mark), value_at(number, of.ct_mark)
    assert isinstance(mark, int) and (ct_mark is None or isinstance(ct_mark, int)), "marks are numbers"
    return Result(verdict, by, mark, ct_mark, bool(of.untracked >> number & 1))


def accepted(table: Table, columns: Columns) -> Vector:
    """Facts that the one base chain of a ruleset accepts."""
    ((chain, head),) = ((one, one.head) for one in table.chains.values() if one.head)
    walk = Walk(columns)
    left = walk.chain(table, chain, columns.all)
    ended = sum(some for end, some in walk.ends.items() if end.ending is Word.ACCEPT)
    return ended | (0 if head.policy is Word.DROP else left)


@dataclass(frozen=True)
class ToldClass:
    """A class that is told, the facts that stand in it, and those with which both rulesets do what it tells."""

    told: Class
    some: Vector
    agreeing: Vector

    @property
    def said(self) -> str:
        return f"told {self.told.old}, now {self.told.new}"


@dataclass(frozen=True)
class StageJudging:
    """Facts at a stage, which of them are assumed to come, and the classes that are told of it."""

    stage: str
    both: Both
    comes: Vector
    classes: Sequence[ToldClass]

    @cached_property
    def differ(self) -> Vector:
        return self.comes & ~self.both.like

    def judged(self, is_whole: bool) -> Judged:
        """All that the vectors tell, of an answer that tells all or not; of each fault one fact."""
        held, twice = 0, 0
        for one in self.classes:
            twice |= held & one.some
            held |= one.some
        missed = self.differ & ~held
        left = missed & self.left_out() if is_whole else missed
        wrong = [*self.told_wrong(), *self.shown(twice, "two classes have it"), *self.shown(missed & ~left, "not told")]
        not_judged = count(left)
        return Judged(tuple(wrong), self.both.columns.size - not_judged, count(self.differ) - not_judged,
                      not_judged)

    def left_out(self) -> Vector:
        """Facts that may be among those for which a class has no room."""
        found = 0
        for one in self.classes:
            found |= 0 if one.told.packets.is_whole else one.agreeing
        return found

    def told_wrong(self) -> Iterator[str]:
        for one in self.classes:
            yield from self.shown(one.some & ~self.differ, f"{one.said}, and both do the same, or it doesn't come")
            yield from self.shown(one.some & self.differ & ~one.agreeing, f"{one.said}, and it isn't so")

    def shown(self, some: Vector, what: str) -> Iterator[str]:
        if some:
            pair = self.both.pair(first(some))
            yield f"{self.stage}: {what}, {count(some)} facts: {pair.old}, now {pair.new}: {pair.facts}"


class ManyJudging:
    """Judges what is told of a pair of rulesets by many facts."""

    def __init__(self, judging: Judging) -> None:
        self.judging, self.drawing = judging, judging.drawing
        self.dice = judging.drawing.dice

    def judged(self, total: int) -> Judged:
        """All of it, by so many facts: most at stages at which something may differ."""
        efforts = {stage: MUCH if self.may_differ(stage) else LITTLE for stage in BY_NAME}
        whole = sum(effort.weight for effort in efforts.values())
        found = self.judging.by_itself()
        for stage, effort in efforts.items():
            found += self.judged_at(stage, effort, -(-total * effort.weight // whole))
        return found

    def may_differ(self, stage: str) -> bool:
        return bool(self.judging.lines_at(stage)) or any(True for _ in self.judging.ways_at(stage))

    def judged_at(self, stage: str, effort: Effort, total: int) -> Judged:
        """What is told of a stage: half by facts by chance, on the way to what was changed and near what is told; and
        half near those of them that differ, where some do."""
        rows = list(self.rows_at(stage, effort.rows))
        one = self.judging_of(stage, multiplied(rows, max(total // 2, len(rows)), self.dice))
        near = [one.both.columns.row(number) for number in self.some_of(one.differ, effort.rows)]
        least = max(total - one.both.columns.size, 1)
        other = self.judging_of(stage, multiplied(near or rows, least, self.dice))
        shown = sum(bool(here.some & one.differ or there.some & other.differ)
                    for here, there in zip(one.classes, other.classes))
        found = Judged(classes=len(one.classes), shown=shown)
        return found + self.judged_by(one, effort.plainly) + self.judged_by(other, effort.plainly)

    def rows_at(self, stage: str, each: int) -> Iterator[Facts]:
        """Facts drawn one by one."""
        of, drawing = BY_NAME[stage], self.drawing
        lines, ways = self.judging.lines_at(stage), list(self.judging.ways_at(stage))
        for _ in range(each):
            yield drawing.come(of)
        for _ in range(each if ways else 0):
            yield drawing.toward(of, drawing.one(*ways))
        for _ in range(min(max(each, FOR_EACH_LINE * len(lines)), MOST_LINES) if lines else 0):
            yield drawing.told(of, drawing.one(*lines))
        for one in self.judging.told.classes:
            for _ in range(FOR_EACH_LINE if one.stage == stage and one.packets.lines else 0):
                yield drawing.told(of, drawing.one(*one.packets.lines))

    def judging_of(self, stage: str, columns: Columns) -> StageJudging:
        judging = self.judging
        both = Both(columns, done(judging.old, stage, columns), done(judging.new, stage, columns))
        comes = accepted(judging.assumed, columns) if judging.assumed else columns.all
        standing = Standing(columns)
        return StageJudging(stage, both, comes, [
            ToldClass(one, standing.of(one.packets.lines), both.agreeing(one))
            for one in judging.told.classes if one.stage == stage])

    def judged_by(self, at: StageJudging, plainly: int) -> Judged:
        """What the vectors tell, and where the plain reading differs from them."""
        size = at.both.columns.size
        numbers = [self.dice.randrange(size) for _ in range(plainly)] + self.some_of(at.differ, plainly)
        wrong = [one for number in numbers for one in self.otherwise(at, number)]
        return at.judged(self.judging.told.is_whole) + Judged(tuple(wrong), plainly=len(numbers))

    def otherwise(self, at: StageJudging, number: int) -> Iterator[str]:
        """What the plain reading has otherwise of one of the facts."""
        by_vectors = at.both.pair(number)
        facts = by_vectors.facts
        plainly = self.judging.pair_at(at.stage, facts)
        if plainly != by_vectors:
            yield f"{at.stage}: by vectors {by_vectors}, plainly {plainly}"
        if self.judging.comes(facts) != bool(at.comes >> number & 1):
            yield f"{at.stage}: by vectors it comes or not, plainly otherwise: {facts}"
        if plainly.old.is_like(plainly.new) != bool(at.both.like >> number & 1):
            yield f"{at.stage}: by vectors both do the same or not, plainly otherwise: {facts}"
        met = facts.met()
        for one in at.classes:
            if has(one.told, met) != bool(one.some >> number & 1):
                yield f"{at.stage}: {one.said}: by vectors it has it or not, plainly otherwise: {facts}"
            if bool(plainly.faults(one.told)) == bool(one.agreeing >> number & 1):
                yield f"{at.stage}: {one.said}: by vectors it is so or not, plainly otherwise: {facts}"

    def some_of(self, some: Vector, most: int) -> list[int]:
        """So many of the facts at most, by chance."""
        found: list[int] = []
        size = some.bit_length()
        for _ in range(most if some else 0):
            place = self.dice.randrange(size)
            found.append(place + first(some >> place))
        return found
