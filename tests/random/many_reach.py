"""What `nftrun reach --sets` says of a ruleset beside what many facts come to: by vectors (columns.py, walking.py),
where reaching.py goes fact by fact. Some facts of each base chain are taken fact by fact too, and have to agree."""
from __future__ import annotations

from dataclasses import dataclass, field
from typing import Iterator

from columns import Columns, Vector, count, first, multiplied
from facts import FactsDrawing, Reached, come_to
from reaching import MET, Kind, Tried, are_told, lines_at, sets_at
from reading import Chain, Table
from told_lines import Lines, Told, Where
from walking import Standing, Walk

ROWS, PLAINLY = 64, 5  # facts that are drawn one by one, and those that are taken by the plain reading too


@dataclass(frozen=True)
class Came:
    """Facts that came to a base chain, and what they came to."""

    chain: Chain
    columns: Columns
    walk: Walk
    ended: Vector

    def of(self, where: Where, kind: Kind) -> Vector:
        """Facts that came to a rule, met it, or came to the end."""
        if kind is Kind.ENDS:
            return self.ended
        return (self.walk.reached if kind is Kind.REACHED else self.walk.met).get(where, 0)

    def met_alone(self, where: Where, table: Table) -> Vector:
        """Facts that meet a rule as they came."""
        path, number = where
        alone = Walk(self.columns)
        alone.rule(table.chains[path.rsplit(" ", 1)[1]].rules[number - 1], where, self.columns.all)
        return alone.met.get(where, 0)


@dataclass
class ManyComparison:
    """Many facts beside the sets of a table, whose rules are watched."""

    told: Told
    table: Table
    reached: Reached
    wrong: list[str] = field(default_factory=list)
    all: Reached = field(default_factory=Reached)
    tried: Tried = Tried()

    def take(self, chain: Chain, drawing: FactsDrawing, total: int) -> None:
        """Compares what is told of so many facts at a base chain with what they come to."""
        assert chain.head is not None
        lines = lines_at(self.told, chain)
        rows = [drawing.drawn(chain.head) for _ in range(ROWS)]
        for line in [drawing.one(*lines) for _ in range(ROWS if lines else 0)]:
            rows.append(drawing.like(line, chain.head))
            self.tried += Tried(from_lines=1, in_line=int(Lines([line]).has(rows[-1].met())))
        columns = multiplied(rows, total, drawing.dice)
        walk = Walk(columns)
        came = Came(chain, columns, walk, walk.chain(self.table, chain, columns.all))
        self.all.take(Reached(set(walk.reached), set(walk.met), {chain.path} if came.ended else set()))
        self.compare(came)
        self.wrong += self.wrong_takers(came)
        for _ in range(PLAINLY):
            self.wrong += self.otherwise(came, drawing.below(columns.size))
        self.tried += Tried(facts=columns.size, plainly=PLAINLY)

    def compare(self, came: Came) -> None:
        """What is told of sets."""
        columns, standing = came.columns, Standing(came.columns)
        for one in sets_at(self.told, came.chain):
            stand, come = standing.of(one.lines.lines), came.of(one.where, one.word)
            self.tried += Tried(compared=columns.size, inside=count(stand))
            if stand != come:
                facts = columns.row(first(stand ^ come))
                self.wrong.append(f"{one.name}: {count(stand & ~come)} facts told and {count(come & ~stand)} not told "
                                  f"otherwise than by reading, as {facts}")

    def wrong_takers(self, came: Came) -> Iterator[str]:
        """Of rules that can't be met, and would be by facts, who takes these and isn't told."""
        for where, answer in self.told.rules.items():
            path, number = where
            chain = self.table.chains.get(path.rsplit(" ", 1)[1])
            if answer == MET or not chain or chain.path != path or (path, 1) not in came.walk.reached:
                continue
            meeting = came.met_alone(where, self.table)
            for it in range(1, number):
                took = meeting & came.of((path, it), Kind.REACHED) & ~came.of((path, it + 1), Kind.REACHED)
                if took and not are_told(answer, {it}):
                    yield f"{where}: rule {it} takes facts that would meet it, told: {answer}: " \
                          f"{came.columns.row(first(took))}"

    def otherwise(self, came: Came, number: int) -> Iterator[str]:
        """What the plain reading has otherwise of one of the facts."""
        come_to(self.table, came.chain, came.columns.row(number), self.reached)
        by_vectors = [{where for where, some in places.items() if some >> number & 1}
                      for places in (came.walk.reached, came.walk.met)]
        ended = {came.chain.path} if came.ended >> number & 1 else set()
        if Reached(by_vectors[0], by_vectors[1], ended) != self.reached:
            yield f"{came.chain.path}: by vectors {by_vectors} {ended}, plainly {self.reached}: " \
                  f"{came.columns.row(number)}"
