"""One rule while it is fitted: the lines that it becomes so far, what is told of it, and how guesses about it are
decided."""
from __future__ import annotations

from typing import TYPE_CHECKING, Iterable, Iterator, Sequence

from toolbox.lexer import Kind

from .changes import Changes
from .facts import ICMP_FIELDS, MARKS, TRANSPORTS, first_word
from .grades import Grade
from .numbers import spell_value
from .profile import takes
from .scanner import place, shown, slice_of, spelled
from .tree import (
    Chain,
    Expression,
    Match,
    NotFitted,
    Piece,
    Queue,
    Reject,
    Rule,
    Statement,
    Table,
    Translation,
    Value,
    Verdict,
    VerdictMap,
    selectors_in,
)

if TYPE_CHECKING:
    from .fitter import Fitter

MOST_LINES = 512


class Draft:
    """`lines` are what the rule becomes so far, `before` those in front that do what is done once; `index` is that of
    the statement at hand, and `is_dead` whether no packet comes so far."""

    def __init__(self, fitter: Fitter, table: Table, chain: Chain, rule: Rule) -> None:
        self.fitter, self.table, self.chain, self.rule = fitter, table, chain, rule
        self.before: list[list[Piece]] = []
        self.lines: list[list[Piece]] = [[]]
        self.is_dead = False
        self.told, self.counters = Changes(), rule.counters_before
        self.index = 0
        self.found: Statement | None = None
        # what runs in chains of output alone meets no packet of a capture
        self.never_runs = chain.hooks == {"output"}

    @property
    def statement(self) -> Statement:
        """The statement at hand."""
        if self.found is None:
            raise ValueError("no statement is being fitted")
        return self.found

    def is_last(self) -> bool:
        return self.index + 1 == len(self.rule.statements)

    def leading_matches(self) -> Iterator[Match | VerdictMap]:
        """The matches before all else, and a vmap right behind them."""
        for it in self.rule.statements:
            if isinstance(it.what, (Match, VerdictMap)):
                yield it.what
            if not isinstance(it.what, Match):
                return

    # pieces

    def piece(self, text: str, kind: str = "match", reads: Iterable[str] = ()) -> Piece:
        return Piece(text, kind, tuple(reads))

    def put(self, text: str, kind: str = "match", reads: Iterable[str] = (), counter: int = 0) -> None:
        """Puts a piece behind all lines."""
        added = Piece(text, kind, tuple(reads), counter)
        self.lines = [line + [added] for line in self.lines]

    def statement_text(self) -> str:
        return slice_of(self.statement.tokens) or spelled(self.statement.tokens)

    def put_spelled(
        self, text: str, reads: Iterable[str] = (), kind: str = "match", plain: bool = True, reading: str = ""
    ) -> None:
        """Puts a statement that nftrun has: as it stands where nftrun takes that, else as `text`. `plain` is whether
        its values are those that nftrun knows; `reading` tells why nftrun would read it otherwise."""
        stands = self.statement_text()
        is_taken = takes(stands, "statement")
        if reading:
            self.tell(Grade.SAME, text, reading)
        elif is_taken and plain:
            text = stands
        else:
            self.tell(Grade.SAME, text, "spelled anew")
        self.put(text, kind, reads)

    def never(self) -> str:
        """A match that holds for no packet, and that nft(8) takes too."""
        return "meta nfproto ipv6" if self.table.family == "inet" else "ip length 0"

    def always(self) -> str:
        return "meta nfproto ipv4" if self.table.family == "inet" else "ip length != 0"

    def die(self) -> None:
        """The rest of the rule is met by no packet."""
        self.put(self.never())
        self.is_dead = True

    def split(self, ways: Sequence[Sequence[Piece]], reads: Sequence[str] = ()) -> None:
        """One line for each way. The ways exclude each other, by what `reads` names."""
        if not ways:
            self.die()
            return
        if len(ways) > 1:
            if any(self.fitter.marks.may_change(name) for name in MARKS if name in reads) and self.goes_on():
                raise NotFitted(
                    "a choice by a mark, behind which a packet meets the next rule, maybe with another mark"
                )
            self.do_once()
        self.lines = [line + list(way) for line in self.lines for way in ways]
        if len(self.lines) > MOST_LINES:
            raise NotFitted(f"it becomes more than {MOST_LINES} rules")

    def do_once(self) -> None:
        """What was done before a split is done in a line of its own, in front."""
        for line in self.lines:
            if any(piece.kind == "mark" for piece in line):
                raise NotFitted("a choice behind a mark that is set")
            if any(piece.kind == "effect" for piece in line):
                self.before.append(line)
        self.lines = [[piece for piece in line if piece.kind == "match"] for line in self.lines]

    def goes_on(self) -> bool:
        """Whether a packet that passed the rule may meet the next one."""
        last = self.rule.statements[-1].what
        if isinstance(last, (Translation, Reject, Queue)):
            return False
        if isinstance(last, VerdictMap):
            elements = self.fitter.sets.elements_of(self.table, last.map)
            return any(it.verdict.word in ("jump", "continue") for it in elements)
        return not isinstance(last, Verdict) or last.word in ("jump", "continue")

    def keep_tests(self, *operands: Expression | None) -> None:
        """A statement that reads `tcp sport` also asks for TCP, where it is left out too."""
        for header in dict.fromkeys(first_word(it.name) for it in selectors_in(operands)):
            if header in TRANSPORTS and not all(self.asks_for(header, line) for line in self.lines):
                self.put(f"meta l4proto {spell_value(Value(Kind.WORD, header), 'inet_proto')}")
        for words in dict.fromkeys(ICMP_FIELDS[it.name] for it in selectors_in(operands) if it.name in ICMP_FIELDS):
            text = f"icmp type {words[0]}" if len(words) == 1 else f"icmp type {{ {', '.join(words)} }}"
            if not all(self.has_one(line, [text, *(f"icmp type {it}" for it in words)]) for line in self.lines):
                self.put(text)
        for selector in selectors_in(operands):
            if selector.name.startswith("ct ") and selector.name not in ("ct state",):
                self.put("ct direction { original, reply }")

    @staticmethod
    def asks_for(header: str, line: Sequence[Piece]) -> bool:
        """Whether a line has a match that wants this protocol."""
        begins = f"{header} ", f"meta l4proto {header}"
        return any(it.text.startswith(begins) and it.kind == "match" for it in line)

    @staticmethod
    def has_one(line: Sequence[Piece], texts: Sequence[str]) -> bool:
        """Whether a line has one of these matches."""
        return any(it.text in texts and it.kind == "match" for it in line)

    # what is told

    def tell(self, grade: Grade, to: str, why: str, what: str | None = None) -> None:
        self.told.tell(self.rule.token, grade, what or self.statement_line(), to, why)

    def statement_line(self) -> str:
        return shown(self.statement.tokens)

    def way(self, name: str, what: str | None = None) -> str:
        """How a guess is decided."""
        way = self.fitter.assumptions.way(name, place(self.rule.token), what or self.statement_line())
        if way == "refuse":
            raise NotFitted(f"as asked: {name}=refuse")
        return way

    def guess(self, name: str, way: str, to: str, what: str | None = None, why: str | None = None) -> None:
        """Tells what a guess made of the statement."""
        self.tell(Grade.GUESS, to, why or self.fitter.assumptions.why(name, way), what)
