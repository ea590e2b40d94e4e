"""One rule: it becomes one line, or several of which a packet meets one."""
from __future__ import annotations

from dataclasses import replace
from typing import TYPE_CHECKING, List, Tuple

from .draft import MOST_LINES, Draft
from .effects import Effects
from .facts import KNOWN, MARKS, NEVER_IN_IPV4, first_word
from .grades import Grade
from .joined import JoinedKeys
from .maps import Maps
from .matches import Matches
from .numbers import holds
from .profile import takes
from .scanner import comment_behind, slice_of
from .translation import Translations
from .tree import (
    Bound,
    Calculation,
    Chain,
    ChangeOfSet,
    Counter,
    Expression,
    Joined,
    LeftOut,
    Log,
    Match,
    NotFitted,
    ObjectUse,
    Offload,
    Piece,
    Queue,
    Reject,
    Rule,
    Selector,
    Setting,
    Statement,
    Table,
    Translation,
    Untracked,
    Verdict,
    VerdictMap,
    selectors_in,
)
from .writes import Writes

if TYPE_CHECKING:
    from .fitter import Fitter

ENDS = (Verdict, VerdictMap, Translation, Reject, Queue)  # statements after which a rule goes no further
NO_PACKET = "no packet comes so far in the rule"
Line = Tuple[str, Tuple[int, ...]]  # a fitted rule, and which counters of the old one it has


class RuleFitter:
    """Fits one rule, statement by statement, each by the part that knows its kind."""

    def __init__(self, fitter: Fitter, table: Table, chain: Chain, rule: Rule) -> None:
        self.fitter, self.rule = fitter, rule
        self.draft = Draft(fitter, table, chain, rule)
        self.matches = Matches(self.draft)
        self.joined = JoinedKeys(self.draft, self.matches)
        self.maps = Maps(self.draft, self.matches, self.joined)
        self.writes = Writes(self.draft, self.matches, self.joined, self.maps)
        self.translations = Translations(self.draft, self.matches, self.joined, self.maps, self.writes)
        self.effects = Effects(self.draft, self.matches, self.maps)

    def fitted(self) -> list[Line]:
        """The lines of the rule in the fitted text."""
        try:
            if self.rule.fault:
                raise NotFitted(self.rule.fault)
            self.fit()
        except (NotFitted, RecursionError) as fault:
            return self.not_fitted(str(fault) if isinstance(fault, NotFitted) else "expressions nested too deeply")
        for it in self.draft.told.list:
            if self.draft.never_runs and it.grade != Grade.SAME:
                it = replace(it, grade=Grade.SAME, why="nftrun runs no chain of output")
            self.fitter.changes.list.append(it)
        warnings = self.fitter.changes.warnings
        warnings += [it for it in self.draft.told.warnings if it not in warnings]
        return self.texts()

    def not_fitted(self, why: str) -> list[Line]:
        text, never = self.rule.text, self.draft.never()
        if self.draft.never_runs:
            self.fitter.changes.tell(self.rule.token, Grade.SAME, text, never, "nftrun runs no chain of output")
        else:
            self.fitter.changes.refuse(self.rule.token, text, why)
        return [(never, ())]

    def unchanged(self) -> str | None:
        """The rule as it stands, where nothing of it changes."""
        stands = slice_of(self.rule.tokens)
        draft = self.draft
        if draft.told.list or len(draft.lines) != 1 or draft.before or stands is None or not takes(stands, "rule"):
            return None
        return stands + comment_behind(self.rule.tokens)

    def texts(self) -> list[Line]:
        draft = self.draft
        stands = self.unchanged()
        if stands is not None:
            return [(stands, tuple(it.counter for it in draft.lines[0] if it.counter))]
        lines = draft.before + [line or [Piece(draft.always())] for line in draft.lines]
        self.start_once(lines)
        if len(lines) > MOST_LINES:
            return self.not_fitted(f"it becomes more than {MOST_LINES} rules")
        if len(lines) > 1:
            self.tell_of_lines(len(lines))
        comment = f" comment {self.rule.comment}" if self.rule.comment else ""
        texts = [" ".join(it.text for it in line if it.text) + comment for line in lines]
        for text in texts:
            if not takes(text, "rule"):
                return self.not_fitted(f"it would become `{text}`, which nftrun hasn't")
        return [(text, tuple(it.counter for it in line if it.counter)) for text, line in zip(texts, lines)]

    def tell_of_lines(self, number: int) -> None:
        why = "a packet meets one of them"
        if self.draft.before:
            why = "the first does what is done once, and a packet meets one of the others"
        why += "; their counters are to be added"
        self.fitter.changes.tell(self.rule.token, Grade.SAME, "the rule", f"{number} rules", why)

    @staticmethod
    def start_once(lines: List[List[Piece]]) -> None:
        """Of the lines of one rule the first with a counter has its start."""
        seen: set[int] = set()
        for line in lines:
            for index, it in enumerate(line):
                if it.counter and it.counter in seen:
                    line[index] = replace(it, text="counter")
                seen.add(it.counter)

    # statement by statement

    def fit(self) -> None:
        draft = self.draft
        if self.never_from_the_start():
            return
        self.effects.test_of_reject()
        for draft.index, it in enumerate(self.rule.statements):
            draft.found = it
            if draft.is_dead:
                self.fit_dead(it)
                continue
            self.fit_statement(it)
            if isinstance(it.what, ENDS) and not draft.is_last() and not self.goes_past(it):
                draft.is_dead = True

    def fit_statement(self, it: Statement) -> None:
        """Fits the statement at hand by its kind."""
        what, rates = it.what, self.fitter.rates
        if rates is not None and rates.fits(self.draft, it):
            return
        if isinstance(what, Match):
            self.fit_match(what)
        elif isinstance(what, VerdictMap):
            self.maps.fit_vmap(what.left, what.map)
        elif isinstance(what, Verdict):
            self.effects.fit_verdict(what)
        elif isinstance(what, Translation):
            self.translations.fit_nat(what)
        elif isinstance(what, Setting):
            self.writes.fit_set(what.left, what.operand)
        elif isinstance(what, ChangeOfSet):
            self.effects.fit_dynamic(what)
        elif isinstance(what, Bound):
            self.effects.dynamic.fit_bound(what)
        else:
            self.fit_effect(what)

    def fit_match(self, what: Match) -> None:
        if isinstance(what.left, Joined):
            self.joined.match_joined(what.left, what.operator, what.right)
        else:
            self.matches.fit_match(what.left, what.operator, what.right)

    def fit_effect(self, what: Counter | ObjectUse | Log | Reject | Queue | Untracked | Offload | LeftOut) -> None:
        """What counts, tells, or ends a rule."""
        effects = self.effects
        if isinstance(what, Counter):
            effects.fit_counter(what)
        elif isinstance(what, ObjectUse):
            effects.fit_object(what.what, what.named)
        elif isinstance(what, Log):
            effects.fit_log(what)
        elif isinstance(what, LeftOut):
            effects.fit_left_out(what)
        elif isinstance(what, Reject):
            effects.fit_reject()
        elif isinstance(what, Queue):
            effects.fit_queue()
        elif isinstance(what, Offload):
            effects.fit_offload()
        else:
            effects.fit_notrack()

    def goes_past(self, it: Statement) -> bool:
        """Whether a packet may go on in the rule behind a verdict."""
        if isinstance(it.what, Verdict):
            return it.what.word == "continue"
        return isinstance(it.what, VerdictMap) and self.maps.has_continue

    def fit_dead(self, it: Statement) -> None:
        """What no packet reaches isn't needed; a counter is kept, to be found in the report."""
        lines = self.draft.lines
        if isinstance(it.what, Counter) and lines and not any(piece.kind == "end" for piece in lines[0]):
            self.effects.fit_counter(it.what)
        else:
            self.draft.tell(Grade.SAME, "left out", NO_PACKET)

    def never_from_the_start(self) -> bool:
        """A rule whose leading matches have one that no packet passes: nothing of it is met."""
        draft = self.draft
        if not any(self.is_never(it) for it in draft.leading_matches()):
            return False
        stands = slice_of(self.rule.tokens)
        if stands is not None and takes(stands, "rule"):
            draft.lines = [[Piece(stands)]]  # it is told by nothing: `texts` takes it as it stands
            self.count_counters()
            return True
        draft.put(draft.never())
        for it in self.rule.statements:
            draft.found = it
            if isinstance(it.what, Counter):
                self.effects.fit_counter(it.what)
            elif isinstance(it.what, ObjectUse) and it.what.what == "counter" and isinstance(it.what.named, str):
                self.effects.count("counter")
            elif isinstance(it.what, Verdict):
                self.effects.fit_verdict(it.what)
                break
        to = " ".join(it.text for it in draft.lines[0])
        draft.told.tell(self.rule.token, Grade.SAME, self.rule.text, to, "no IPv4 packet meets it")
        return True

    def count_counters(self) -> None:
        number = sum(isinstance(it.what, Counter) for it in self.rule.statements)
        first = self.draft.counters + 1
        self.draft.lines[0] += [Piece("", "effect", (), it) for it in range(first, first + number)]

    def is_never(self, it: Match | VerdictMap) -> bool:
        """Whether no IPv4 packet passes a match."""
        if any(first_word(one.name) in NEVER_IN_IPV4 for one in selectors_in(it.left)):
            return True
        if not isinstance(it, Match) or not isinstance(it.left, Selector):
            return False
        if it.left.name == "meta nfproto":
            return holds(2, it.operator, it.right, "nf_proto") is False
        fact = KNOWN.get(it.left.name)
        if fact is None or fact.assumption or fact.needs or it.left.name in self.fitter.written:
            return False
        return holds(fact.value, it.operator, it.right, "32", fact.words) is False


def marks_read(it: Expression) -> bool:
    """Whether an expression reads a mark."""
    if isinstance(it, Selector):
        return it.name in MARKS
    if isinstance(it, Joined):
        return any(map(marks_read, it.parts))
    return isinstance(it, Calculation) and (marks_read(it.left) or marks_read(it.right))
